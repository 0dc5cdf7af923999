// Compares cairo_m_numeral with parse_number_literal of lexer.rs, which is compiled here unchanged, and its base with the spelling.
//
//   numerals LENGTH COUNT    every string of up to LENGTH letters, a leading 0x, 0o or 0b also with its letter in upper case,
//                            then COUNT random ones of up to 40 bytes

use std::marker::PhantomData;

// What stands for the lexer that hands the function its spelling.
mod logos {
    pub struct Lexer<'a, T>(pub &'a str, pub std::marker::PhantomData<T>);
    impl<'a, T> Lexer<'a, T> { pub fn slice(&self) -> &'a str { self.0 } }
}
pub struct TokenType<'a>(PhantomData<&'a ()>);

#[allow(dead_code)]
mod reference {
    use super::{logos, TokenType};
    include!(env!("CAIRO_M_REFERENCE"));
    pub fn parse<'a>(spelling: &'a str) -> Result<NumberLiteral<'a>, LexingError> {
        parse_number_literal(&logos::Lexer(spelling, std::marker::PhantomData))
    }
}

extern "C" {
    fn cairo_m_numeral(
        spelling: *const u8,
        len: usize,
        value: *mut u64,
        suffix: *mut u8,
        base: *mut u8,
        reason: *mut u8,
    ) -> u32;
}

#[derive(Debug, PartialEq, Eq, Clone, Copy)]
struct Answer {
    outcome: u32,
    value: u64,
    suffix: u8,
    reason: u8,
}

// The answer, and the base beside it.
fn ours(spelling: &[u8]) -> (Answer, u8) {
    let (mut value, mut suffix, mut base, mut reason) = (0xAAAA_AAAA_AAAA_AAAA, 0xAA, 0xAA, 0xAA);
    let outcome =
        unsafe { cairo_m_numeral(spelling.as_ptr(), spelling.len(), &mut value, &mut suffix, &mut base, &mut reason) };
    (Answer { outcome, value, suffix, reason }, base)
}

fn theirs(spelling: &[u8]) -> Answer {
    let refused = |outcome, reason| Answer { outcome, value: 0, suffix: 0, reason };
    if !is_spelling(spelling) {
        return refused(9, 0);
    }
    match reference::parse(std::str::from_utf8(spelling).unwrap()) {
        Ok(number) => {
            let suffix = match number.suffix {
                None => 0,
                Some("felt") => 1,
                Some("u32") => 2,
                Some(_) => 3,
            };
            Answer { outcome: 0, value: number.value, suffix, reason: 0 }
        }
        Err(reference::LexingError::InvalidNumber { reason: reference::NumberParseError::Overflow, .. }) => refused(3, 2),
        Err(reference::LexingError::InvalidNumber { reason: reference::NumberParseError::InvalidFormat, .. }) => refused(3, 3),
        Err(other) => panic!("lexer.rs answers {other:?}, which never arises by 01"),
    }
}

// What the first two bytes of a numeral say; lexer.rs hands out no base.
fn base_of(spelling: &[u8]) -> u8 {
    match (spelling[0], spelling.get(1)) {
        (b'0', Some(b'x' | b'X')) => 16,
        (b'0', Some(b'o' | b'O')) => 8,
        (b'0', Some(b'b' | b'B')) => 2,
        _ => 10,
    }
}

// The numeral's pattern of lexer.rs, one alternative after the other, with every split into digits and name.
fn is_spelling(s: &[u8]) -> bool {
    let after = |low: u8| s.len() > 2 && s[0] == b'0' && s[1] | 0x20 == low;
    after(b'x') && digits_then_name(&s[2..], |b| b.is_ascii_hexdigit())
        || after(b'o') && digits_then_name(&s[2..], |b| (b'0'..=b'7').contains(&b))
        || after(b'b') && digits_then_name(&s[2..], |b| b == b'0' || b == b'1')
        || digits_then_name(s, |b| b.is_ascii_digit())
}

fn digits_then_name(s: &[u8], is_digit: fn(u8) -> bool) -> bool {
    let run = s.iter().take_while(|&&b| is_digit(b)).count();
    (1..=run).any(|cut| cut == s.len() || is_name(&s[cut..]))
}

fn is_name(s: &[u8]) -> bool {
    let begins = |b: u8| b.is_ascii_alphabetic() || b == b'_';
    begins(s[0]) && s.iter().all(|&b| begins(b) || b.is_ascii_digit())
}

#[derive(Default)]
struct Counts {
    numbers: u64,
    by_base: [u64; 17],
    overflows: u64,
    formats: u64,
    others: u64,
    differences: u64,
}

impl Counts {
    fn compare(&mut self, spelling: &[u8]) {
        let ((a, base), b) = (ours(spelling), theirs(spelling));
        let base_owed = if b.outcome == 0 { base_of(spelling) } else { 0 };
        self.by_base[base_owed as usize] += 1;
        match (b.outcome, b.reason) {
            (0, _) => self.numbers += 1,
            (3, 2) => self.overflows += 1,
            (3, _) => self.formats += 1,
            _ => self.others += 1,
        }
        if a != b || base != base_owed {
            self.differences += 1;
            if self.differences <= 20 {
                let spelling = String::from_utf8_lossy(spelling);
                println!("numerals: {spelling:?}: ours {a:?}, lexer.rs {b:?}; our base {base}, by the spelling {base_owed}");
            }
        }
    }

    fn say(&self, words: &str) {
        let Counts { numbers, by_base, overflows, formats, others, differences } = self;
        let bases = [2, 8, 10, 16].map(|base: usize| format!("{} of base {base}", by_base[base])).join(", ");
        println!("numerals: {words}: {numbers} numbers ({bases}), {overflows} overflows, {formats} format errors, {others} of no numeral; {differences} differ");
    }
}

const LETTERS: &[u8; 16] = b"01279abxofeltu3_";

fn every(length: usize, counts: &mut Counts) {
    let mut text = [0u8; 16];
    for size in 0..=length {
        for number in 0..16u64.pow(size as u32) {
            for (place, byte) in text[..size].iter_mut().enumerate() {
                *byte = LETTERS[(number >> (4 * place)) as usize & 15];
            }
            counts.compare(&text[..size]);
            if size > 1 && text[0] == b'0' && matches!(text[1], b'x' | b'o' | b'b') {
                text[1].make_ascii_uppercase();
                counts.compare(&text[..size]);
            }
        }
    }
}

// splitmix64, so that every run has the same strings.
struct Chance(u64);

impl Chance {
    fn below(&mut self, bound: usize) -> usize {
        self.0 = self.0.wrapping_add(0x9E37_79B9_7F4A_7C15);
        let mut mixed = self.0;
        mixed = (mixed ^ (mixed >> 30)).wrapping_mul(0xBF58_476D_1CE4_E5B9);
        mixed = (mixed ^ (mixed >> 27)).wrapping_mul(0x94D0_49BB_1331_11EB);
        ((mixed ^ (mixed >> 31)) % bound as u64) as usize
    }
}

const HEADS: [&str; 10] = ["", "", "", "", "0x", "0X", "0o", "0O", "0b", "0B"];
const PARTS: [&str; 24] = [
    "felt", "felt", "felt", "u32", "u32", "u32", "fel", "elt", "u3", "32", "f", "F", "_", "x", "g", "0", "1", "7", "8", "9", "feltu32",
    "18446744073709551615", "1844674407370955161", "FFFFFFFFFFFFFFFF",
];

// A value of 19 to 21 digits, mostly near the largest one that fits.
fn large(chance: &mut Chance) -> String {
    let near = (u64::MAX as u128 + 50 - chance.below(100) as u128).to_string();
    let digits: String = (0..19 + chance.below(3)).map(|_| char::from(b'0' + chance.below(10) as u8)).collect();
    match chance.below(4) {
        0 => digits,
        1 => format!("0{near}"),
        2 => format!("{:x}", u64::MAX as u128 + 2 - chance.below(4) as u128),
        _ => near,
    }
}

fn random(chance: &mut Chance) -> Vec<u8> {
    let mut text = HEADS[chance.below(HEADS.len())].to_string();
    text += &match chance.below(3) {
        0 => large(chance),
        1 => (0..chance.below(24)).map(|_| char::from(b'0' + chance.below(10) as u8)).collect(),
        _ => (0..chance.below(24)).map(|_| char::from(LETTERS[chance.below(16)])).collect(),
    };
    for _ in 0..chance.below(4) {
        text += PARTS[chance.below(PARTS.len())];
    }
    let mut bytes = text.into_bytes();
    bytes.truncate(40);
    if chance.below(8) == 0 && !bytes.is_empty() {
        let at = chance.below(bytes.len());
        bytes[at] = chance.below(256) as u8;
    }
    bytes
}

fn main() {
    let words: Vec<usize> = std::env::args().skip(1).map(|word| word.parse().expect("a number")).collect();
    let (length, count) = (words[0], words[1]);
    let mut counts = Counts::default();
    every(length, &mut counts);
    counts.say(&format!("every string of up to {length} letters of {:?}", String::from_utf8_lossy(LETTERS)));
    let mut more = Counts::default();
    let mut chance = Chance(1);
    for _ in 0..count {
        more.compare(&random(&mut chance));
    }
    more.say(&format!("{count} random strings"));
    if counts.differences + more.differences > 0 {
        std::process::exit(1);
    }
}
