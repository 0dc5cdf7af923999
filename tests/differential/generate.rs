//! Texts for the differential run, each from a seed and its number alone.

use std::borrow::Cow;

/// splitmix64
pub struct Random(u64);

impl Random {
    pub fn new(seed: u64, number: u64) -> Random {
        let mut random = Random(seed ^ number.wrapping_mul(0xd134_2543_de82_ef95));
        random.next();
        Random(random.next() ^ number)
    }

    pub fn next(&mut self) -> u64 {
        self.0 = self.0.wrapping_add(0x9e37_79b9_7f4a_7c15);
        let mut z = self.0;
        z = (z ^ z >> 30).wrapping_mul(0xbf58_476d_1ce4_e5b9);
        z = (z ^ z >> 27).wrapping_mul(0x94d0_49bb_1331_11eb);
        z ^ z >> 31
    }

    /// A number below `bound`, which is not 0.
    pub fn below(&mut self, bound: usize) -> usize {
        (self.next() >> 16) as usize % bound
    }

    pub fn one_in(&mut self, bound: usize) -> bool {
        self.below(bound) == 0
    }

    pub fn pick<T: Copy>(&mut self, from: &[T]) -> T {
        from[self.below(from.len())]
    }
}

type Word = Cow<'static, str>;

const KEYWORDS: [&str; 18] = [
    "as", "const", "else", "false", "fn", "if", "let", "new", "return", "struct", "true", "while", "loop", "for", "in", "break",
    "continue", "use",
];
const MARKS: [&str; 30] = [
    "!", "&&", "||", "&", "|", "^", "==", "!=", "<=", ">=", "<", ">", "+", "-", "*", "/", "%", "=", "->", "(", ")", "{", "}", "[",
    "]", ",", ";", ":", "::", ".",
];
const OPERATORS: [&str; 16] = ["+", "-", "*", "/", "%", "==", "!=", "<", ">", "<=", ">=", "&&", "||", "&", "|", "^"];
const NAMES: [&str; 20] = [
    "a", "b", "c", "x", "y", "S", "f", "_", "__", "_1", "felt", "u32", "bool", "iff", "If", "newt", "as_", "fort", "in_", "A9z",
];
const TYPE_NAMES: [&str; 6] = ["felt", "bool", "u32", "T", "felt_", "u8"];

// ---- numerals

const BASES: [(&str, &str); 7] = [
    ("", "0123456789"),
    ("0x", "0123456789abcdefABCDEF"),
    ("0X", "0123456789abcdefABCDEF"),
    ("0o", "01234567"),
    ("0O", "01234567"),
    ("0b", "01"),
    ("0B", "01"),
];
const EDGES: [&str; 20] = [
    "9007199254740991",
    "9007199254740992",
    "9007199254740993",
    "1fffffffffffff",
    "20000000000000",
    "377777777777777777",
    "400000000000000000",
    "18446744073709551615",
    "18446744073709551616",
    "18446744073709551620",
    "99999999999999999999",
    "184467440737095516150",
    "ffffffffffffffff",
    "FFFFFFFFFFFFFFFFF",
    "10000000000000000",
    "1777777777777777777777",
    "2000000000000000000000",
    "1111111111111111111111111111111111111111111111111111111111111111",
    "10000000000000000000000000000000000000000000000000000000000000000",
    "0",
];
const SUFFIXES: [&str; 24] = [
    "", "", "", "felt", "u32", "felt", "u32", "u8", "i64", "feltu32", "u32felt", "feltfelt", "u32u32", "_felt", "felt_", "_", "x",
    "e5", "fel", "u3", "felt2", "u32x", "_x", "b1",
];

/// A numeral, often an odd one: any base, digits of another, suffix words in odd places, values on the edge.
pub fn odd_numeral(random: &mut Random) -> String {
    let (mut spelling, digits) = {
        let (base, digits) = random.pick(&BASES);
        (base.to_string(), digits.as_bytes())
    };
    for _ in 0..[0, 0, 0, 1, 2, 30][random.below(6)] {
        spelling.push('0');
    }
    match random.below(8) {
        0 => {}
        1 | 2 => spelling.push_str(random.pick(&EDGES)),
        3 => {
            for _ in 0..random.below(70) {
                spelling.push(random.pick(digits) as char);
            }
        }
        4 => {
            for _ in 0..random.below(9) {
                spelling.push(random.pick(b"0123456789abcdefxoABXO_feltu32") as char);
            }
        }
        _ => {
            for _ in 0..1 + random.below(4) {
                spelling.push(random.pick(digits) as char);
            }
        }
    }
    spelling.push_str(random.pick(&SUFFIXES));
    if random.one_in(6) {
        let at = random.below(spelling.len() + 1);
        spelling.insert_str(at, random.pick(&["felt", "u32", "f", "9", "_", "u", "x"]));
    }
    if !spelling.as_bytes().first().is_some_and(u8::is_ascii_digit) {
        spelling.insert(0, '1');
    }
    spelling
}

/// A numeral that fits, without suffix: any base, either case of its letter and of its digits.
fn any_base(random: &mut Random) -> String {
    let value = if random.one_in(16) {
        // the largest, and those around the largest that a listing has as a number
        random.pick(&[u64::MAX, (1 << 53) - 1, 1 << 53, (1 << 53) + 1])
    } else {
        random.next() >> random.pick(&[0, 0, 30, 48, 56, 60, 61, 63])
    };
    match random.below(10) {
        0 => format!("0x{value:x}"),
        1 => format!("0x{value:X}"),
        2 => format!("0X{value:x}"),
        3 => format!("0X{value:X}"),
        4 => format!("0o{value:o}"),
        5 => format!("0O{value:o}"),
        6 => format!("0b{value:b}"),
        7 => format!("0B{value:b}"),
        // leading zeros set no base
        8 => format!("00{value}"),
        _ => format!("{value}"),
    }
}

/// Bytes for the numeral entry: mostly numerals, some not, a few on the edge of the length.
pub fn numeral_bytes(random: &mut Random) -> Vec<u8> {
    let mut bytes = odd_numeral(random).into_bytes();
    match random.below(40) {
        0 => bytes.clear(),
        1 => bytes.insert(0, random.next() as u8),
        2 => bytes.push(random.next() as u8),
        3 | 4 => {
            let at = random.below(bytes.len());
            bytes[at] = random.next() as u8;
        }
        5 if random.one_in(50) => {
            let length = 65_530 + random.below(10);
            bytes.resize(length, random.pick(b"0019af_"));
            if random.one_in(2) {
                bytes[length - 4..].copy_from_slice(b"felt");
            }
        }
        _ => {}
    }
    bytes
}

// ---- programs from the grammar

struct Program<'a> {
    random: &'a mut Random,
    words: Vec<Word>,
    /// How many words the program should still get.
    left: isize,
    nest: usize,
    deepest: usize,
    /// A careful program says nothing that a reading should refuse, unless it is too deep. Long ones would otherwise hardly ever
    /// be accepted.
    careful: bool,
}

impl Program<'_> {
    fn say(&mut self, words: &'static str) {
        for word in words.split_ascii_whitespace() {
            self.words.push(Cow::Borrowed(word));
            self.left -= 1;
        }
    }

    fn one_in(&mut self, bound: usize) -> bool {
        self.random.one_in(bound)
    }

    /// A slip, unless the program is a careful one.
    fn slip(&mut self, bound: usize) -> bool {
        !self.careful && self.random.one_in(bound)
    }

    /// Whether the part at hand should be a small one.
    fn full(&mut self) -> bool {
        self.left <= 0 || self.nest >= self.deepest
    }

    fn name(&mut self) {
        if self.random.one_in(8) {
            let mut name = String::new();
            for _ in 0..1 + self.random.below(12) {
                name.push(self.random.pick(b"abcxyzABCXYZ_09") as char);
            }
            if name.as_bytes()[0].is_ascii_digit() {
                name.insert(0, 'n');
            }
            self.words.push(Cow::Owned(name));
            self.left -= 1;
        } else {
            let name = self.random.pick(&NAMES);
            self.say(name);
        }
    }

    fn numeral(&mut self) {
        let numeral = match self.random.below(30) {
            0 if !self.careful => odd_numeral(self.random),
            1 if !self.careful && self.one_in(2) => format!("{}u8", any_base(self.random)),
            1 if !self.careful => format!("{}u8", self.random.below(300)),
            2 => format!("{}felt", self.random.below(300)),
            3 => format!("{}u32", self.random.below(300)),
            4 | 5 => format!("{}felt", any_base(self.random)),
            6 | 7 => format!("{}u32", any_base(self.random)),
            8..=11 => any_base(self.random),
            _ => format!("{}", self.random.below(12)),
        };
        self.words.push(Cow::Owned(numeral));
        self.left -= 1;
    }

    fn count(&mut self) {
        if self.slip(12) {
            self.numeral();
        } else if self.one_in(2) {
            let count = any_base(self.random);
            self.words.push(Cow::Owned(count));
            self.left -= 1;
        } else {
            let count = self.random.pick(&["0", "3", "0x10", "18446744073709551615"]);
            self.say(count);
        }
    }

    /// None or more of a part, parted by commas; how many is left to chance and to the words left.
    fn list(&mut self, least: usize, trailing: bool, part: impl Fn(&mut Self)) {
        let longest = if self.one_in(30) { 40 } else { 4 };
        let most = if self.full() { least } else { least + self.random.below(longest) };
        for i in 0..most {
            if i > 0 {
                self.say(",");
            }
            part(self);
        }
        if most > 0 && trailing && self.one_in(4) {
            self.say(",");
        }
    }

    fn nested(&mut self, part: impl FnOnce(&mut Self)) {
        self.nest += 1;
        part(self);
        self.nest -= 1;
    }

    fn type_expr(&mut self, arrays: bool) {
        self.nested(|program| {
            let choice = if program.full() { 0 } else { program.random.below(10) };
            match choice {
                6 | 7 if arrays => {
                    program.say("[");
                    program.type_expr(true);
                    program.say(";");
                    if program.slip(20) {
                        program.expression();
                    } else {
                        program.count();
                    }
                    program.say("]");
                }
                8 | 9 => {
                    program.say("(");
                    if program.one_in(8) {
                        program.say(",");
                    } else {
                        program.list(0, true, |program| program.type_expr(arrays));
                    }
                    if program.slip(10) {
                        program.say(",");
                    }
                    program.say(")");
                }
                _ => {
                    let name = program.random.pick(&TYPE_NAMES);
                    program.say(name);
                }
            }
            while program.one_in(6) {
                program.say("*");
            }
        });
    }

    fn pattern(&mut self) {
        self.nested(|program| {
            if program.full() || !program.one_in(4) {
                program.name();
            } else {
                program.say("(");
                let least = if program.slip(12) { 1 } else { 2 };
                program.list(least, false, Self::pattern);
                program.say(")");
            }
        });
    }

    fn expression(&mut self) {
        self.nested(|program| {
            program.operand();
            while program.left > 0 && program.one_in(3) {
                let operator = program.random.pick(&OPERATORS);
                program.say(operator);
                program.operand();
            }
        });
    }

    fn operand(&mut self) {
        while self.one_in(8) {
            let prefix = self.random.pick(&["!", "-"]);
            self.say(prefix);
        }
        self.atom();
        while self.left > 0 && self.one_in(4) {
            match self.random.below(7) {
                0 | 1 => {
                    self.say("(");
                    self.list(0, true, Self::expression);
                    self.say(")");
                }
                2 | 3 => {
                    self.say(".");
                    self.name();
                }
                4 => {
                    self.say(".");
                    self.count();
                }
                _ => {
                    self.say("[");
                    self.expression();
                    self.say("]");
                }
            }
        }
        while self.one_in(10) {
            self.say("as");
            let name = self.random.pick(&TYPE_NAMES);
            self.say(name);
        }
    }

    fn atom(&mut self) {
        let choice = if self.full() { self.random.below(6) } else { self.random.below(16) };
        match choice {
            0..=2 => self.name(),
            3 | 4 => self.numeral(),
            5 => {
                let word = self.random.pick(&["true", "false"]);
                self.say(word);
            }
            6 => {
                self.say("new");
                let arrays = self.slip(6);
                self.type_expr(arrays);
                self.say("[");
                self.expression();
                self.say("]");
            }
            7 | 8 => {
                self.name();
                self.say("{");
                self.list(0, true, |program| {
                    program.name();
                    program.say(":");
                    program.expression();
                });
                self.say("}");
            }
            9 => {
                self.say("[");
                self.expression();
                self.say(";");
                self.count();
                self.say("]");
            }
            10 | 11 => {
                self.say("[");
                self.list(0, true, Self::expression);
                self.say("]");
            }
            12 | 13 => {
                self.say("(");
                self.expression();
                self.say(")");
            }
            _ => {
                self.say("(");
                self.list(0, true, Self::expression);
                self.say(")");
            }
        }
    }

    fn assignment_or_expr(&mut self) {
        self.expression();
        if self.one_in(3) {
            self.say("=");
            self.expression();
        }
    }

    fn typed_value(&mut self) {
        if self.one_in(3) {
            self.say(":");
            self.type_expr(true);
        }
        self.say("=");
        self.expression();
        self.say(";");
    }

    /// A condition and its statement.
    fn conditional(&mut self) {
        if self.slip(4) {
            self.expression();
        } else if self.one_in(6) {
            // neither in parentheses from the start, nor going on into the block
            self.say("a <");
            self.expression();
            self.say("< true");
            self.nested(Self::body);
            return;
        } else {
            self.say("(");
            self.expression();
            self.say(")");
        }
        self.statement();
    }

    fn body(&mut self) {
        self.say("{");
        for _ in 0..self.random.below(5) {
            if self.left > 0 {
                self.statement();
            }
        }
        self.say("}");
    }

    fn statement(&mut self) {
        self.nested(|program| {
            let choice = if program.full() { 12 + program.random.below(8) } else { program.random.below(20) };
            match choice {
                0 | 1 => program.body(),
                2..=5 => {
                    program.say("if");
                    program.conditional();
                    if program.one_in(2) {
                        program.say("else");
                        program.statement();
                    }
                }
                6 => {
                    program.say("loop");
                    program.statement();
                }
                7 | 8 => {
                    program.say("while");
                    program.conditional();
                }
                9..=11 => {
                    program.say("for (");
                    if program.one_in(2) {
                        program.say("let");
                        program.pattern();
                        program.typed_value();
                    } else {
                        program.assignment_or_expr();
                        program.say(";");
                    }
                    program.expression();
                    program.say(";");
                    program.assignment_or_expr();
                    program.say(")");
                    program.statement();
                }
                12 => {
                    let word = program.random.pick(&["break ;", "continue ;"]);
                    program.say(word);
                }
                13 | 14 => {
                    program.say("let");
                    program.pattern();
                    program.typed_value();
                }
                15 => {
                    program.say("const");
                    program.name();
                    program.typed_value();
                }
                16 => {
                    program.say("return");
                    if !program.one_in(3) {
                        program.expression();
                    }
                    program.say(";");
                }
                _ => {
                    program.assignment_or_expr();
                    program.say(";");
                }
            }
        });
    }

    fn field(&mut self) {
        self.name();
        self.say(":");
        self.type_expr(true);
    }

    fn item(&mut self) {
        match self.random.below(10) {
            0..=4 => {
                self.say("fn");
                self.name();
                self.say("(");
                self.list(0, true, Self::field);
                self.say(")");
                if self.one_in(3) {
                    self.say("->");
                    self.type_expr(true);
                }
                self.say("{");
                while self.left > 0 && !self.one_in(8) {
                    self.statement();
                }
                self.say("}");
            }
            5 => {
                self.say("struct");
                self.name();
                self.say("{");
                self.list(0, true, Self::field);
                self.say("}");
            }
            6..=8 => {
                self.say("const");
                self.name();
                self.typed_value();
            }
            _ => {
                self.say("use");
                self.name();
                while self.one_in(2) {
                    self.say("::");
                    self.name();
                }
                if self.one_in(2) {
                    self.say("::");
                    self.say("{");
                    self.list(0, true, Self::name);
                    self.say("}");
                }
                self.say(";");
            }
        }
    }
}

fn program(random: &mut Random, size: usize) -> Vec<Word> {
    let deepest = [3, 6, 12, 12, 30, 62, 66][random.below(7)];
    let careful = !random.one_in(3);
    let mut program = Program { random, words: Vec::new(), left: size as isize, nest: 0, deepest, careful };
    while program.left > 0 {
        program.item();
    }
    program.words
}

// ---- depths around the nest limit

#[derive(Clone, Copy, PartialEq)]
enum Sort {
    Statement,
    Expression,
    Type,
    Allocation,
    Pattern,
}

use Sort::{Allocation as A, Expression as E, Pattern as P, Statement as S, Type as T};

/// What stands around a part, and the sort of the part inside. Some of these fail, or are read in more than one attempt.
const AROUND: &[(Sort, &str, &str, Sort)] = &[
    (S, "{", "}", S),
    (S, "{ a ;", "b ; }", S),
    (S, "if ( a )", "", S),
    (S, "if ( a )", "else b ;", S),
    (S, "if ( a ) b ; else", "", S),
    (S, "if a", "", S),
    (S, "if a + b", "", S),
    (S, "loop", "", S),
    (S, "while ( a )", "", S),
    (S, "while a", "", S),
    (S, "for ( let i = 0 ; i < 9 ; i = i + 1 )", "", S),
    (S, "for ( a ; b ; c )", "", S),
    (S, "", ";", E),
    (S, "", "= a ;", E),
    (S, "a =", ";", E),
    (S, "return", ";", E),
    (S, "let a =", ";", E),
    (S, "const A =", ";", E),
    (S, "let a : felt =", ";", E),
    (S, "let a :", "= 1 ;", T),
    (S, "const A :", "= 1 ;", T),
    (S, "let", "= 1 ;", P),
    (S, "if (", ") { }", E),
    (S, "if (", ") a ; else b ;", E),
    (S, "if", "{ }", E),
    (S, "if", "a ;", E),
    (S, "if (", ", b ) { }", E),
    (S, "if (", ", b ) c ;", E),
    (S, "if (", ") == b { }", E),
    (S, "if a [", ", 1 ] ;", E),
    (S, "if a (", ", 1 ) ;", E),
    (S, "if a {", "}", E),
    (S, "if a { b :", "}", E),
    (S, "if a { b :", "} c ;", E),
    (S, "if ( a ) b ; else {", ") }", E),
    (S, "while (", ") { }", E),
    (S, "while", "a ;", E),
    (S, "while (", ", a ) b ;", E),
    (S, "for (", "; a ; b ) c ;", E),
    (S, "for ( a =", "; b ; c ) d ;", E),
    (S, "for ( let", "= 1 ; b ; c ) d ;", P),
    (S, "for ( let a :", "= 1 ; b ; c ) d ;", T),
    (S, "for ( let a =", "; b ; c ) d ;", E),
    (S, "for ( a ;", "; c ) d ;", E),
    (S, "for ( a ; b ;", ") d ;", E),
    (S, "for ( a ; b ; c =", ") d ;", E),
    (E, "(", ")", E),
    (E, "(", ", )", E),
    (E, "(", ", a )", E),
    (E, "( a ,", ")", E),
    (E, "[", "]", E),
    (E, "[", "; 3 ]", E),
    (E, "[", "; 0B11 ]", E),
    (E, "[", ", a ]", E),
    (E, "[ a ,", "]", E),
    (E, "f (", ")", E),
    (E, "f ( a ,", ")", E),
    (E, "a [", "]", E),
    (E, "S { a :", "}", E),
    (E, "S { a : 1 , b :", ", }", E),
    (E, "new felt [", "]", E),
    (E, "new", "[ 1 ]", A),
    (E, "new", "[ 1 ]", T),
    (E, "- ! (", ")", E),
    (E, "a + b * (", ") as felt", E),
    (E, "(", ") . 0 . a", E),
    (E, "(", ") . 0o1 . 0x2", E),
    (E, "a . b (", ") [ 0 ]", E),
    (T, "(", ")", T),
    (T, "(", ", )", T),
    (T, "(", ") *", T),
    (T, "( felt ,", ")", T),
    (T, "[", "; 3 ]", T),
    (T, "[", "; 0x3 ]", T),
    (T, "[ felt ;", "]", E),
    (A, "(", ")", A),
    (A, "(", ", )", A),
    (A, "(", ") *", A),
    (A, "( felt ,", ")", A),
    (P, "(", ", b )", P),
    (P, "( a ,", ")", P),
];

/// Items whose part inside is at nest 1.
const AROUND_ITEM: &[(&str, &str, Sort)] = &[
    ("fn f ( ) {", "}", S),
    ("fn f ( ) {", "}", S),
    ("fn f ( ) { a ;", "b ; }", S),
    ("const A =", ";", E),
    ("const A :", "= 1 ;", T),
    ("fn f ( a :", ") { }", T),
    ("fn f ( ) ->", "{ }", T),
    ("struct S { a :", ", }", T),
];

fn leaf(random: &mut Random, sort: Sort) -> &'static str {
    match sort {
        S => random.pick(&["a ;", "", "{ }", "break ;", "return ;", "if ( a ) { }", "if ( a , b ) { }", "let a = 1 ;"]),
        E => random.pick(&[
            "a", "1", "1", "1u8", "", "( )", "[ ]", "S { }", "f ( )", "a . 0", "- a", "a as T", "a + b", "new T [ 1 ]",
            "S { a : 1 }", "0X1f", "0b1felt", "0o7u32", "[ 1 ; 0O7 ]",
        ]),
        T => random.pick(&["felt", "felt", "( )", "( , )", "", "[ T ; 3 ]", "T * *", "( T )", "[ T ; 0b11 ]"]),
        A => random.pick(&["felt", "felt", "( )", "( , )", "", "T * *", "( T )"]),
        P => random.pick(&["a", "a", "( a , b )", "", "( a )"]),
    }
}

/// A text whose innermost part is at a nest around 64, out of one construct or of many.
fn deep(random: &mut Random) -> Vec<Word> {
    let target = match random.below(10) {
        0 => 1 + random.below(60),
        1 => 66 + random.below(40),
        _ => 61 + random.below(6),
    };
    let (head, tail, mut sort) = random.pick(AROUND_ITEM);
    let mut words: Vec<&'static str> = head.split_ascii_whitespace().collect();
    let mut tails = vec![tail];
    // one construct goes on for as long as its sort comes back
    let one = random.one_in(2);
    let mut last: Option<usize> = None;
    for _ in 1..target {
        let again = last.filter(|&i| one && AROUND[i].0 == sort && AROUND[i].3 == sort);
        let chosen = again.unwrap_or_else(|| loop {
            let i = random.below(AROUND.len());
            // statements and types should not end too soon
            if AROUND[i].0 == sort && (AROUND[i].3 == sort || random.one_in(12)) {
                break i;
            }
        });
        if again.is_some() && random.one_in(60) {
            last = None;
        } else {
            last = Some(chosen);
        }
        words.extend(AROUND[chosen].1.split_ascii_whitespace());
        tails.push(AROUND[chosen].2);
        sort = AROUND[chosen].3;
    }
    words.extend(leaf(random, sort).split_ascii_whitespace());
    for tail in tails.iter().rev() {
        words.extend(tail.split_ascii_whitespace());
    }
    words.into_iter().map(Cow::Borrowed).collect()
}

// ---- damage

fn any_word(random: &mut Random) -> Word {
    match random.below(10) {
        0 => Cow::Owned(odd_numeral(random)),
        1 => Cow::Borrowed(random.pick(&["0", "1", "12u8", "3felt", "4u32", "0x1f", "0XAu32", "0o17felt", "0O7", "0b10", "0B1u8"])),
        2 | 3 => Cow::Borrowed(random.pick(&NAMES)),
        4 | 5 => Cow::Borrowed(random.pick(&KEYWORDS)),
        _ => Cow::Borrowed(random.pick(&MARKS)),
    }
}

fn damage_words(random: &mut Random, words: &mut Vec<Word>) {
    for _ in 0..[1, 1, 1, 2, 3, 6][random.below(6)] {
        if words.is_empty() {
            words.push(any_word(random));
            continue;
        }
        let at = random.below(words.len());
        match random.below(9) {
            0 | 1 => {
                words.remove(at);
            }
            2 => words.insert(at, words[at].clone()),
            3 => {
                let other = if random.one_in(2) { (at + 1) % words.len() } else { random.below(words.len()) };
                words.swap(at, other);
            }
            4 | 5 => words[at] = any_word(random),
            6 => words.insert(at, any_word(random)),
            7 => {
                let end = (at + 1 + random.below(8)).min(words.len());
                words.drain(at..end);
            }
            _ => {
                if random.one_in(3) {
                    words.truncate(at);
                } else {
                    let other = words[random.below(words.len())].clone();
                    words.insert(at, other);
                }
            }
        }
    }
}

/// Characters of all lengths, then bytes that are not UTF-8.
const CHARACTERS: [&[u8]; 26] = [
    b"@", b"$", b"\"", b"'", b"\\", b"`", b"~", b"?", b"#", b"\0", b"\x7f", b"\x0b", b"\x0c",
    "\u{80}".as_bytes(),
    "\u{e9}".as_bytes(),
    "\u{7ff}".as_bytes(),
    "\u{800}".as_bytes(),
    "\u{20ac}".as_bytes(),
    "\u{d7ff}".as_bytes(),
    "\u{e000}".as_bytes(),
    "\u{feff}".as_bytes(),
    "\u{ffff}".as_bytes(),
    "\u{10000}".as_bytes(),
    "\u{1f600}".as_bytes(),
    "\u{10ffff}".as_bytes(),
    "\u{661}".as_bytes(),
];
const NOT_UTF8: [&[u8]; 22] = [
    b"\x80", b"\xbf", b"\xc0\x80", b"\xc1\xbf", b"\xc2", b"\xc2\x20", b"\xdf\xc0", b"\xe0\x80\x80", b"\xe0\x9f\xbf", b"\xe0\xa0",
    b"\xed\xa0\x80", b"\xed\xbf\xbf", b"\xef\xbf", b"\xf0\x80\x80\x80", b"\xf0\x8f\xbf\xbf", b"\xf0\x90\x80", b"\xf4\x90\x80\x80",
    b"\xf5\x80\x80\x80", b"\xf8\x88\x80\x80\x80", b"\xff", b"\xfe", b"\xe2\x82\x28",
];

fn damage_bytes(random: &mut Random, text: &mut Vec<u8>) {
    for _ in 0..[1, 1, 2, 4][random.below(4)] {
        let at = random.below(text.len() + 1);
        match random.below(8) {
            0 => text.insert(at, random.next() as u8),
            1 => text.insert(at, random.pick(b" \t\r\n/_0a(){}[],;:.=-*")),
            2 if at < text.len() => {
                text.remove(at);
            }
            3 if at < text.len() => text[at] = random.pick(b"09azAZ_(){}[],;:.=!&|^<>+-*/%\t\n\r @"),
            4 if at < text.len() => text[at] ^= 1 << random.below(8),
            5 | 6 => insert(text, at, random.pick(&CHARACTERS)),
            7 if random.one_in(3) => insert(text, at, random.pick(&NOT_UTF8)),
            _ => text.truncate(at),
        }
    }
}

fn insert(text: &mut Vec<u8>, at: usize, bytes: &[u8]) {
    text.splice(at..at, bytes.iter().copied());
}

// ---- from words to bytes

fn is_word_byte(byte: u8) -> bool {
    byte.is_ascii_alphanumeric() || byte == b'_'
}

fn render(random: &mut Random, words: &[Word]) -> Vec<u8> {
    const SPACES: [&str; 11] =
        [" ", " ", "  ", "\n", "\t", "\r\n", " \n\t ", "// c\n", "//\n", "// \u{e9} if (\n", "//\r(/*\r\n"];
    let mut text = Vec::new();
    let style = random.below(12);
    for word in words {
        let glues = match (text.last(), word.as_bytes().first()) {
            (Some(&last), Some(&first)) => {
                is_word_byte(last) && is_word_byte(first)
                    || matches!(
                        (last, first),
                        (b'&', b'&') | (b'|', b'|') | (b':', b':') | (b'/', b'/') | (b'-', b'>') | (b'!' | b'=' | b'<' | b'>', b'=')
                    )
            }
            _ => false,
        };
        let space = match style {
            0 if random.one_in(20) => "",
            0..=4 => " ",
            5..=8 if glues => " ",
            5..=8 => "",
            9 if random.one_in(200) => "",
            9 if glues || random.one_in(3) => random.pick(&SPACES),
            9 => "",
            _ => random.pick(&SPACES),
        };
        text.extend_from_slice(space.as_bytes());
        text.extend_from_slice(word.as_bytes());
    }
    if random.one_in(20) {
        text.extend_from_slice(random.pick(&["\n", " ", "//", "// end", "/"]).as_bytes());
    }
    text
}

// ---- texts near the limits

/// Head, what is said again and again, and tail of a long text.
const LONG_RUNS: &[(&str, &str, &str)] = &[
    ("", " ", ""),
    ("", "\n", ""),
    ("//", "x", ""),
    ("", "//\n", ""),
    ("", "@", ""),
    ("", "\u{e9}", ""),
    ("", "0x ", ""),
    ("", ";", ""),
    ("", "a", ""),
    ("", "9", ""),
    ("fn f(){", "a;", "}"),
    ("fn f(){", "{}", "}"),
    ("fn f(){", "if(a)b;else c;", "}"),
    ("fn f(){", "if a[b,c];", "}"),
    ("fn f(){", "let(a,b)=c;", "}"),
    ("fn f(){", "for(a;b;c)d;", "}"),
    ("fn f(){", "1u8;", "}"),
    ("fn f(){", "1u8;", ""),
    ("fn f(){", "return;", "}"),
    ("fn f(){a=", "-", "a;}"),
    ("fn f(){a=", "!", ";}"),
    ("fn f(){a(", "b,", ");}"),
    ("fn f(){a=[", "b,", "];}"),
    ("fn f(){a=(", "b,", ");}"),
    ("fn f(){a=S{", "b:c,", "};}"),
    ("fn f(){let(a", ",b", ")=c;}"),
    ("const A=a", "+a", ";"),
    ("const A=a", "||a*b", ";"),
    ("const A=a", "()", ";"),
    ("const A=a", ".b", ";"),
    ("const A=a", "[0]", ";"),
    ("const A=a", "[0", ";"),
    ("const A=a", " as b", ";"),
    ("const A=", "(", ";"),
    ("const A=", "[", ";"),
    ("const A=1u8", "+1u8", ";"),
    ("const A=0b1", "+0O7+0xf", ";"),
    ("const A=[", "0X1felt,", "];"),
    ("const A=[", "[a;0B1],", "];"),
    ("const A=a", ".0x1", ";"),
    ("const A:T", "*", "=1;"),
    ("const A:(", "T,", ")=1;"),
    ("const A:", "[", "=1;"),
    ("fn f(", "a:T,", "){}"),
    ("struct S{", "a:T,", "}"),
    ("use a", "::b", ";"),
    ("use a", "::b", "::{c};"),
    ("use a::{", "b,", "};"),
    ("", "use a;", ""),
    ("", "const A=1;", ""),
    ("", "fn f(){}", ""),
    ("", "fn f(){}", "fn"),
    ("", "struct S{}", ""),
];

fn long(random: &mut Random) -> Vec<u8> {
    let length = match random.below(6) {
        0 => random.below(65_536),
        _ => 65_529 + random.below(10),
    };
    let mut text;
    if random.one_in(3) {
        let size = 12_000 + random.below(16_000);
        let words = program(random, size);
        text = render(random, &words);
        text.truncate(length);
    } else {
        let (head, run, tail) = random.pick(LONG_RUNS);
        text = head.as_bytes().to_vec();
        while text.len() + run.len() + tail.len() <= length {
            text.extend_from_slice(run.as_bytes());
        }
        text.extend_from_slice(tail.as_bytes());
    }
    if random.one_in(2) {
        text.resize(length.max(text.len()), b' ');
    }
    if random.one_in(8) {
        damage_bytes(random, &mut text);
    }
    text
}

// ---- an `else` that more than one `if` can try

/// Statements that end with another, round after round; some have an `else`, which may fail, and some blocks do not end.
fn spine(random: &mut Random) -> Vec<Word> {
    const HEADS: [&str; 8] = ["if ( a )", "if ( a )", "if ( a )", "if a", "while ( a )", "loop", "for ( a ; b ; c )", "{"];
    const ENDS: [&str; 6] = ["b ;", "b ;", "{ }", "break ;", "{ b ; }", ""];
    const AFTER: [&str; 6] = ["else", "else {", "else {", "else b ;", "else if ( a ) b ;", "}"];
    let mut words = String::from("fn f ( ) {");
    for _ in 0..1 + random.below(5) {
        for _ in 0..1 + random.below(5) {
            words += &format!(" {}", random.pick(&HEADS));
        }
        words += &format!(" {}", random.pick(&ENDS));
        for _ in 0..random.below(4) {
            words += &format!(" {}", random.pick(&AFTER));
        }
    }
    words += &" }".repeat(random.below(8));
    words.split_ascii_whitespace().map(|word| Cow::Owned(word.to_owned())).collect()
}

// ---- the texts of a run

/// What stands around a numeral: of a literal first, then of counts and of a tuple index.
const NUMERAL_PLACES: [(&str, &str); 4] =
    [("const A =", ";"), ("const A : [ T ;", "] = a ;"), ("const A = [ a ;", "] ;"), ("const A = t .", ";")];

/// Text `number` of the run with this seed.
pub fn text(seed: u64, number: u64) -> Vec<u8> {
    let random = &mut Random::new(seed, number);
    if number % 32 == 31 {
        let words = spine(random);
        return render(random, &words);
    }
    if random.one_in(1500) {
        return long(random);
    }
    let size = match random.below(1000) {
        0..=499 => 1 + random.below(30),
        500..=879 => 30 + random.below(150),
        880..=994 => 150 + random.below(700),
        _ => 850 + random.below(6000),
    };
    let mut words = match random.below(41) {
        0..=23 => program(random, size),
        24..=32 => deep(random),
        33..=35 => {
            // words at random, in a function or another item, or alone
            let soup = (0..1 + random.below(14)).map(|_| any_word(random)).collect::<Vec<_>>();
            if random.one_in(3) {
                soup
            } else {
                let (head, tail, _) = random.pick(AROUND_ITEM);
                let borrowed = |words: &'static str| words.split_ascii_whitespace().map(Cow::Borrowed);
                borrowed(head).chain(soup).chain(borrowed(tail)).collect()
            }
        }
        36..=38 => {
            let mut words: Vec<Word> = Vec::new();
            // literals, or counts and tuple indices among them
            let literals = random.one_in(2);
            for _ in 0..1 + random.below(6) {
                let (head, tail) = if literals { NUMERAL_PLACES[0] } else { random.pick(&NUMERAL_PLACES) };
                let numeral = if literals || random.one_in(3) { odd_numeral(random) } else { any_base(random) };
                words.extend(head.split_ascii_whitespace().map(Cow::Borrowed));
                words.push(Cow::Owned(numeral));
                words.extend(tail.split_ascii_whitespace().map(Cow::Borrowed));
            }
            words
        }
        _ => (0..random.below(40)).map(|_| any_word(random)).collect(),
    };
    let damage = random.below(20);
    if damage < 9 {
        damage_words(random, &mut words);
    }
    let mut text = render(random, &words);
    if damage == 9 || damage == 10 {
        damage_bytes(random, &mut text);
    }
    text
}

// ---- all short sequences of tokens

/// Head, tail and alphabet of the exhaustive texts: all sequences of up to five words of the alphabet stand between head and tail.
const FRAMES: &[(&str, &str, [&str; 16])] = &[
    ("fn f(){", "}", ["a", "1", "(", ")", "{", "}", "[", "]", ",", ";", "=", ".", "-", "if", "else", "let"]),
    ("fn f(){", "}", ["a", "2u8", "(", ")", "{", "}", "[", "]", ";", ":", "*", "as", "new", "return", "while", "loop"]),
    ("fn f(){for(", "}", ["a", "0x1", "(", ")", "{", "}", ",", ";", "=", ":", "let", "for", "break", "continue", "const", "in"]),
    ("fn f(){if ", "}", ["a", "1", "(", ")", "{", "}", "[", "]", ",", ";", ":", "==", "else", "if", ".", "!"]),
    ("fn f(){if (a", ") b;}", ["a", "0B1", "(", ")", "{", "}", "[", "]", ",", ";", ":", "==", "else", "if", "=", "!"]),
    ("fn f(){while a", "{}}", ["a", "0o1", "(", ")", "{", "}", "[", "]", ",", ";", ":", "+", "while", "if", ".", "!"]),
    ("fn f(){if a b; else ", "c;}", ["a", "1", "if", "else", "{", "}", ";", "(", ")", "[", "]", "=", "loop", "while", "-", ","]),
    ("const A = [", "];", ["a", "0b1", "3u8", "[", "]", "(", ")", "{", "}", ",", ";", ":", "+", "-", ".", "as"]),
    ("const A = a(", ");", ["a", "0X1", "3u8", "[", "]", "(", ")", "{", "}", ",", ";", ":", "+", "-", ".", "new"]),
    ("const A = S{a:", "};", ["a", "1", "0x3u8", "[", "]", "(", ")", "{", "}", ",", ";", ":", "+", "-", ".", "b"]),
    ("const A = ", ";", ["a", "0O7", "3u8", "true", "(", ")", "{", "}", "[", "]", ",", ";", ":", ".", "-", "&&"]),
    ("const A = a ", ";", ["a", "1", "0b1u32", "+", "*", "<", "==", "&", "||", "!", "-", "as", "(", ")", ".", "["]),
    ("const A: ", " = 1;", ["a", "felt", "u32", "bool", "0x1", "0b1u32", "(", ")", "[", "]", ",", ";", "*", "-", "=", ":"]),
    ("const A = new ", "[1];", ["a", "felt", "0o1", "2u32", "(", ")", "[", "]", ",", ";", "*", "-", "{", "}", ":", "new"]),
    ("fn f(){let ", "= 1;}", ["a", "1", "(", ")", "[", "]", ",", ";", "*", ":", "=", "let", "{", "}", "-", "T"]),
    ("", "", ["a", "1", "fn", "struct", "const", "use", "(", ")", "{", "}", ",", ";", ":", "::", "=", "->"]),
    ("fn ", "{}", ["a", "1", "fn", "struct", "T", "*", "(", ")", "{", "}", ",", ";", ":", "[", "]", "->"]),
    ("struct S{", "}", ["a", "1", "fn", "struct", "T", "*", "(", ")", "{", "}", ",", ";", ":", "[", "]", "const"]),
    ("use ", ";", ["a", "b", "use", "::", "{", "}", ",", ";", ":", "(", ")", "1", "fn", "*", "as", "="]),
];

pub const EXHAUSTIVE_LENGTH: u32 = 5;

/// How many exhaustive texts there are.
pub fn exhaustive_count() -> u64 {
    FRAMES.len() as u64 * sequences_up_to(EXHAUSTIVE_LENGTH)
}

/// The sequences of at most so many of 16 words.
fn sequences_up_to(length: u32) -> u64 {
    (0..=length).map(|length| 16u64.pow(length)).sum()
}

/// The exhaustive text of this number.
pub fn exhaustive_text(number: u64, text: &mut Vec<u8>) {
    let each = sequences_up_to(EXHAUSTIVE_LENGTH);
    let (head, tail, alphabet) = &FRAMES[(number / each) as usize];
    let mut rest = number % each;
    let mut length = 0;
    while rest >= 16u64.pow(length) {
        rest -= 16u64.pow(length);
        length += 1;
    }
    text.clear();
    text.extend_from_slice(head.as_bytes());
    for place in 0..length {
        text.extend_from_slice(alphabet[(rest >> (4 * place)) as usize & 15].as_bytes());
        text.push(b' ');
    }
    text.extend_from_slice(tail.as_bytes());
}
