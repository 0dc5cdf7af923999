//! The speed of the proved library against the reader of tests/differential, which is plain Rust with vectors.
//!
//!     tests/bench/run
//!
//! Both read the same texts and fill the same tables; before anything is timed, every byte of the tables, the outcome and the counts
//! are compared. The library fills the lent tables itself. The Rust reader answers vectors of its own, which the driver lays into the
//! lent tables; what it takes without that is given besides. Each clears the entries that are left, and no more. The library is lent
//! no list of records, which the Rust reader does not have.
//!
//! tests/bench/run builds the driver with 0, 16, 32 and 48 bytes before the code of both, as a loop's place moves its speed.
//!
//! One round times a batch of calls of each in turn, so that a change of the machine's speed meets all alike. A figure is the median
//! of the rounds; a ratio is the median of the rounds' ratios, above 1 where the library is faster.

use std::hint::black_box;
use std::time::{Duration, Instant};

#[allow(dead_code)]
#[path = "../differential/reader.rs"]
mod reader;

use reader::{Answer, Entry};

#[link(name = "cairo_m", kind = "static")]
extern "C" {
    fn cairo_m_lex(
        text: *const u8,
        length: usize,
        tokens: *mut u8,
        tokens_size: usize,
        diagnostics: *mut u8,
        diagnostics_size: usize,
        token_count: *mut usize,
        diagnostic_count: *mut usize,
    ) -> u32;
    fn cairo_m_read(
        text: *const u8,
        length: usize,
        tokens: *mut u8,
        tokens_size: usize,
        nodes: *mut u8,
        nodes_size: usize,
        diagnostics: *mut u8,
        diagnostics_size: usize,
        token_count: *mut usize,
        node_count: *mut usize,
        diagnostic_count: *mut usize,
        list: *mut u16,
        list_length: usize,
    ) -> u32;
}

// what stands before all code; the section is kept although nothing uses it
#[cfg(pad = "16")]
std::arch::global_asm!(".section .text.pad,\"axR\",@progbits", ".zero 16");
#[cfg(pad = "32")]
std::arch::global_asm!(".section .text.pad,\"axR\",@progbits", ".zero 32");
#[cfg(pad = "48")]
std::arch::global_asm!(".section .text.pad,\"axR\",@progbits", ".zero 48");

const LENGTH: usize = 60_000;
const EVERY_TEXT: usize = 65_535;
const TOKEN: usize = 16;
const NODE: usize = 16;
const DIAGNOSTIC: usize = 8;

/// Outcome and counts of tokens, nodes and diagnostics.
type Said = (u32, usize, usize, usize);

/// The tables that are lent.
#[derive(Clone, PartialEq)]
struct Tables {
    tokens: Vec<u8>,
    nodes: Vec<u8>,
    diagnostics: Vec<u8>,
}

impl Tables {
    fn new(tokens: usize, nodes: usize, diagnostics: usize) -> Tables {
        let full = |size| vec![0xAA; size];
        Tables { tokens: full(tokens * TOKEN), nodes: full(nodes * NODE), diagnostics: full(diagnostics * DIAGNOSTIC) }
    }
}

fn our_lex(text: &[u8], tables: &mut Tables) -> Said {
    let (mut tokens, mut diagnostics) = (0, 0);
    // SAFETY: sizes and pointers are those of slices, and no two overlap.
    let outcome = unsafe {
        cairo_m_lex(
            text.as_ptr(),
            text.len(),
            tables.tokens.as_mut_ptr(),
            tables.tokens.len(),
            tables.diagnostics.as_mut_ptr(),
            tables.diagnostics.len(),
            &mut tokens,
            &mut diagnostics,
        )
    };
    (outcome, tokens, 0, diagnostics)
}

fn our_read(text: &[u8], tables: &mut Tables) -> Said {
    let (mut tokens, mut nodes, mut diagnostics) = (0, 0, 0);
    let mut list = [0u16; 3];
    // SAFETY: as above; the list has no records.
    let outcome = unsafe {
        cairo_m_read(
            text.as_ptr(),
            text.len(),
            tables.tokens.as_mut_ptr(),
            tables.tokens.len(),
            tables.nodes.as_mut_ptr(),
            tables.nodes.len(),
            tables.diagnostics.as_mut_ptr(),
            tables.diagnostics.len(),
            &mut tokens,
            &mut nodes,
            &mut diagnostics,
            list.as_mut_ptr(),
            0,
        )
    };
    (outcome, tokens, nodes, diagnostics)
}

/// Entries, as many as there is room for, then zero.
fn lay<E: Entry, const SIZE: usize>(entries: &[E], table: &mut [u8]) {
    let mut left = table.chunks_exact_mut(SIZE);
    for (entry, place) in entries.iter().zip(&mut left) {
        let mut bytes = [0; SIZE];
        entry.lay(&mut bytes);
        place.copy_from_slice(&bytes);
    }
    let used = SIZE * entries.len().min(table.len() / SIZE);
    table[used..].fill(0);
}

fn said_of(answer: &Answer) -> Said {
    (answer.outcome, answer.token_count, answer.node_count, answer.diagnostics.len())
}

fn their_lex(text: &[u8], tables: &mut Tables) -> Said {
    let answer = reader::lex(text, tables.tokens.len());
    lay::<_, TOKEN>(&answer.tokens, &mut tables.tokens);
    lay::<_, DIAGNOSTIC>(&answer.diagnostics, &mut tables.diagnostics);
    said_of(&answer)
}

fn their_read(text: &[u8], tables: &mut Tables) -> Said {
    let answer = reader::read(text, tables.tokens.len(), tables.nodes.len());
    lay::<_, TOKEN>(&answer.tokens, &mut tables.tokens);
    lay::<_, NODE>(&answer.nodes, &mut tables.nodes);
    lay::<_, DIAGNOSTIC>(&answer.diagnostics, &mut tables.diagnostics);
    said_of(&answer)
}

fn their_lex_alone(text: &[u8], tables: &mut Tables) -> Said {
    said_of(&black_box(reader::lex(text, tables.tokens.len())))
}

fn their_read_alone(text: &[u8], tables: &mut Tables) -> Said {
    said_of(&black_box(reader::read(text, tables.tokens.len(), tables.nodes.len())))
}

// ---- texts

const KEYWORDS: [&str; 21] = [
    "as", "const", "else", "false", "fn", "if", "let", "new", "return", "struct", "true", "while", "loop", "for", "in", "break",
    "continue", "use", "felt", "u32", "bool",
];

/// The text with a number after each of its names.
fn renamed(text: &str, number: usize) -> String {
    let mut out = String::new();
    for line in text.lines() {
        let (code, comment) = line.split_at(line.find("//").unwrap_or(line.len()));
        let mut rest = code;
        while let Some(first) = rest.chars().next() {
            let is_word = |c: char| c.is_ascii_alphanumeric() || c == '_';
            let end = if is_word(first) { rest.find(|c| !is_word(c)).unwrap_or(rest.len()) } else { first.len_utf8() };
            let word = &rest[..end];
            out.push_str(word);
            if is_word(first) && !first.is_ascii_digit() && !KEYWORDS.contains(&word) {
                out.push_str(&format!("_{number}"));
            }
            rest = &rest[end..];
        }
        out.push_str(comment);
        out.push('\n');
    }
    out
}

/// Whole examples again and again, with other names each time, up to the length and then down to the last item that fits.
fn program(examples: &[String], length: usize) -> Vec<u8> {
    let mut text = String::new();
    let mut number = 0;
    while text.len() <= length {
        text.push_str(&renamed(&examples[number % examples.len()], number));
        number += 1;
    }
    // an item ends with a line that is `}` or begins with `const` or `use`
    let mut end = 0;
    let mut at = 0;
    for line in text.split_inclusive('\n') {
        at += line.len();
        let whole = line == "}\n" || ((line.starts_with("const") || line.starts_with("use")) && line.ends_with(";\n"));
        if at <= length && whole {
            end = at;
        }
    }
    text.truncate(end);
    text.into_bytes()
}

/// Parts one after the other, up to the length, between a head and a foot.
fn parts(head: &str, foot: &str, part: impl Fn(usize) -> String) -> Vec<u8> {
    let mut text = String::from(head);
    for i in 0.. {
        let next = part(i);
        if text.len() + next.len() + foot.len() > LENGTH {
            break;
        }
        text.push_str(&next);
    }
    text.push_str(foot);
    text.into_bytes()
}

/// Numbers that look random: splitmix64.
fn mixed(i: usize) -> u64 {
    let mut n = (i as u64 + 1).wrapping_mul(0x9E37_79B9_7F4A_7C15);
    n = (n ^ (n >> 30)).wrapping_mul(0xBF58_476D_1CE4_E5B9);
    n = (n ^ (n >> 27)).wrapping_mul(0x94D0_49BB_1331_11EB);
    n ^ (n >> 31)
}

fn numeral(i: usize) -> String {
    let n = mixed(i) >> (mixed(i + 1_000_000) % 60);
    match i % 6 {
        0 => format!("0x{n:x}, "),
        1 => format!("{}felt, ", n % 1000),
        2 => format!("0b{:b}u32,\n", n % 65536),
        3 => format!("0o{n:o}, "),
        _ => format!("{n}, "),
    }
}

/// Parentheses, calls, indices, arrays, fields and operators, 60 deep.
fn deep(i: usize) -> String {
    const ROUND: [(&str, &str); 6] = [("(", ")"), ("f(", ")"), ("a[", "]"), ("[", "]"), ("T { x: ", "}"), ("1 + 2 * (", ")")];
    let chosen = |depth: usize| ROUND[mixed(i * 64 + depth) as usize % ROUND.len()];
    let opening: String = (0..60).map(|depth| chosen(depth).0).collect();
    let closing: String = (0..60).rev().map(|depth| chosen(depth).1).collect();
    format!("const A_{i} = {opening}1{closing};\n")
}

fn argument(i: usize) -> String {
    let end = if i % 8 == 7 { "\n" } else { "" };
    format!("{}{end}", ["a, ", "b1, ", "count, ", "x_y, "][i % 4])
}

fn operation(i: usize) -> String {
    const MARKS: [&str; 8] = ["+", "*", "==", "&", "&&", "-", "/", "||"];
    format!("a{} {} ", i % 10, MARKS[mixed(i) as usize % MARKS.len()])
}

fn long_name(i: usize) -> String {
    let letters = b"abcdefghijklmnopqrstuvwxyz_ABCDEFGHIJKLMNOPQRSTUVWXYZ0123456789";
    let size = 20 + mixed(i) as usize % 60;
    let name: String = (0..size).map(|j| letters[mixed(i * 100 + j) as usize % if j == 0 { 53 } else { 63 }] as char).collect();
    format!("{name},\n")
}

/// Blocks that do not end, each in the `else` of two `if`s: the inner `if` tries the `else` and gives it back, then the outer one does.
fn failing_else(levels: usize) -> Vec<u8> {
    format!("fn f() {{ {})", "{ if (a) if (a) x; else ".repeat(levels)).into_bytes()
}

fn texts(examples: &[String]) -> Vec<(&'static str, Vec<u8>)> {
    let whole = program(examples, LENGTH);
    let with = |end: &[u8]| [whole.as_slice(), end].concat();
    vec![
        ("program", whole.clone()),
        ("numerals", parts("const A = [\n", "0];\n", numeral)),
        ("deep expressions", parts("", "", deep)),
        ("long lists", parts("const A = f(\n", "0);\n", argument)),
        ("operators", parts("const A =\n", "0;\n", operation)),
        ("comments", parts("", "const A = 1;\n", |i| format!("// Line {i} of a long remark that says nothing about the code.\n"))),
        ("long names", parts("const A = [\n", "a];\n", long_name)),
        ("program, then `@`", with(b"@\n")),
        ("program, then `}`", with(b"}\n")),
        ("program, then `1u8`", with(b"const A = 1u8;\n")),
    ]
}

// ---- times

type Call = fn(&[u8], &mut Tables) -> Said;

/// The time of one call of each function, in seconds: of every round.
fn times<const N: usize>(text: &[u8], tables: &mut Tables, calls: [Call; N], rounds: usize) -> Vec<[f64; N]> {
    let batch = Duration::from_millis(4);
    let repeats = calls.map(|call| {
        let start = Instant::now();
        let mut count = 0u32;
        while start.elapsed() < batch {
            black_box(call(black_box(text), tables));
            count += 1;
        }
        count
    });
    let mut all = Vec::new();
    for _ in 0..rounds {
        let mut round = [0.0; N];
        for i in 0..N {
            let start = Instant::now();
            for _ in 0..repeats[i] {
                black_box(calls[i](black_box(text), tables));
            }
            round[i] = start.elapsed().as_secs_f64() / f64::from(repeats[i]);
        }
        all.push(round);
    }
    all
}

fn median(mut numbers: Vec<f64>) -> f64 {
    numbers.sort_by(f64::total_cmp);
    numbers[numbers.len() / 2]
}

/// The answers are one, byte for byte.
fn compare(name: &str, text: &[u8], tables: &Tables) -> Said {
    let (mut ours, mut theirs) = (tables.clone(), tables.clone());
    assert_eq!(our_lex(text, &mut ours), their_lex(text, &mut theirs), "{name}: lexing");
    assert!(ours == theirs, "{name}: lexing: other tables");
    let said = our_read(text, &mut ours);
    assert_eq!(said, their_read(text, &mut theirs), "{name}: reading");
    assert!(ours == theirs, "{name}: reading: other tables");
    said
}

/// Megabytes per second of each function, and the ratio of the first two.
fn rates<const N: usize>(text: &[u8], tables: &mut Tables, calls: [Call; N], rounds: usize) -> ([f64; N], f64) {
    let all = times(text, tables, calls, rounds);
    let rate = |i: usize| text.len() as f64 / 1e6 / median(all.iter().map(|round| round[i]).collect());
    (std::array::from_fn(rate), median(all.iter().map(|round| round[1] / round[0]).collect()))
}

/// Tables with room for just what the text needs, or for every text.
fn rooms(text: &[u8], exact: bool) -> Tables {
    if !exact {
        return Tables::new(EVERY_TEXT, EVERY_TEXT, EVERY_TEXT);
    }
    let lexed = reader::lex(text, usize::MAX);
    let read = reader::read(text, usize::MAX, usize::MAX);
    Tables::new(lexed.token_count, read.node_count, read.diagnostics.len())
}

fn main() {
    let mut words = std::env::args().skip(1);
    let folder = words.next().unwrap_or_else(|| String::from("examples"));
    let rounds = words.next().map_or(41, |word| word.parse().expect("a number of rounds"));
    let mut names: Vec<_> = std::fs::read_dir(&folder).expect("the examples").map(|entry| entry.unwrap().path()).collect();
    let is_example = |name: &str| name.ends_with(".cm") && !name.starts_with("refused");
    names.retain(|name| is_example(&name.file_name().unwrap().to_string_lossy()));
    names.sort();
    let examples: Vec<String> = names.iter().map(|name| std::fs::read_to_string(name).unwrap()).collect();

    for exact in [true, false] {
        println!("\n{}\n", if exact { "Tables of the exact size:" } else { "Tables that take every text:" });
        print!("| Text | Bytes | Tokens | Nodes | Outcome | Lexing: ours | Rust | ratio | without tables ");
        println!("| Reading: ours | Rust | ratio | without tables |");
        println!("|---|--:|--:|--:|--:|--:|--:|--:|--:|--:|--:|--:|--:|");
        for (name, text) in texts(&examples) {
            let mut tables = rooms(&text, exact);
            let (outcome, _, nodes, _) = compare(name, &text, &tables);
            let tokens = reader::lex(&text, usize::MAX).token_count;
            let (lex, lex_ratio) = rates(&text, &mut tables, [our_lex, their_lex, their_lex_alone], rounds);
            let (read, read_ratio) = rates(&text, &mut tables, [our_read, their_read, their_read_alone], rounds);
            print!("| {name} | {} | {tokens} | {nodes} | {outcome} ", text.len());
            print!("| {:.0} | {:.0} | {lex_ratio:.2} | {:.0} ", lex[0], lex[1], lex[2]);
            println!("| {:.0} | {:.0} | {read_ratio:.2} | {:.0} |", read[0], read[1], read[2]);
        }
    }

    println!("\nGrowth of the reading of the program, in microseconds a call:\n");
    println!("| Bytes | Exact tables: ours | ns/byte | Rust | ratio | Tables for every text: ours | Rust | ratio |");
    println!("|--:|--:|--:|--:|--:|--:|--:|--:|");
    for length in [1, 2, 4, 8, 16, 32, 64].map(|kilobytes: usize| (kilobytes * 1024).min(EVERY_TEXT)) {
        let text = program(&examples, length);
        let mut row = format!("| {} |", text.len());
        for exact in [true, false] {
            let mut tables = rooms(&text, exact);
            compare("growth", &text, &tables);
            let (rate, ratio) = rates(&text, &mut tables, [our_read, their_read], rounds);
            let call = |rate: f64| text.len() as f64 / rate;
            row += &format!(" {:.1} |", call(rate[0]));
            if exact {
                row += &format!(" {:.2} |", 1000.0 / rate[0]);
            }
            row += &format!(" {:.1} | {ratio:.2} |", call(rate[1]));
        }
        println!("{row}");
    }

    println!("\nAn `else` whose statement fails, within such an `else`, and so on; in microseconds a call:\n");
    println!("| Levels | Bytes | Outcome | ours | Rust |");
    println!("|--:|--:|--:|--:|--:|");
    for levels in [2, 4, 6, 8, 10, 12] {
        let text = failing_else(levels);
        let mut tables = rooms(&text, true);
        let (outcome, ..) = compare("failing else", &text, &tables);
        let (rate, _) = rates(&text, &mut tables, [our_read, their_read], rounds);
        println!("| {levels} | {} | {outcome} | {:.1} | {:.1} |", text.len(), text.len() as f64 / rate[0], text.len() as f64 / rate[1]);
    }
}
