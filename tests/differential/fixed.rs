//! The fixed list of readings: texts with the answers of the reader by hand, as `crates/reading_cases` replays them.
//!
//!     fixed DIR          writes DIR/stdin and DIR/stdout
//!     fixed DIR check    says whether they are what it writes
//!
//! A case is a line with the bytes of the token, node and diagnostic table and of the text, then the text and a line feed. An answer
//! is two lines: outcome, counts, three numbers of stray bytes, which are owed to be 0, and the tokens; then the listing. A token has
//! its kind, suffix, start, end, value and base.

#[allow(dead_code)]
mod generate;
#[allow(dead_code)]
mod reader;

use reader::{Answer, Diagnostic, Entry, Node, Token};
use std::fmt::Write;
use std::process::ExitCode;

/// The largest rooms, as the program has them.
const TOKENS: usize = 16384;
const NODES: usize = 16384;
const DIAGNOSTICS: usize = 8192;

/// How many generated texts there are of each outcome.
const SHARES: [usize; 9] = [220, 0, 40, 70, 0, 40, 0, 150, 70];
/// None of them is longer, but for those of outcome 5.
const LONGEST: usize = 120;

/// The texts that the scope paper names; statements stand in a function's body.
const NAMED: [&str; 19] = [
    "",
    "const A = 1;",
    "const A = f( );",
    "const A = 0x1felt;",
    "const A = 0b12;",
    "const A = 0x;",
    "const A = 12u32x;",
    "const A = 18446744073709551615;",
    "const A = 18446744073709551616;",
    "const A = 99999999999999999999felt2;",
    "const A = 1felt2;",
    "@",
    "fn f() { if x {} }",
    "fn f() { if (x) {} }",
    "fn f() { if (a) == (b) {} }",
    "fn f() { a || b && c; }",
    "fn f() { let (a) = b; }",
    "fn f() { [1; 3u32]; }",
    "fn f() { 12u8; if a [12u8, 1]; }",
];

/// Numerals of every base, in either case of its letter, where literals, counts and tuple indices stand; then refused spellings.
const BASES: [&str; 20] = [
    "const A = 0x1f;",
    "const A = 0XFfelt;",
    "const A = 0xABCDEFu32;",
    "const A = 0o17;",
    "const A = 0O17felt;",
    "const A = 0o7u32;",
    "const A = 0b101;",
    "const A = 0B1felt;",
    "const A = 0b0u32;",
    "const A = 00x;",
    "const A = (010, 7felt, 0u32, 0x0, 0O0, 0B0);",
    "const A = 0XFFFFFFFFFFFFFFFF + 0o1777777777777777777777;",
    "const A: [[felt; 0b11]; 0O7]* = [[0; 0x3]; 0X7];",
    "const A: ([T; 12], [T; 0B1100]) = t.0x1.0b0.0o7.2;",
    "fn f() { a[0b1] = new felt[0o10] as u32 & !0xF0; return t.0X1[0B0felt]; }",
    "fn f() { 0x1u8; 0_x; [0b1u8; 0x2]; if a [0O7i8, 0b1]; }",
    "fn f() { [0; 0x3u32]; }",
    "const A: [T; 0b1felt] = 1;",
    "const A = t.0o1u32;",
    "const A = 0X + 0o + 0B + 0o8 + 0b2 + 0xg + 0xfelt + 0x10000000000000000;",
];

/// Values around the largest that a listing has as a number, and the largest, as a Count, each literal and a tuple index.
const VALUES: [&str; 6] = [
    "const A: [T; 9007199254740991] = (9007199254740991, 9007199254740991felt, 9007199254740991u32, t.9007199254740991);",
    "const A: [T; 9007199254740992] = (9007199254740992, 9007199254740992felt, 9007199254740992u32, t.9007199254740992);",
    "const A: [T; 18446744073709551615] = (18446744073709551615, 18446744073709551615felt, 18446744073709551615u32, t.18446744073709551615);",
    "const A = [0x1fffffffffffff; 0x20000000000000];",
    "const A = [0o400000000000000000felt, 0o377777777777777777u32];",
    "const A = t.0b11111111111111111111111111111111111111111111111111111.0x20000000000001;",
];

/// Refused texts that stop in their middle, at their end, after white space and comments, and after tokens given back.
const STOPS: [&str; 24] = [
    "x",
    "fn",
    "fn f() {",
    "fn f() { a; // \u{e9}\u{1f3ac}\n ",
    "// \u{20ac}\nconst A = 1 2;",
    "const A = 1; in",
    "const A = [1;",
    "const A: [T; 3u32] = 1;",
    "const A: [T; 3 + ] = 1;",
    "const A: (T, U,, V) = 1;",
    "const A = t.0u32;",
    "const A = a as T as 5;",
    "const A = a + b * / c;",
    "const A = new T*[1, 2];",
    "use a::b::;",
    "use a::{b, c,, d};",
    "struct S { a: T, b }",
    "fn f(a: T, b) {}",
    "fn f() -> {}",
    "fn f() { if (a) b; else }",
    "fn f() { if x { y: 1; } }",
    "fn f() { let ((a), b) = c; }",
    "fn f() { for (x; y; z.) {} }",
    "fn f() { while (a)(b) == c {} }",
];

struct List {
    cases: Vec<u8>,
    answers: String,
    count: usize,
}

impl List {
    fn add(&mut self, text: &[u8], tokens: usize, nodes: usize, diagnostics: usize) -> Answer {
        let answer = reader::read(text, tokens, nodes);
        self.cases.extend(format!("{tokens} {nodes} {diagnostics} {}\n", text.len()).bytes());
        self.cases.extend(text);
        self.cases.push(b'\n');
        self.count += 1;
        let out = &mut self.answers;
        write!(out, "o{} {} {} {} 0 0 0", answer.outcome, answer.token_count, answer.node_count, answer.diagnostics.len()).unwrap();
        for token in &answer.tokens {
            let (start, end) = (token.span.start, token.span.end);
            write!(out, " {},{},{start},{end},{},{}", token.kind as u8, token.suffix, token.value, token.base).unwrap();
        }
        let json = if answer.outcome == 0 {
            reader::list(&reader::table(&answer.nodes, answer.nodes.len() * Node::SIZE), usize::MAX).1
        } else {
            let room = answer.diagnostics.len().min(diagnostics / Diagnostic::SIZE) * Diagnostic::SIZE;
            reader::list_refused(answer.outcome, &reader::table(&answer.diagnostics, room), usize::MAX).1
        };
        write!(out, "\n{json}\n").unwrap();
        answer
    }

    /// The text with room for all, and with small tables, which are enough or just too small.
    fn add_with_rooms(&mut self, text: &[u8]) {
        let answer = self.add(text, TOKENS, NODES, DIAGNOSTICS);
        let (tokens, nodes) = (answer.token_count * Token::SIZE, answer.node_count * Node::SIZE);
        let diagnostics = answer.diagnostics.len() * Diagnostic::SIZE;
        if tokens > 0 {
            self.add(text, tokens, nodes, 0);
            self.add(text, tokens - 1, NODES, 9);
        }
        if nodes > 0 {
            self.add(text, tokens + 5, nodes - 1, DIAGNOSTICS);
            self.add(text, tokens, 0, 0);
        }
        if diagnostics > 0 {
            self.add(text, 0, 0, diagnostics);
            self.add(text, 17, 3, diagnostics - 1);
        }
        if answer.outcome == reader::SYNTAX {
            self.add(text, TOKENS, 0, diagnostics);
            self.add(text, TOKENS, 3, diagnostics - 1);
            self.add(text, TOKENS, NODES, 0);
        }
    }
}

fn list() -> List {
    let mut list = List { cases: Vec::new(), answers: String::new(), count: 0 };
    for text in NAMED.iter().chain(&BASES).chain(&VALUES).chain(&STOPS) {
        list.add_with_rooms(text.as_bytes());
    }
    for nest in [63, 64] {
        let text = format!("const A = {}1{};", "(".repeat(nest), ")".repeat(nest));
        list.add(text.as_bytes(), TOKENS, NODES, DIAGNOSTICS);
    }
    for length in [65535, 65536] {
        list.add(&vec![b' '; length], TOKENS, NODES, DIAGNOSTICS);
    }
    // blocks that do not end, each in the `else` of two `if`s
    for levels in [2, 12, 20] {
        let text = format!("fn f() {{ {})", "{ if (a) if (a) x; else ".repeat(levels));
        list.add(text.as_bytes(), TOKENS, NODES, DIAGNOSTICS);
    }
    let mut owed = SHARES;
    for number in 0.. {
        if owed.iter().all(|&count| count == 0) {
            break;
        }
        let text = generate::text(5, number);
        let outcome = reader::read(&text, TOKENS, NODES).outcome as usize;
        if owed[outcome] == 0 || text.len() > LONGEST && (outcome != 5 || text.len() > 10 * LONGEST) {
            continue;
        }
        owed[outcome] -= 1;
        // every fourth of them with other rooms too
        if owed[outcome] % 4 == 0 && outcome != 5 {
            list.add_with_rooms(&text);
        } else {
            list.add(&text, TOKENS, NODES, DIAGNOSTICS);
        }
    }
    list
}

fn main() -> ExitCode {
    let words: Vec<String> = std::env::args().skip(1).collect();
    let (folder, check) = match words.iter().map(String::as_str).collect::<Vec<_>>()[..] {
        [folder] => (folder.to_owned(), false),
        [folder, "check"] => (folder.to_owned(), true),
        _ => {
            eprintln!("usage: fixed DIR [check]");
            return ExitCode::from(2);
        }
    };
    let list = list();
    let files = [("stdin", list.cases), ("stdout", list.answers.into_bytes())];
    for (name, bytes) in files {
        let path = format!("{folder}/{name}");
        if check && std::fs::read(&path).ok().as_ref() != Some(&bytes) {
            eprintln!("fixed: {path} is not what the reader by hand says");
            return ExitCode::FAILURE;
        }
        if !check {
            if let Err(error) = std::fs::write(&path, &bytes) {
                eprintln!("fixed: {path}: {error}");
                return ExitCode::from(2);
            }
        }
    }
    println!("fixed: {} readings", list.count);
    ExitCode::SUCCESS
}
