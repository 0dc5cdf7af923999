//! The differential run: the library behind cairo_m.h against a reader by hand, on generated texts.
//!
//!     differential SECONDS SEED      generated texts for so long
//!     differential exhaustive        all short sequences of tokens in their frames
//!     differential text SEED NUMBER  one text of a run
//!
//! The exit status is 1 after a difference, which is printed with the smallest text that still shows one.

mod generate;
mod reader;

use generate::Random;
use reader::{Answer, Diagnostic, Entry, Node, NodeKind, Token};
use std::ffi::c_void;
use std::process::ExitCode;
use std::time::{Duration, Instant};

#[repr(C)]
#[derive(Clone, Copy)]
struct Record {
    start: u16,
    end: u16,
    reason: u8,
}

extern "C" {
    fn cairo_m_numeral(
        spelling: *const u8,
        length: usize,
        value: *mut u64,
        suffix: *mut u8,
        base: *mut u8,
        reason: *mut u8,
    ) -> u32;
    fn cairo_m_lex(
        text: *const u8,
        length: usize,
        tokens: *mut u8,
        tokens_size: usize,
        diagnostics: *mut u8,
        diagnostics_size: usize,
        token_count: *mut usize,
        diagnostic_count: *mut usize,
    ) -> u32;
    fn cairo_m_read(
        text: *const u8,
        length: usize,
        tokens: *mut u8,
        tokens_size: usize,
        nodes: *mut u8,
        nodes_size: usize,
        diagnostics: *mut u8,
        diagnostics_size: usize,
        token_count: *mut usize,
        node_count: *mut usize,
        diagnostic_count: *mut usize,
        list: *mut Record,
        list_length: usize,
    ) -> u32;
    fn cairo_m_spelling(text: *const u8, length: usize, kind: u8, start: u16, end: u16) -> usize;
    fn cairo_m_list(nodes: *const u8, nodes_size: usize, out: *mut u8, out_size: usize, size: *mut usize) -> u32;
    fn cairo_m_list_refused(
        outcome: u32,
        diagnostics: *const u8,
        diagnostics_size: usize,
        out: *mut u8,
        out_size: usize,
        size: *mut usize,
    ) -> u32;
    fn cairo_m_hit_test(
        offset: usize,
        length: usize,
        nodes: *const u8,
        nodes_size: usize,
        found: *mut u8,
        place: *mut usize,
    ) -> u32;

    fn mmap(address: *mut c_void, length: usize, protection: i32, flags: i32, file: i32, offset: i64) -> *mut c_void;
    fn mprotect(address: *mut c_void, length: usize, protection: i32) -> i32;
}

// ---- memory that is lent

const GUARD: usize = 64;

/// Bytes between guards, filled with garbage before a call.
#[derive(Default)]
struct Lent {
    bytes: Vec<u8>,
    start: usize,
    size: usize,
    garbage: u8,
}

impl Lent {
    fn lend(&mut self, size: usize, random: &mut Random) -> *mut u8 {
        let whole = size + 2 * GUARD + 16;
        if self.bytes.len() < whole {
            self.bytes.resize(whole, 0);
        }
        // any address will do
        self.start = GUARD + random.below(16);
        self.size = size;
        self.garbage = 1 + random.below(255) as u8;
        self.bytes[..whole].fill(self.garbage);
        self.bytes[self.start..].as_mut_ptr()
    }

    fn lend_copy(&mut self, bytes: &[u8], random: &mut Random) -> *const u8 {
        self.lend(bytes.len(), random);
        self.bytes[self.start..][..bytes.len()].copy_from_slice(bytes);
        self.bytes[self.start..].as_ptr()
    }

    fn content(&self) -> &[u8] {
        &self.bytes[self.start..][..self.size]
    }

    /// The content is what is expected, up to its length, then zeros, and the guards are as they were.
    fn check(&self, what: &str, expected: &[u8], entry: usize) -> Result<(), String> {
        let guard = |bytes: &[u8]| bytes.iter().all(|&byte| byte == self.garbage);
        if !guard(&self.bytes[..self.start]) || !guard(&self.bytes[self.start + self.size..self.size + 2 * GUARD + 16]) {
            return Err(format!("{what}: bytes outside were written"));
        }
        let (front, rest) = self.content().split_at(expected.len());
        if front == expected && rest.iter().all(|&byte| byte == 0) {
            return Ok(());
        }
        let at = (0..self.size).find(|&i| self.content()[i] != expected.get(i).copied().unwrap_or(0)).unwrap();
        let from = at / entry * entry;
        let part = |bytes: &[u8]| format!("{:?}", bytes.iter().skip(from).take(entry).collect::<Vec<_>>());
        Err(format!("{what}: entry {}: reader {}, library {}", at / entry, part(expected), part(self.content())))
    }
}

/// Pages for a text, with a page after them that cannot be read. A text stands right before that page.
struct TextPages {
    start: *mut u8,
}

impl TextPages {
    const SIZE: usize = 1 << 17;

    fn new() -> TextPages {
        unsafe {
            // read and write; private and anonymous
            let start = mmap(std::ptr::null_mut(), Self::SIZE + 4096, 3, 0x22, -1, 0);
            assert!(start as isize != -1, "no memory for the text");
            assert!(mprotect(start.add(Self::SIZE), 4096, 0) == 0, "no page after the text");
            TextPages { start: start.cast() }
        }
    }

    fn put(&mut self, text: &[u8]) -> *const u8 {
        unsafe {
            let place = self.start.add(Self::SIZE - text.len());
            std::ptr::copy_nonoverlapping(text.as_ptr(), place, text.len());
            place
        }
    }

    fn holds(&self, text: &[u8]) -> bool {
        unsafe { std::slice::from_raw_parts(self.start.add(Self::SIZE - text.len()), text.len()) == text }
    }
}

// ---- the comparison

const BASES: [usize; 4] = [2, 8, 10, 16];

/// What has been seen so far.
#[derive(Default)]
struct Seen {
    texts: u64,
    bytes: u64,
    readings: [u64; 9],
    /// Readings with outcome 7 by where they stop: at a token, at the end of the text.
    stops: [u64; 2],
    lexings: [u64; 5],
    listings: [u64; 12],
    numerals: [u64; 10],
    spellings: u64,
    /// Hit tests: nodes, nobody, refusals; and how many of the nodes are not the only ones of their length that contain the offset.
    hits: [u64; 3],
    ties: u64,
    /// Values in the listings of trees: those that are numbers, those that are strings.
    values: [u64; 2],
    /// By base: literals and counts of the trees compared, and numerals that the entry accepted.
    literals: [u64; 17],
    counts: [u64; 17],
    entry_bases: [u64; 17],
}

struct Desk {
    text: TextPages,
    tokens: Lent,
    nodes: Lent,
    diagnostics: Lent,
    out: Lent,
    list: Vec<Record>,
    /// Rooms are at least what a text needs.
    roomy: bool,
    seen: Seen,
}

/// A table's size in bytes for so many entries: mostly enough, at times none, one less, far too much, or not a whole number of
/// entries.
fn room(random: &mut Random, roomy: bool, count: usize, entry: usize) -> usize {
    let exact = count * entry;
    if random.one_in(2000) {
        return exact + random.below(70_000 * entry);
    }
    match random.below(32) {
        0..=4 if roomy => exact,
        0 => 0,
        1 => random.below(entry),
        2 => exact.saturating_sub(entry),
        3 => exact.saturating_sub(1),
        4 => random.below(exact + 1),
        5..=8 => exact + random.below(entry),
        9..=12 => exact + entry * (1 + random.below(5)),
        13..=15 => 2 * exact + random.below(10 * entry),
        _ => exact,
    }
}

fn differ<T: PartialEq + std::fmt::Debug>(what: &str, reader: T, library: T) -> Result<(), String> {
    if reader == library {
        return Ok(());
    }
    Err(format!("{what}: reader {reader:?}, library {library:?}"))
}

/// The numbers of a listing of nodes, row by row. A string of digits is the number that they spell.
fn numbers_of(listing: &[u8]) -> Vec<u64> {
    let mut numbers = Vec::new();
    let mut number = None;
    // a row begins with its kind
    let mut in_kind = false;
    for &byte in listing {
        match byte {
            b'[' => in_kind = true,
            b',' | b']' => {
                numbers.extend(number.take());
                in_kind = false;
            }
            b'0'..=b'9' if !in_kind => number = Some(10 * number.unwrap_or(0) + (byte - b'0') as u64),
            _ => {}
        }
    }
    numbers
}

/// The same numbers, from the table that was listed.
fn listed_numbers(nodes: &[u8]) -> Vec<u64> {
    let mut numbers = Vec::new();
    for node in nodes.chunks_exact(Node::SIZE) {
        numbers.extend([2..4, 4..6, 6..8, 8..16].map(|field| reader::number(&node[field])));
        if (6..=9).contains(&node[0]) {
            numbers.push(node[1] as u64);
        }
    }
    numbers
}

impl Desk {
    fn new() -> Desk {
        Desk {
            text: TextPages::new(),
            tokens: Lent::default(),
            nodes: Lent::default(),
            diagnostics: Lent::default(),
            out: Lent::default(),
            list: Vec::new(),
            roomy: false,
            seen: Seen::default(),
        }
    }

    /// All comparisons of one text. Rooms and garbage come from `random`.
    fn compare(&mut self, text: &[u8], random: &mut Random) -> Result<(), String> {
        let tokens = reader::lex(text, usize::MAX).token_count;
        let whole = reader::read(text, usize::MAX, usize::MAX);
        self.compare_reading(text, tokens, &whole, random)?;
        self.compare_lexing(text, tokens, random)?;
        self.compare_listing(&whole, random)?;
        self.compare_spellings(text, &whole, random)?;
        self.compare_hits(text, &whole, random)?;
        self.seen.texts += 1;
        self.seen.bytes += text.len() as u64;
        Ok(())
    }

    fn compare_reading(&mut self, text: &[u8], tokens: usize, whole: &Answer, random: &mut Random) -> Result<(), String> {
        let token_room = room(random, self.roomy, tokens, Token::SIZE);
        let node_room = room(random, self.roomy, whole.node_count, Node::SIZE);
        let diagnostic_room = room(random, self.roomy, whole.diagnostics.len(), Diagnostic::SIZE);
        let list_length = room(random, self.roomy, whole.diagnostics.len(), 1);
        let expected = reader::read(text, token_room, node_room);

        let place = self.text.put(text);
        let garbage = random.next();
        let untouched = Record { start: garbage as u16, end: (garbage >> 16) as u16, reason: (garbage >> 32) as u8 };
        self.list.clear();
        self.list.resize(list_length + 2, untouched);
        let (mut token_count, mut node_count, mut diagnostic_count) = (garbage as usize, garbage as usize, garbage as usize);
        let outcome = unsafe {
            cairo_m_read(
                place,
                text.len(),
                self.tokens.lend(token_room, random),
                token_room,
                self.nodes.lend(node_room, random),
                node_room,
                self.diagnostics.lend(diagnostic_room, random),
                diagnostic_room,
                &mut token_count,
                &mut node_count,
                &mut diagnostic_count,
                self.list[1..].as_mut_ptr(),
                list_length,
            )
        };
        let answer = |what: &str| {
            format!("reading with rooms {token_room}, {node_room}, {diagnostic_room} and {list_length} records: {what}")
        };
        differ(
            &answer("outcome, tokens, nodes, diagnostics"),
            (expected.outcome, expected.token_count, expected.node_count, expected.diagnostics.len()),
            (outcome, token_count, node_count, diagnostic_count),
        )?;
        let diagnostics = reader::table(&expected.diagnostics, diagnostic_room);
        self.tokens.check(&answer("token table"), &reader::table(&expected.tokens, token_room), Token::SIZE)?;
        self.nodes.check(&answer("node table"), &reader::table(&expected.nodes, node_room), Node::SIZE)?;
        self.diagnostics.check(&answer("diagnostic table"), &diagnostics, Diagnostic::SIZE)?;
        let entries = diagnostic_room / Diagnostic::SIZE;
        for (i, record) in self.list.iter().enumerate() {
            let expected = match i.checked_sub(1) {
                Some(i) if i < list_length => match expected.diagnostics[..].get(i).filter(|_| i < entries) {
                    Some(diagnostic) => (diagnostic.span.start, diagnostic.span.end, diagnostic.reason),
                    None => (0, 0, 0),
                },
                _ => (untouched.start, untouched.end, untouched.reason),
            };
            let what = answer(&format!("record {} of the list", i as isize - 1));
            differ(&what, expected, (record.start, record.end, record.reason))?;
        }
        if !self.text.holds(text) {
            return Err(answer("the text was written"));
        }
        self.seen.readings[outcome as usize] += 1;
        if outcome == reader::SYNTAX {
            let span = expected.diagnostics[0].span;
            self.seen.stops[(span.start == span.end) as usize] += 1;
        }
        for node in expected.nodes.iter().filter(|node| node.base > 0) {
            let seen = if node.kind == NodeKind::Count { &mut self.seen.counts } else { &mut self.seen.literals };
            seen[node.base as usize] += 1;
        }
        Ok(())
    }

    fn compare_lexing(&mut self, text: &[u8], tokens: usize, random: &mut Random) -> Result<(), String> {
        let token_room = room(random, self.roomy, tokens, Token::SIZE);
        let expected = reader::lex(text, token_room);
        let diagnostic_room = room(random, self.roomy, expected.diagnostics.len(), Diagnostic::SIZE);
        let place = self.text.put(text);
        let (mut token_count, mut diagnostic_count) = (random.next() as usize, random.next() as usize);
        let outcome = unsafe {
            cairo_m_lex(
                place,
                text.len(),
                self.tokens.lend(token_room, random),
                token_room,
                self.diagnostics.lend(diagnostic_room, random),
                diagnostic_room,
                &mut token_count,
                &mut diagnostic_count,
            )
        };
        let answer = |what: &str| format!("lexing with rooms {token_room} and {diagnostic_room}: {what}");
        differ(
            &answer("outcome, tokens, diagnostics"),
            (expected.outcome, expected.token_count, expected.diagnostics.len()),
            (outcome, token_count, diagnostic_count),
        )?;
        let diagnostics = reader::table(&expected.diagnostics, diagnostic_room);
        self.tokens.check(&answer("token table"), &reader::table(&expected.tokens, token_room), Token::SIZE)?;
        self.diagnostics.check(&answer("diagnostic table"), &diagnostics, Diagnostic::SIZE)?;
        self.seen.lexings[outcome as usize] += 1;
        Ok(())
    }

    /// The listing of the tree or of the refusal; at times of a table that no reading gives.
    fn compare_listing(&mut self, whole: &Answer, random: &mut Random) -> Result<(), String> {
        if whole.outcome == reader::ACCEPTED {
            let mut nodes = reader::table(&whole.nodes, whole.node_count * Node::SIZE + random.below(Node::SIZE));
            if random.one_in(8) && !nodes.is_empty() {
                for _ in 0..1 + random.below(4) {
                    let at = random.below(nodes.len());
                    nodes[at] = random.next() as u8;
                }
            }
            self.compare_list(&nodes, random)?;
        } else {
            let mut diagnostics = reader::table(&whole.diagnostics, whole.diagnostics.len() * Diagnostic::SIZE + random.below(8));
            let mut outcome = whole.outcome;
            if random.one_in(8) {
                outcome = random.next() as u32 >> random.below(32);
                diagnostics.iter_mut().for_each(|byte| *byte = random.next() as u8);
            }
            self.compare_list_refused(outcome, &diagnostics, random)?;
        }
        if random.one_in(32) {
            // kinds a little past the table's ends, numbers of every length
            let mut nodes = vec![0; random.below(6 * Node::SIZE)];
            for node in nodes.chunks_mut(Node::SIZE) {
                node.iter_mut().for_each(|byte| *byte = random.next() as u8);
                node[0] = match random.below(12) {
                    0 => random.pick(&[0, 43, 44, 255]),
                    // the kinds with a base, which may be any byte here
                    1..=3 => 6 + random.below(4) as u8,
                    _ => 1 + random.below(42) as u8,
                };
                if node.len() == Node::SIZE {
                    let value = random.next() >> random.below(64);
                    node[8..].copy_from_slice(&value.to_le_bytes());
                }
            }
            self.compare_list(&nodes, random)?;
        }
        Ok(())
    }

    fn compare_list(&mut self, nodes: &[u8], random: &mut Random) -> Result<(), String> {
        let length = reader::list(nodes, usize::MAX).1.len();
        let out_room = room(random, self.roomy, length, 1);
        let (expected, json) = reader::list(nodes, out_room);
        let lent = self.nodes.lend_copy(nodes, random);
        let mut size = random.next() as usize;
        let outcome = unsafe { cairo_m_list(lent, nodes.len(), self.out.lend(out_room, random), out_room, &mut size) };
        let answer = |what: &str| format!("listing of {} bytes with room {out_room}: {what}", nodes.len());
        differ(&answer("outcome, length"), (expected, json.len()), (outcome, size))?;
        self.out.check(&answer("text"), json.as_bytes(), 64)?;
        self.nodes.check(&answer("nodes"), nodes, Node::SIZE)?;
        if outcome == reader::ACCEPTED {
            differ(&answer("numbers"), listed_numbers(nodes), numbers_of(&self.out.content()[..size]))?;
            for node in nodes.chunks_exact(Node::SIZE) {
                self.seen.values[(reader::number(&node[8..]) >= 1 << 53) as usize] += 1;
            }
        }
        self.seen.listings[outcome as usize] += 1;
        Ok(())
    }

    fn compare_list_refused(&mut self, refused: u32, diagnostics: &[u8], random: &mut Random) -> Result<(), String> {
        let length = reader::list_refused(refused, diagnostics, usize::MAX).1.len();
        let out_room = room(random, self.roomy, length, 1);
        let (expected, json) = reader::list_refused(refused, diagnostics, out_room);
        let lent = self.diagnostics.lend_copy(diagnostics, random);
        let mut size = random.next() as usize;
        let outcome = unsafe {
            cairo_m_list_refused(refused, lent, diagnostics.len(), self.out.lend(out_room, random), out_room, &mut size)
        };
        let answer = |what: &str| format!("listing of refusal {refused} with room {out_room}: {what}");
        differ(&answer("outcome, length"), (expected, json.len()), (outcome, size))?;
        self.out.check(&answer("text"), json.as_bytes(), 64)?;
        self.diagnostics.check(&answer("diagnostics"), diagnostics, Diagnostic::SIZE)?;
        self.seen.listings[outcome as usize] += 1;
        Ok(())
    }

    fn compare_spellings(&mut self, text: &[u8], whole: &Answer, random: &mut Random) -> Result<(), String> {
        let place = self.text.put(text);
        let spans = whole.nodes.iter().map(|node| (node.kind as u8, node.span.start, node.span.end));
        let any = (0..3).map(|_| {
            let kind = random.pick(&[0, 1, 2, 11, 3, 10, 12, 255]);
            let bound = text.len() + 3;
            (kind, random.below(bound) as u16, random.below(bound) as u16)
        });
        for (kind, start, end) in spans.chain(any.collect::<Vec<_>>()) {
            let length = unsafe { cairo_m_spelling(place, text.len(), kind, start, end) };
            if length != reader::spelling(text, kind, start, end).len() {
                return Err(format!("spelling of kind {kind} at {start}..{end}: library {length} bytes"));
            }
            self.seen.spellings += 1;
        }
        Ok(())
    }

    /// Hit tests in the tree, at times damaged, and at times in a table that no reading gives.
    fn compare_hits(&mut self, text: &[u8], whole: &Answer, random: &mut Random) -> Result<(), String> {
        if whole.outcome == reader::ACCEPTED || random.one_in(32) {
            // there may be zeros behind the tree
            let mut nodes = reader::table(&whole.nodes, whole.node_count * Node::SIZE + random.below(3 * Node::SIZE));
            if random.one_in(8) && !nodes.is_empty() {
                for _ in 0..1 + random.below(4) {
                    let at = random.below(nodes.len());
                    nodes[at] = random.next() as u8;
                }
            }
            let length = text.len();
            if length <= 24 {
                self.compare_hits_at(&(0..length + 2).collect::<Vec<_>>(), length, &nodes, random)?;
            } else {
                let offsets: Vec<_> = (0..5).map(|_| random.below(length)).chain([length - 1, length]).collect();
                self.compare_hits_at(&offsets, length, &nodes, random)?;
            }
        }
        if random.one_in(16) {
            // short spans, empty ones and some that end before they start, around the same place
            let near = random.below(65_536 - 8);
            let mut nodes = vec![0; random.below(12 * Node::SIZE)];
            nodes.iter_mut().for_each(|byte| *byte = random.next() as u8);
            for node in nodes.chunks_exact_mut(Node::SIZE) {
                node[2..4].copy_from_slice(&((near + random.below(8)) as u16).to_le_bytes());
                node[4..6].copy_from_slice(&((near + random.below(8)) as u16).to_le_bytes());
            }
            let offsets: Vec<_> = (near..near + 8).collect();
            let length = random.pick(&[near, near + 4, near + 9, 1 << 32, usize::MAX]);
            self.compare_hits_at(&offsets, length, &nodes, random)?;
            // no span goes so far, though the lower bits are those of the place
            let far = near + (1 << random.pick(&[16, 17, 32, 63]));
            self.compare_hits_at(&[far], far + random.below(2), &nodes, random)?;
        }
        if random.one_in(5000) {
            // a place past 16 bits
            let count = 65_530 + random.below(1000);
            let wide = [[1, 0], [0, 0], [255, 255], [0, 0]].concat();
            let mut nodes: Vec<u8> = wide.iter().copied().chain([0; 8]).cycle().take(count * Node::SIZE).collect();
            let shorter = count - 1 - random.below(9);
            nodes[shorter * Node::SIZE + 2] = 1;
            self.compare_hits_at(&[0, 1, 65_534, 65_535], 65_536, &nodes, random)?;
        }
        Ok(())
    }

    fn compare_hits_at(&mut self, offsets: &[usize], length: usize, nodes: &[u8], random: &mut Random) -> Result<(), String> {
        let spans = reader::spans_by_length(nodes);
        let lent = self.nodes.lend_copy(nodes, random);
        let garbage = random.next();
        for &offset in offsets {
            let (mut found, mut place) = (garbage as u8, garbage as usize);
            let outcome = unsafe { cairo_m_hit_test(offset, length, lent, nodes.len(), &mut found, &mut place) };
            let answer = (outcome, found, place);
            let expected = reader::hit_test(offset, length, &spans);
            if answer != expected {
                let what = format!("hit test of {offset} in {length}, {} bytes of nodes: outcome, found, place", nodes.len());
                return differ(&what, expected, answer);
            }
            self.seen.hits[if outcome == reader::OFFSET { 2 } else { 1 - found as usize }] += 1;
            let mut equal = spans.iter().skip_while(|(_, at)| found == 1 && *at != place);
            if let Some((hit, _)) = equal.next().filter(|_| found == 1) {
                let width = hit.end - hit.start;
                let mut equal = equal.take_while(|(span, _)| span.end - span.start == width);
                self.seen.ties += equal.any(|(span, _)| span.contains(&(offset as u64))) as u64;
            }
        }
        self.nodes.check("hit test: nodes", nodes, Node::SIZE)
    }

    fn compare_numeral(&mut self, spelling: &[u8]) -> Result<(), String> {
        let place = self.text.put(spelling);
        let (mut value, mut suffix, mut base, mut reason) = (77, 77, 77, 77);
        let outcome = unsafe { cairo_m_numeral(place, spelling.len(), &mut value, &mut suffix, &mut base, &mut reason) };
        let answer = (outcome, value, suffix, base, reason);
        differ("numeral: outcome, value, suffix, base, reason", reader::numeral(spelling), answer)?;
        self.seen.numerals[outcome as usize] += 1;
        self.seen.entry_bases[base as usize] += 1;
        Ok(())
    }

    /// The smallest text to be had in 20 seconds by leaving out bytes while there still is a difference.
    fn shrink(&mut self, text: &[u8], differs: impl Fn(&mut Desk, &[u8]) -> bool) -> Vec<u8> {
        let end = Instant::now() + Duration::from_secs(20);
        let differs = |desk: &mut Desk, text: &[u8]| Instant::now() < end && differs(desk, text);
        let mut text = text.to_vec();
        let mut size = text.len() / 2 + 1;
        loop {
            let mut smaller = false;
            let mut at = 0;
            while at < text.len() {
                let end = (at + size).min(text.len());
                let candidate = [&text[..at], &text[end..]].concat();
                if differs(self, &candidate) {
                    text = candidate;
                    smaller = true;
                } else {
                    at = end;
                }
            }
            if !smaller && size == 1 {
                match self.shrink_by_two(&text, &differs) {
                    Some(candidate) => text = candidate,
                    None => return text,
                }
            }
            if !smaller {
                size = size.div_ceil(2);
            }
        }
    }

    /// Leave out two short parts at once, as an opening and its closing bracket.
    fn shrink_by_two(&mut self, text: &[u8], differs: impl Fn(&mut Desk, &[u8]) -> bool) -> Option<Vec<u8>> {
        if text.len() > 300 {
            return None;
        }
        for first in 0..text.len() {
            for second in first + 1..text.len() {
                for (left, right) in [(1, 1), (2, 1), (1, 2), (2, 2), (1, 4), (3, 1)] {
                    if first + left <= second && second + right <= text.len() {
                        let candidate = [&text[..first], &text[first + left..second], &text[second + right..]].concat();
                        if differs(self, &candidate) {
                            return Some(candidate);
                        }
                    }
                }
            }
        }
        None
    }

    /// A text with its seed and number, from which the rooms come too. False after a difference, which is printed.
    fn compare_text(&mut self, text: &[u8], seed: u64, number: u64) -> bool {
        let Err(first) = self.compare(text, &mut Random::new(!seed, number)) else {
            return true;
        };
        println!("text {number} of seed {seed}: {first}");
        // the rooms hang on the text, so a few are tried for each smaller one
        let difference = |desk: &mut Desk, text: &[u8]| {
            (0..8).find_map(|again| desk.compare(text, &mut Random::new(!seed, number + again)).err())
        };
        let smallest = self.shrink(text, |desk, text| difference(desk, text).is_some());
        println!("the smallest text with a difference, {} bytes: {:?}", smallest.len(), String::from_utf8_lossy(&smallest));
        println!("{}", difference(self, &smallest).unwrap_or(first));
        if smallest.len() < 1000 {
            println!("its bytes: {smallest:?}");
            println!("the reader by hand, with room for all: {:?}", reader::read(&smallest, usize::MAX, usize::MAX));
        }
        false
    }

    fn compare_numeral_bytes(&mut self, spelling: &[u8]) -> bool {
        let Err(first) = self.compare_numeral(spelling) else {
            return true;
        };
        let smallest = self.shrink(spelling, |desk, spelling| desk.compare_numeral(spelling).is_err());
        println!("the smallest spelling with a difference: {:?}", String::from_utf8_lossy(&smallest));
        println!("{}", self.compare_numeral(&smallest).err().unwrap_or(first));
        false
    }

    fn report(&self, start: Instant) {
        let seen = &self.seen;
        let seconds = start.elapsed().as_secs_f64();
        let rate = seen.texts as f64 / seconds;
        println!("{} texts of {} bytes in {seconds:.1} s, {rate:.0} texts per second", seen.texts, seen.bytes);
        let counts = |counts: &[u64], numbers: &[usize]| {
            numbers.iter().map(|&number| format!("{number}: {}", counts[number])).collect::<Vec<_>>().join(", ")
        };
        println!("readings by outcome   {}", counts(&seen.readings, &[0, 1, 2, 3, 4, 5, 6, 7, 8]));
        println!("stops of outcome 7    at a token: {}, at the end: {}", seen.stops[0], seen.stops[1]);
        println!("lexings by outcome    {}", counts(&seen.lexings, &[0, 1, 2, 3, 4]));
        println!("listings by outcome   {}", counts(&seen.listings, &[0, 10, 11]));
        println!("values in listings    numbers: {}, strings: {}", seen.values[0], seen.values[1]);
        println!("numerals by outcome   {}", counts(&seen.numerals, &[0, 1, 3, 9]));
        println!("spellings             {}", seen.spellings);
        let [nodes, nobody, refused] = seen.hits;
        println!("hit tests             nodes: {nodes}, with ties: {}; nobody: {nobody}, refused: {refused}", seen.ties);
        println!("literals by base      {}", counts(&seen.literals, &BASES));
        println!("counts by base        {}", counts(&seen.counts, &BASES));
        println!("numerals by base      {}", counts(&seen.entry_bases, &BASES));
    }

    /// Whether every outcome of a reading, both places to stop, both spellings of a value, every answer of a hit test, a tie among them,
    /// and every base were seen.
    fn covered(&self) -> bool {
        let seen = &self.seen;
        let every_base = |counts: &[u64]| BASES.iter().all(|&base| counts[base] > 0);
        seen.readings.iter().chain(&seen.stops).chain(&seen.values).chain(&seen.hits).chain([&seen.ties]).all(|&count| count > 0)
            && every_base(&seen.literals)
            && every_base(&seen.counts)
            && every_base(&seen.entry_bases)
    }
}

/// 01's texts on the edge, one at least for each outcome, and numerals of every base.
fn edge_texts() -> Vec<Vec<u8>> {
    let mut texts: Vec<Vec<u8>> = [
        "", "const A = 1;", "@", "const A = f( );", "const A = 0x1felt;", "0b12 0x 12u32x 1felt2 99999999999999999999felt2",
        "const A = 18446744073709551615;", "const A = 18446744073709551616;", "const A = [0X1fu32, 0o17, 0B101felt, 10];",
        "const A: [[T; 0b11]; 0O7] = [t.0x10; 0XA];", "0x1 0X2felt 0o3 0O4u32 0b1 0B0u8 0_x 00x1 t.0b1",
        "const A: [T; 9007199254740991] = (9007199254740991, 9007199254740991felt, 9007199254740991u32, t.9007199254740991);",
        "const A: [T; 9007199254740992] = (9007199254740992, 9007199254740992felt, 9007199254740992u32, t.9007199254740992);",
    ]
    .map(|text| text.as_bytes().to_vec())
    .to_vec();
    for statement in [
        "if x {}", "if (x) {}", "a || b && c;", "let (a) = b;", "[1; 3u32];", "12u8;", "if (a) == (b) {}", "if a [12u8, 1];",
        "t.0u32;", "let a: [T; 3u32] = b;", "if (a) b; else", "{",
    ] {
        texts.push(format!("fn f() {{ {statement} }}").into_bytes());
    }
    for depth in 62..67 {
        texts.push(format!("const A = {}1{};", "(".repeat(depth), ")".repeat(depth)).into_bytes());
    }
    texts.push(vec![b' '; 65_535]);
    texts.push(vec![b' '; 65_536]);
    texts.push(b"const A = \xff;".to_vec());
    texts.push(format!("fn f(){{{}a;}}", "-".repeat(60_000)).into_bytes());
    texts.push(format!("fn f(){{{}}}", "a;".repeat(20_000)).into_bytes());
    texts
}

fn run(seconds: u64, seed: u64) -> bool {
    let mut desk = Desk::new();
    let start = Instant::now();
    let mut said = start;
    // each with several rooms, so that outcomes 4 and 6 are among them
    for (i, text) in edge_texts().iter().enumerate() {
        for again in 0..16 {
            if !desk.compare_text(text, seed, (16 * i + again) as u64) {
                return false;
            }
        }
    }
    let mut number = 0;
    while start.elapsed() < Duration::from_secs(seconds) {
        for _ in 0..64 {
            let text = generate::text(seed, number);
            if !desk.compare_text(&text, seed, number) {
                return false;
            }
            let random = &mut Random::new(seed.rotate_left(32), number);
            for _ in 0..2 {
                if !desk.compare_numeral_bytes(&generate::numeral_bytes(random)) {
                    return false;
                }
            }
            number += 1;
        }
        if said.elapsed() > Duration::from_secs(60) {
            said = Instant::now();
            eprintln!("{number} generated texts compared");
        }
    }
    println!("seed {seed}: generated texts 0 to {} and 01's texts on the edge, no difference", number - 1);
    desk.report(start);
    let covered = desk.covered();
    if !covered {
        println!("not every outcome of a reading, answer of a hit test, place to stop, spelling of a value or base was seen");
    }
    covered
}

fn exhaustive() -> bool {
    let mut desk = Desk::new();
    desk.roomy = true;
    let start = Instant::now();
    let count = generate::exhaustive_count();
    let mut text = Vec::new();
    for number in 0..count {
        generate::exhaustive_text(number, &mut text);
        if !desk.compare_text(&text, 0, number) {
            return false;
        }
        if number % (1 << 20) == 0 {
            eprintln!("{number} of {count} exhaustive texts compared");
        }
    }
    println!("all {count} exhaustive texts, no difference");
    desk.report(start);
    true
}

fn one(seed: u64, number: u64) -> bool {
    let text = generate::text(seed, number);
    println!("{}", String::from_utf8_lossy(&text));
    let whole = reader::read(&text, usize::MAX, usize::MAX);
    println!("outcome {}, {} nodes, {} diagnostics", whole.outcome, whole.node_count, whole.diagnostics.len());
    Desk::new().compare_text(&text, seed, number)
}

fn main() -> ExitCode {
    let arguments: Vec<String> = std::env::args().skip(1).collect();
    let numbers: Vec<Option<u64>> = arguments.iter().map(|argument| argument.parse().ok()).collect();
    let same = match (arguments.first().map(String::as_str), &numbers[..]) {
        (Some("exhaustive"), [None]) => exhaustive(),
        (Some("text"), [None, Some(seed), Some(number)]) => one(*seed, *number),
        (_, [Some(seconds), Some(seed)]) => run(*seconds, *seed),
        _ => {
            eprintln!("usage: differential SECONDS SEED | exhaustive | text SEED NUMBER");
            return ExitCode::from(2);
        }
    };
    ExitCode::from(!same as u8)
}
