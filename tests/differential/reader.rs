//! A reader of Cairo-M texts by hand: tokens in a vector, then recursive descent into a vector of nodes.
//!
//! It is written from the scope paper (01), parser.rs and lexer.rs alone, so that the proved library can be held against it.
//! Choice is ordered as parser.rs has it. Where the next token already decides, the alternatives that cannot begin with it are
//! not tried: they would take nothing.

use std::fmt::Write;
use std::ops::Range;

pub const LONGEST_TEXT: usize = 65_535;
pub const DEEPEST_NEST: u32 = 64;

pub const ACCEPTED: u32 = 0;
pub const LONG: u32 = 1;
pub const ENCODING: u32 = 2;
pub const LEXICAL: u32 = 3;
pub const TOKEN_ROOM: u32 = 4;
pub const NEST: u32 = 5;
pub const NODE_ROOM: u32 = 6;
pub const SYNTAX: u32 = 7;
pub const SUFFIX: u32 = 8;
pub const SPELLING: u32 = 9;
pub const OUTPUT_ROOM: u32 = 10;
pub const KIND: u32 = 11;
pub const OFFSET: u32 = 12;

pub const REASON_CHARACTER: u8 = 1;
pub const REASON_OVERFLOW: u8 = 2;
pub const REASON_FORMAT: u8 = 3;
pub const REASON_SUFFIX: u8 = 4;
pub const REASON_STOP: u8 = 5;

/// `TokenType` in its order, from 1. `End` stands for the place after the last token.
#[derive(Clone, Copy, Debug, PartialEq, Eq)]
#[repr(u8)]
pub enum TokenKind {
    End,
    LiteralNumber,
    As,
    Const,
    Else,
    False,
    Function,
    If,
    Let,
    New,
    Return,
    Struct,
    True,
    While,
    Loop,
    For,
    In,
    Break,
    Continue,
    Use,
    Identifier,
    Not,
    AndAnd,
    OrOr,
    BitwiseAnd,
    BitwiseOr,
    BitwiseXor,
    EqEq,
    Neq,
    LessEqual,
    GreaterEqual,
    Less,
    Greater,
    Plus,
    Minus,
    Mul,
    Div,
    Mod,
    Eq,
    Arrow,
    LParen,
    RParen,
    LBrace,
    RBrace,
    LBrack,
    RBrack,
    Comma,
    Semicolon,
    Colon,
    ColonColon,
    Dot,
}

/// The kinds of nodes in 01's order, from 1.
#[derive(Clone, Copy, Debug, PartialEq, Eq)]
#[repr(u8)]
pub enum NodeKind {
    Name = 1,
    Named,
    Pointer,
    TypeTuple,
    FixedArray,
    Count,
    Literal,
    LiteralFelt,
    LiteralU32,
    Bool,
    Identifier,
    Unary,
    Binary,
    Call,
    Member,
    Index,
    StructLiteral,
    Tuple,
    TupleIndex,
    Array,
    ArrayRepeat,
    Cast,
    New,
    Paren,
    PatternTuple,
    Let,
    Const,
    Assign,
    Return,
    If,
    ExprStmt,
    Block,
    Loop,
    While,
    For,
    Break,
    Continue,
    Param,
    Function,
    StructDef,
    UseSingle,
    UseList,
}

/// The words that the listing prints for the kinds 1 to 42.
const NODE_WORDS: [&str; 42] = [
    "Name", "Named", "Pointer", "TypeTuple", "FixedArray", "Count", "Literal", "LiteralFelt", "LiteralU32", "Bool", "Identifier",
    "Unary", "Binary", "Call", "Member", "Index", "StructLiteral", "Tuple", "TupleIndex", "Array", "ArrayRepeat", "Cast", "New",
    "Paren", "PatternTuple", "Let", "Const", "Assign", "Return", "If", "ExprStmt", "Block", "Loop", "While", "For", "Break",
    "Continue", "Param", "Function", "StructDef", "UseSingle", "UseList",
];

#[derive(Clone, Copy, Debug, PartialEq, Eq)]
pub struct Span {
    pub start: u16,
    pub end: u16,
}

const NO_SPAN: Span = Span { start: 0, end: 0 };

#[derive(Clone, Copy, Debug, PartialEq, Eq)]
pub struct Token {
    pub kind: TokenKind,
    pub suffix: u8,
    pub span: Span,
    pub value: u64,
    /// 2, 8, 10 or 16 for a numeral, else 0.
    pub base: u8,
}

#[derive(Clone, Copy, Debug, PartialEq, Eq)]
pub struct Node {
    pub kind: NodeKind,
    pub span: Span,
    pub children: u16,
    pub value: u64,
    /// That of the numeral for a Count or a literal, else 0.
    pub base: u8,
}

#[derive(Clone, Copy, Debug, PartialEq, Eq)]
pub struct Diagnostic {
    pub span: Span,
    pub reason: u8,
}

/// What a reading, or lexing alone, answers. The entries of a refused text are none, but for its diagnostics, which are all here.
#[derive(Clone, Debug, Default, PartialEq, Eq)]
pub struct Answer {
    pub outcome: u32,
    pub token_count: usize,
    pub node_count: usize,
    pub tokens: Vec<Token>,
    pub nodes: Vec<Node>,
    pub diagnostics: Vec<Diagnostic>,
}

impl Answer {
    fn refused(outcome: u32) -> Answer {
        Answer { outcome, ..Answer::default() }
    }
}

/// An entry of a table, in the bytes of the C interface.
pub trait Entry {
    const SIZE: usize;
    fn lay(&self, bytes: &mut [u8]);
}

impl Entry for Token {
    const SIZE: usize = 16;
    fn lay(&self, bytes: &mut [u8]) {
        bytes[0] = self.kind as u8;
        bytes[1] = self.suffix;
        bytes[2..4].copy_from_slice(&self.span.start.to_le_bytes());
        bytes[4..6].copy_from_slice(&self.span.end.to_le_bytes());
        bytes[6] = self.base;
        bytes[8..16].copy_from_slice(&self.value.to_le_bytes());
    }
}

impl Entry for Node {
    const SIZE: usize = 16;
    fn lay(&self, bytes: &mut [u8]) {
        bytes[0] = self.kind as u8;
        bytes[1] = self.base;
        bytes[2..4].copy_from_slice(&self.span.start.to_le_bytes());
        bytes[4..6].copy_from_slice(&self.span.end.to_le_bytes());
        bytes[6..8].copy_from_slice(&self.children.to_le_bytes());
        bytes[8..16].copy_from_slice(&self.value.to_le_bytes());
    }
}

impl Entry for Diagnostic {
    const SIZE: usize = 8;
    fn lay(&self, bytes: &mut [u8]) {
        bytes[0..2].copy_from_slice(&self.span.start.to_le_bytes());
        bytes[2..4].copy_from_slice(&self.span.end.to_le_bytes());
        bytes[4] = self.reason;
    }
}

/// A table of so many bytes: as many entries as it has room for, zero after them.
pub fn table<E: Entry>(entries: &[E], room: usize) -> Vec<u8> {
    let mut bytes = vec![0; room];
    for (place, entry) in bytes.chunks_exact_mut(E::SIZE).zip(entries) {
        entry.lay(place);
    }
    bytes
}

// ---- numerals

const fn is_word_byte(byte: u8) -> bool {
    byte.is_ascii_alphanumeric() || byte == b'_'
}

/// `parse_number_literal`: value and suffix of a numeral's spelling, and the base of its digits, or the reason why it has none.
fn parse_number(spelling: &str) -> Result<(u64, u8, u8), u8> {
    let (rest, base) = match spelling.as_bytes() {
        [b'0', b'x' | b'X', ..] => (&spelling[2..], 16),
        [b'0', b'o' | b'O', ..] => (&spelling[2..], 8),
        [b'0', b'b' | b'B', ..] => (&spelling[2..], 2),
        _ => (spelling, 10),
    };
    // both suffix words have a letter that is no digit of any base, so that digits alone hold neither
    let digits = rest.bytes().take_while(|&byte| (byte as char).is_digit(base)).count();
    let cut = if digits == rest.len() {
        digits
    } else {
        let cut_of = |word: &str| {
            let last = rest.rfind(word)?;
            Some(if last > 0 && last + word.len() == rest.len() { last } else { rest.len() })
        };
        match (cut_of("felt"), cut_of("u32")) {
            (Some(felt), Some(u32)) => felt.min(u32),
            (Some(cut), None) | (None, Some(cut)) => cut,
            (None, None) => digits,
        }
    };
    let (number, suffix) = rest.split_at(cut);
    if number.is_empty() || suffix.as_bytes().first().is_some_and(u8::is_ascii_digit) {
        return Err(REASON_FORMAT);
    }
    let suffix = match suffix {
        "" => 0,
        "felt" => 1,
        "u32" => 2,
        _ => 3,
    };
    match u64::from_str_radix(number, base) {
        Ok(value) => Ok((value, suffix, base as u8)),
        Err(error) if *error.kind() == std::num::IntErrorKind::PosOverflow => Err(REASON_OVERFLOW),
        Err(_) => Err(REASON_FORMAT),
    }
}

/// The numeral entry: outcome, value, suffix, base and reason.
pub fn numeral(spelling: &[u8]) -> (u32, u64, u8, u8, u8) {
    if spelling.len() > LONGEST_TEXT {
        return (LONG, 0, 0, 0, 0);
    }
    // either a base's letter or a name follows the digits, so a spelling is a digit and then any bytes of words
    if !spelling.first().is_some_and(u8::is_ascii_digit) || !spelling.iter().all(|&byte| is_word_byte(byte)) {
        return (SPELLING, 0, 0, 0, 0);
    }
    match parse_number(std::str::from_utf8(spelling).unwrap()) {
        Ok((value, suffix, base)) => (ACCEPTED, value, suffix, base, 0),
        Err(reason) => (LEXICAL, 0, 0, 0, reason),
    }
}

// ---- tokens

fn word_kind(word: &[u8]) -> TokenKind {
    match word {
        b"as" => TokenKind::As,
        b"const" => TokenKind::Const,
        b"else" => TokenKind::Else,
        b"false" => TokenKind::False,
        b"fn" => TokenKind::Function,
        b"if" => TokenKind::If,
        b"let" => TokenKind::Let,
        b"new" => TokenKind::New,
        b"return" => TokenKind::Return,
        b"struct" => TokenKind::Struct,
        b"true" => TokenKind::True,
        b"while" => TokenKind::While,
        b"loop" => TokenKind::Loop,
        b"for" => TokenKind::For,
        b"in" => TokenKind::In,
        b"break" => TokenKind::Break,
        b"continue" => TokenKind::Continue,
        b"use" => TokenKind::Use,
        _ => TokenKind::Identifier,
    }
}

/// The kind of the mark that begins with these two bytes, and its length; 0 where none does.
fn mark_kind(first: u8, second: u8) -> (TokenKind, usize) {
    use TokenKind::*;
    match (first, second) {
        (b'!', b'=') => (Neq, 2),
        (b'!', _) => (Not, 1),
        (b'&', b'&') => (AndAnd, 2),
        (b'&', _) => (BitwiseAnd, 1),
        (b'|', b'|') => (OrOr, 2),
        (b'|', _) => (BitwiseOr, 1),
        (b'^', _) => (BitwiseXor, 1),
        (b'=', b'=') => (EqEq, 2),
        (b'=', _) => (Eq, 1),
        (b'<', b'=') => (LessEqual, 2),
        (b'<', _) => (Less, 1),
        (b'>', b'=') => (GreaterEqual, 2),
        (b'>', _) => (Greater, 1),
        (b'+', _) => (Plus, 1),
        (b'-', b'>') => (Arrow, 2),
        (b'-', _) => (Minus, 1),
        (b'*', _) => (Mul, 1),
        (b'/', _) => (Div, 1),
        (b'%', _) => (Mod, 1),
        (b'(', _) => (LParen, 1),
        (b')', _) => (RParen, 1),
        (b'{', _) => (LBrace, 1),
        (b'}', _) => (RBrace, 1),
        (b'[', _) => (LBrack, 1),
        (b']', _) => (RBrack, 1),
        (b',', _) => (Comma, 1),
        (b';', _) => (Semicolon, 1),
        (b':', b':') => (ColonColon, 2),
        (b':', _) => (Colon, 1),
        (b'.', _) => (Dot, 1),
        _ => (End, 0),
    }
}

/// All tokens and all lexical errors of a text of at most 65,535 bytes.
fn tokens_of(text: &str) -> (Vec<Token>, Vec<Diagnostic>) {
    let bytes = text.as_bytes();
    let mut tokens = Vec::new();
    let mut errors = Vec::new();
    let mut at = 0;
    while at < bytes.len() {
        let start = at;
        let span_to = |end: usize| Span { start: start as u16, end: end as u16 };
        let second = bytes.get(at + 1).copied().unwrap_or(0);
        match bytes[at] {
            b'\t' | b'\n' | b'\r' | b' ' => at += 1,
            b'/' if second == b'/' => {
                at = bytes[at..].iter().position(|&byte| byte == b'\n').map_or(bytes.len(), |length| start + length);
            }
            first if is_word_byte(first) => {
                at += 1;
                while at < bytes.len() && is_word_byte(bytes[at]) {
                    at += 1;
                }
                let span = span_to(at);
                if !first.is_ascii_digit() {
                    tokens.push(Token { kind: word_kind(&bytes[start..at]), suffix: 0, span, value: 0, base: 0 });
                } else {
                    match parse_number(&text[start..at]) {
                        Ok((value, suffix, base)) => {
                            tokens.push(Token { kind: TokenKind::LiteralNumber, suffix, span, value, base });
                        }
                        Err(reason) => errors.push(Diagnostic { span, reason }),
                    }
                }
            }
            first => match mark_kind(first, second) {
                (_, 0) => {
                    at += text[at..].chars().next().map_or(1, char::len_utf8);
                    errors.push(Diagnostic { span: span_to(at), reason: REASON_CHARACTER });
                }
                (kind, length) => {
                    at += length;
                    tokens.push(Token { kind, suffix: 0, span: span_to(at), value: 0, base: 0 });
                }
            },
        }
    }
    (tokens, errors)
}

/// Lexing alone: outcomes 0, 1, 2, 3 and 4. The room is that of the token table in bytes.
pub fn lex(text: &[u8], token_room: usize) -> Answer {
    if text.len() > LONGEST_TEXT {
        return Answer::refused(LONG);
    }
    let Ok(text) = std::str::from_utf8(text) else {
        return Answer::refused(ENCODING);
    };
    let (tokens, diagnostics) = tokens_of(text);
    if !diagnostics.is_empty() {
        return Answer { outcome: LEXICAL, diagnostics, ..Answer::default() };
    }
    let token_count = tokens.len();
    if token_count > token_room / Token::SIZE {
        return Answer { outcome: TOKEN_ROOM, token_count, ..Answer::default() };
    }
    Answer { outcome: ACCEPTED, token_count, tokens, ..Answer::default() }
}

// ---- the grammar

/// Why a rule gives nothing: it does not fit here, or a token was taken at a nest above 64.
enum Stop {
    Fail,
    Nest,
}

type Read<T> = Result<T, Stop>;

/// What is given back when an attempt is dropped.
#[derive(Clone, Copy)]
struct Place {
    at: usize,
    nodes: usize,
    errors: usize,
}

struct Reader<'a> {
    text: &'a [u8],
    tokens: &'a [Token],
    at: usize,
    /// The first token that nothing has taken so far, not even an attempt that was dropped.
    untaken: usize,
    nest: u32,
    nodes: Vec<Node>,
    /// Literals with an unknown suffix, in the nodes as they stand.
    errors: Vec<Diagnostic>,
    /// The last `else` whose statement failed. If anything comes to it again, it is the next outer `if`, at a smaller nest, where
    /// it would fail in the same way. To read it again there would make the time grow exponentially with the nest.
    failed_else: usize,
}

impl Reader<'_> {
    fn peek(&self) -> TokenKind {
        self.tokens.get(self.at).map_or(TokenKind::End, |token| token.kind)
    }

    fn take(&mut self, kind: TokenKind) -> Read<Token> {
        match self.tokens.get(self.at) {
            Some(&token) if token.kind == kind => {
                if self.nest > DEEPEST_NEST {
                    return Err(Stop::Nest);
                }
                self.at += 1;
                self.untaken = self.untaken.max(self.at);
                Ok(token)
            }
            _ => Err(Stop::Fail),
        }
    }

    /// Take the token if it is of this kind.
    fn skip(&mut self, kind: TokenKind) -> Read<bool> {
        if self.peek() != kind {
            return Ok(false);
        }
        self.take(kind)?;
        Ok(true)
    }

    fn save(&self) -> Place {
        Place { at: self.at, nodes: self.nodes.len(), errors: self.errors.len() }
    }

    fn rewind(&mut self, place: Place) {
        self.at = place.at;
        self.nodes.truncate(place.nodes);
        self.errors.truncate(place.errors);
    }

    /// An optional part: what fails gives its tokens back.
    fn attempt<T>(&mut self, rule: impl FnOnce(&mut Self) -> Read<T>) -> Read<Option<T>> {
        let before = self.save();
        match rule(self) {
            Ok(read) => Ok(Some(read)),
            Err(Stop::Fail) => {
                self.rewind(before);
                Ok(None)
            }
            Err(Stop::Nest) => Err(Stop::Nest),
        }
    }

    fn nested<T>(&mut self, rule: impl FnOnce(&mut Self) -> Read<T>) -> Read<T> {
        self.nest += 1;
        let read = rule(self);
        self.nest -= 1;
        read
    }

    fn push(&mut self, kind: NodeKind, span: Span, children: usize, value: u64) {
        self.nodes.push(Node { kind, span, children: children as u16, value, base: 0 });
    }

    /// A Count or a literal: these alone say how their numeral was written.
    fn push_numeral(&mut self, kind: NodeKind, token: Token) {
        self.nodes.push(Node { kind, span: token.span, children: 0, value: token.value, base: token.base });
    }

    /// From the token at `first` to the last one taken.
    fn span_from(&self, first: usize) -> Span {
        Span { start: self.tokens[first].span.start, end: self.tokens[self.at - 1].span.end }
    }

    /// None or more entries parted by commas, with a trailing comma after at least one: how many, and the last one's span.
    fn list(&mut self, mut entry: impl FnMut(&mut Self) -> Read<Span>) -> Read<(usize, Span)> {
        let mut count = 0;
        let mut last = NO_SPAN;
        while let Some(span) = self.attempt(&mut entry)? {
            count += 1;
            last = span;
            if !self.skip(TokenKind::Comma)? {
                break;
            }
        }
        Ok((count, last))
    }

    fn name(&mut self) -> Read<Span> {
        let span = self.take(TokenKind::Identifier)?.span;
        self.push(NodeKind::Name, span, 0, 0);
        Ok(span)
    }

    // -- types

    fn named_type(&mut self) -> Read<Span> {
        let span = self.take(TokenKind::Identifier)?.span;
        let value = match &self.text[span.start as usize..span.end as usize] {
            b"felt" => 0,
            b"bool" => 1,
            b"u32" => 2,
            _ => 3,
        };
        self.push(NodeKind::Named, span, 0, value);
        Ok(span)
    }

    /// A type; without arrays it is an allocation type.
    fn type_expr(&mut self, arrays: bool) -> Read<Span> {
        self.nested(|reader| {
            let mut span = match reader.peek() {
                TokenKind::Identifier => reader.named_type()?,
                TokenKind::LBrack if arrays => reader.array_type()?,
                TokenKind::LParen => reader.tuple_type(arrays)?,
                _ => return Err(Stop::Fail),
            };
            while reader.peek() == TokenKind::Mul {
                span.end = reader.take(TokenKind::Mul)?.span.end;
                reader.push(NodeKind::Pointer, span, 1, 0);
            }
            Ok(span)
        })
    }

    fn array_type(&mut self) -> Read<Span> {
        let first = self.at;
        self.take(TokenKind::LBrack)?;
        self.type_expr(true)?;
        self.take(TokenKind::Semicolon)?;
        // any expression is read, and turned down unless it is one numeral without suffix
        let size = self.at;
        self.expression()?;
        let token = self.tokens[size];
        if self.at != size + 1 || token.kind != TokenKind::LiteralNumber || token.suffix != 0 {
            return Err(Stop::Fail);
        }
        self.nodes.pop();
        self.push_numeral(NodeKind::Count, token);
        self.take(TokenKind::RBrack)?;
        let span = self.span_from(first);
        self.push(NodeKind::FixedArray, span, 2, 0);
        Ok(span)
    }

    fn tuple_type(&mut self, arrays: bool) -> Read<Span> {
        let first = self.at;
        self.take(TokenKind::LParen)?;
        let (count, last) = self.list(|reader| reader.type_expr(arrays))?;
        if count == 0 {
            self.skip(TokenKind::Comma)?;
        }
        let trailing_comma = self.tokens[self.at - 1].kind == TokenKind::Comma;
        self.take(TokenKind::RParen)?;
        if count == 1 && !trailing_comma {
            return Ok(last);
        }
        let span = self.span_from(first);
        self.push(NodeKind::TypeTuple, span, count, 0);
        Ok(span)
    }

    // -- expressions

    fn expression(&mut self) -> Read<Span> {
        self.nested(|reader| reader.binary(LOGICAL))
    }

    /// The binary levels from `lowest` up. An operator whose operand fails is given back, and ends the expression.
    fn binary(&mut self, lowest: u8) -> Read<Span> {
        let mut span = self.cast()?;
        let mut highest = MULTIPLICATIVE;
        loop {
            let kind = self.peek();
            let (level, op) = binary_op(kind);
            if level < lowest || level > highest {
                return Ok(span);
            }
            let right = self.attempt(|reader| {
                reader.take(kind)?;
                reader.binary(level + 1)
            })?;
            let Some(right) = right else {
                return Ok(span);
            };
            span.end = right.end;
            self.push(NodeKind::Binary, span, 2, op);
            // a tighter operator that stands here was given back by the operand
            highest = level;
        }
    }

    fn cast(&mut self) -> Read<Span> {
        let mut span = self.prefixed()?;
        while self.peek() == TokenKind::As {
            let named = self.attempt(|reader| {
                reader.take(TokenKind::As)?;
                reader.named_type()
            })?;
            let Some(named) = named else { break };
            span.end = named.end;
            self.push(NodeKind::Cast, span, 2, 0);
        }
        Ok(span)
    }

    fn prefixed(&mut self) -> Read<Span> {
        let first = self.at;
        while let kind @ (TokenKind::Not | TokenKind::Minus) = self.peek() {
            self.take(kind)?;
        }
        let operand = self.at;
        let mut span = self.postfix()?;
        for prefix in self.tokens[first..operand].iter().rev() {
            span.start = prefix.span.start;
            self.push(NodeKind::Unary, span, 1, (prefix.kind == TokenKind::Minus) as u64);
        }
        Ok(span)
    }

    fn postfix(&mut self) -> Read<Span> {
        let mut span = self.atom()?;
        loop {
            let longer = match self.peek() {
                TokenKind::LParen => self.attempt(|reader| reader.call(span))?,
                TokenKind::Dot => self.attempt(|reader| reader.member(span))?,
                TokenKind::LBrack => self.attempt(|reader| reader.index(span))?,
                _ => None,
            };
            match longer {
                Some(longer) => span = longer,
                None => return Ok(span),
            }
        }
    }

    fn call(&mut self, callee: Span) -> Read<Span> {
        self.take(TokenKind::LParen)?;
        let (count, last) = self.list(Self::expression)?;
        self.take(TokenKind::RParen)?;
        let end = if count == 0 { callee.end + 2 } else { last.end };
        let span = Span { start: callee.start, end };
        self.push(NodeKind::Call, span, 1 + count, 0);
        Ok(span)
    }

    /// `.numeral` or `.name`
    fn member(&mut self, object: Span) -> Read<Span> {
        self.take(TokenKind::Dot)?;
        if self.peek() == TokenKind::LiteralNumber {
            let index = self.take(TokenKind::LiteralNumber)?;
            if index.suffix != 0 {
                return Err(Stop::Fail);
            }
            let span = Span { start: object.start, end: index.span.end };
            self.push(NodeKind::TupleIndex, span, 1, index.value);
            return Ok(span);
        }
        let field = self.name()?;
        let span = Span { start: object.start, end: field.end };
        self.push(NodeKind::Member, span, 2, 0);
        Ok(span)
    }

    fn index(&mut self, array: Span) -> Read<Span> {
        self.take(TokenKind::LBrack)?;
        let index = self.expression()?;
        self.take(TokenKind::RBrack)?;
        let span = Span { start: array.start, end: index.end };
        self.push(NodeKind::Index, span, 2, 0);
        Ok(span)
    }

    fn atom(&mut self) -> Read<Span> {
        match self.peek() {
            TokenKind::LiteralNumber => self.literal(),
            kind @ (TokenKind::True | TokenKind::False) => {
                let span = self.take(kind)?.span;
                self.push(NodeKind::Bool, span, 0, (kind == TokenKind::True) as u64);
                Ok(span)
            }
            TokenKind::New => self.new_expr(),
            TokenKind::Identifier => {
                if self.tokens.get(self.at + 1).is_some_and(|token| token.kind == TokenKind::LBrace) {
                    if let Some(span) = self.attempt(Self::struct_literal)? {
                        return Ok(span);
                    }
                }
                let span = self.take(TokenKind::Identifier)?.span;
                self.push(NodeKind::Identifier, span, 0, 0);
                Ok(span)
            }
            TokenKind::LBrack => self.array(),
            TokenKind::LParen => self.paren_or_tuple(),
            _ => Err(Stop::Fail),
        }
    }

    fn literal(&mut self) -> Read<Span> {
        let token = self.take(TokenKind::LiteralNumber)?;
        let kind = match token.suffix {
            1 => NodeKind::LiteralFelt,
            2 => NodeKind::LiteralU32,
            _ => NodeKind::Literal,
        };
        if token.suffix == 3 {
            self.errors.push(Diagnostic { span: token.span, reason: REASON_SUFFIX });
        }
        self.push_numeral(kind, token);
        Ok(token.span)
    }

    fn new_expr(&mut self) -> Read<Span> {
        let first = self.at;
        self.take(TokenKind::New)?;
        self.type_expr(false)?;
        self.take(TokenKind::LBrack)?;
        self.expression()?;
        self.take(TokenKind::RBrack)?;
        let span = self.span_from(first);
        self.push(NodeKind::New, span, 2, 0);
        Ok(span)
    }

    fn struct_literal(&mut self) -> Read<Span> {
        let first = self.at;
        self.name()?;
        self.take(TokenKind::LBrace)?;
        let (fields, _) = self.list(|reader| {
            reader.name()?;
            reader.take(TokenKind::Colon)?;
            reader.expression()
        })?;
        self.take(TokenKind::RBrace)?;
        let span = self.span_from(first);
        self.push(NodeKind::StructLiteral, span, 1 + 2 * fields, 0);
        Ok(span)
    }

    /// `[expr; numeral]` or an array literal: the first element is read once, then `;` decides.
    fn array(&mut self) -> Read<Span> {
        let first = self.at;
        self.take(TokenKind::LBrack)?;
        let mut count = 0;
        if self.attempt(Self::expression)?.is_some() {
            if self.skip(TokenKind::Semicolon)? {
                let length = self.take(TokenKind::LiteralNumber)?;
                self.take(TokenKind::RBrack)?;
                if length.suffix != 0 {
                    return Err(Stop::Fail);
                }
                self.push_numeral(NodeKind::Count, length);
                let span = self.span_from(first);
                self.push(NodeKind::ArrayRepeat, span, 2, 0);
                return Ok(span);
            }
            count = 1;
            if self.skip(TokenKind::Comma)? {
                count += self.list(Self::expression)?.0;
            }
        }
        self.take(TokenKind::RBrack)?;
        let span = self.span_from(first);
        self.push(NodeKind::Array, span, count, 0);
        Ok(span)
    }

    fn paren_or_tuple(&mut self) -> Read<Span> {
        let first = self.at;
        self.take(TokenKind::LParen)?;
        let mut kind = NodeKind::Tuple;
        let mut count = 0;
        if !self.skip(TokenKind::RParen)? {
            self.expression()?;
            count = 1;
            if self.skip(TokenKind::Comma)? {
                count += self.list(Self::expression)?.0;
            } else {
                kind = NodeKind::Paren;
            }
            self.take(TokenKind::RParen)?;
        }
        let span = self.span_from(first);
        self.push(kind, span, count, 0);
        Ok(span)
    }

    // -- statements

    fn pattern(&mut self) -> Read<()> {
        self.nested(|reader| {
            if !reader.skip(TokenKind::LParen)? {
                reader.name()?;
                return Ok(());
            }
            reader.pattern()?;
            let mut count = 1;
            while reader.skip(TokenKind::Comma)? {
                reader.pattern()?;
                count += 1;
            }
            // `at_least(2)` turns one pattern down before `)` is taken
            if count < 2 {
                return Err(Stop::Fail);
            }
            reader.take(TokenKind::RParen)?;
            reader.push(NodeKind::PatternTuple, NO_SPAN, count, 0);
            Ok(())
        })
    }

    fn statement(&mut self) -> Read<Span> {
        self.nested(|reader| {
            let first = reader.at;
            let (kind, children, value) = match reader.peek() {
                TokenKind::LBrace => (NodeKind::Block, reader.body()?, 0),
                TokenKind::If => (NodeKind::If, reader.if_stmt()?, 0),
                TokenKind::Loop => {
                    reader.take(TokenKind::Loop)?;
                    reader.statement()?;
                    (NodeKind::Loop, 1, 0)
                }
                TokenKind::While => {
                    reader.take(TokenKind::While)?;
                    reader.condition()?;
                    reader.statement()?;
                    (NodeKind::While, 2, 0)
                }
                TokenKind::For => {
                    reader.for_stmt()?;
                    (NodeKind::For, 4, 0)
                }
                TokenKind::Break => {
                    reader.take(TokenKind::Break)?;
                    reader.take(TokenKind::Semicolon)?;
                    (NodeKind::Break, 0, 0)
                }
                TokenKind::Continue => {
                    reader.take(TokenKind::Continue)?;
                    reader.take(TokenKind::Semicolon)?;
                    (NodeKind::Continue, 0, 0)
                }
                TokenKind::Let => reader.let_stmt()?,
                TokenKind::Const => reader.const_def()?,
                TokenKind::Return => {
                    reader.take(TokenKind::Return)?;
                    let value = reader.attempt(Self::expression)?;
                    reader.take(TokenKind::Semicolon)?;
                    (NodeKind::Return, value.is_some() as usize, 0)
                }
                _ => {
                    let read = reader.assignment_or_expr()?;
                    reader.take(TokenKind::Semicolon)?;
                    read
                }
            };
            let span = reader.span_from(first);
            reader.push(kind, span, children, value);
            Ok(span)
        })
    }

    /// Statements in braces: how many.
    fn body(&mut self) -> Read<usize> {
        self.take(TokenKind::LBrace)?;
        let mut count = 0;
        while self.attempt(Self::statement)?.is_some() {
            count += 1;
        }
        self.take(TokenKind::RBrace)?;
        Ok(count)
    }

    /// `(expr)` and, only if that fails, a bare expression.
    fn condition(&mut self) -> Read<Span> {
        let in_parens = self.attempt(|reader| {
            reader.take(TokenKind::LParen)?;
            let span = reader.expression()?;
            reader.take(TokenKind::RParen)?;
            Ok(span)
        })?;
        match in_parens {
            Some(span) => Ok(span),
            None => self.expression(),
        }
    }

    fn if_stmt(&mut self) -> Read<usize> {
        self.take(TokenKind::If)?;
        self.condition()?;
        self.statement()?;
        if self.peek() != TokenKind::Else || self.at == self.failed_else {
            return Ok(2);
        }
        let else_place = self.at;
        let else_block = self.attempt(|reader| {
            reader.take(TokenKind::Else)?;
            reader.statement()
        })?;
        if else_block.is_some() {
            return Ok(3);
        }
        self.failed_else = else_place;
        Ok(2)
    }

    fn for_stmt(&mut self) -> Read<()> {
        self.take(TokenKind::For)?;
        self.take(TokenKind::LParen)?;
        let first = self.at;
        let (kind, children, value) = if self.peek() == TokenKind::Let {
            self.let_stmt()?
        } else {
            let read = self.assignment_or_expr()?;
            self.take(TokenKind::Semicolon)?;
            read
        };
        self.push(kind, self.span_from(first), children, value);
        self.expression()?;
        self.take(TokenKind::Semicolon)?;
        let first = self.at;
        let (kind, children, value) = self.assignment_or_expr()?;
        self.push(kind, self.span_from(first), children, value);
        self.take(TokenKind::RParen)?;
        self.statement()?;
        Ok(())
    }

    fn let_stmt(&mut self) -> Read<(NodeKind, usize, u64)> {
        self.take(TokenKind::Let)?;
        self.pattern()?;
        let typed = self.typed_value()?;
        Ok((NodeKind::Let, 2 + typed, typed as u64))
    }

    fn const_def(&mut self) -> Read<(NodeKind, usize, u64)> {
        self.take(TokenKind::Const)?;
        self.name()?;
        let typed = self.typed_value()?;
        Ok((NodeKind::Const, 2 + typed, typed as u64))
    }

    /// `= expr;` with or without `: type` before it: 1 if typed.
    fn typed_value(&mut self) -> Read<usize> {
        let typed = self.skip(TokenKind::Colon)?;
        if typed {
            self.type_expr(true)?;
        }
        self.take(TokenKind::Eq)?;
        self.expression()?;
        self.take(TokenKind::Semicolon)?;
        Ok(typed as usize)
    }

    fn assignment_or_expr(&mut self) -> Read<(NodeKind, usize, u64)> {
        self.expression()?;
        let value = self.attempt(|reader| {
            reader.take(TokenKind::Eq)?;
            reader.expression()
        })?;
        Ok(if value.is_some() { (NodeKind::Assign, 2, 0) } else { (NodeKind::ExprStmt, 1, 0) })
    }

    // -- items

    fn item(&mut self) -> Read<()> {
        let first = self.at;
        let (kind, children, value) = match self.peek() {
            TokenKind::Function => self.function_def()?,
            TokenKind::Struct => self.struct_def()?,
            TokenKind::Const => self.const_def()?,
            TokenKind::Use => self.use_stmt()?,
            _ => return Err(Stop::Fail),
        };
        self.push(kind, self.span_from(first), children, value);
        Ok(())
    }

    fn function_def(&mut self) -> Read<(NodeKind, usize, u64)> {
        self.take(TokenKind::Function)?;
        self.name()?;
        self.take(TokenKind::LParen)?;
        let (params, _) = self.list(|reader| {
            let span = reader.field()?;
            reader.push(NodeKind::Param, NO_SPAN, 2, 0);
            Ok(span)
        })?;
        self.take(TokenKind::RParen)?;
        if self.skip(TokenKind::Arrow)? {
            self.type_expr(true)?;
        } else {
            self.push(NodeKind::TypeTuple, NO_SPAN, 0, 0);
        }
        let statements = self.body()?;
        Ok((NodeKind::Function, 2 + params + statements, params as u64))
    }

    fn struct_def(&mut self) -> Read<(NodeKind, usize, u64)> {
        self.take(TokenKind::Struct)?;
        self.name()?;
        self.take(TokenKind::LBrace)?;
        let (fields, _) = self.list(Self::field)?;
        self.take(TokenKind::RBrace)?;
        Ok((NodeKind::StructDef, 1 + 2 * fields, 0))
    }

    /// `name: type`
    fn field(&mut self) -> Read<Span> {
        self.name()?;
        self.take(TokenKind::Colon)?;
        self.type_expr(true)
    }

    /// A single use ends in `;` after its names; only a list goes on with `::`.
    fn use_stmt(&mut self) -> Read<(NodeKind, usize, u64)> {
        self.take(TokenKind::Use)?;
        self.name()?;
        let mut names = 1;
        loop {
            if self.skip(TokenKind::Semicolon)? {
                return Ok((NodeKind::UseSingle, names, names as u64 - 1));
            }
            self.take(TokenKind::ColonColon)?;
            if self.skip(TokenKind::LBrace)? {
                break;
            }
            self.name()?;
            names += 1;
        }
        let (items, _) = self.list(Self::name)?;
        self.take(TokenKind::RBrace)?;
        self.take(TokenKind::Semicolon)?;
        Ok((NodeKind::UseList, names + items, names as u64))
    }
}

const LOGICAL: u8 = 1;
const BITWISE: u8 = 2;
const COMPARISON: u8 = 3;
const ADDITIVE: u8 = 4;
const MULTIPLICATIVE: u8 = 5;

/// Level and number of a binary operator; level 0 for any other token.
fn binary_op(kind: TokenKind) -> (u8, u64) {
    match kind {
        TokenKind::Plus => (ADDITIVE, 0),
        TokenKind::Minus => (ADDITIVE, 1),
        TokenKind::Mul => (MULTIPLICATIVE, 2),
        TokenKind::Div => (MULTIPLICATIVE, 3),
        TokenKind::Mod => (MULTIPLICATIVE, 4),
        TokenKind::EqEq => (COMPARISON, 5),
        TokenKind::Neq => (COMPARISON, 6),
        TokenKind::Less => (COMPARISON, 7),
        TokenKind::Greater => (COMPARISON, 8),
        TokenKind::LessEqual => (COMPARISON, 9),
        TokenKind::GreaterEqual => (COMPARISON, 10),
        TokenKind::AndAnd => (LOGICAL, 11),
        TokenKind::OrOr => (LOGICAL, 12),
        TokenKind::BitwiseAnd => (BITWISE, 13),
        TokenKind::BitwiseOr => (BITWISE, 14),
        TokenKind::BitwiseXor => (BITWISE, 15),
        _ => (0, 0),
    }
}

/// A reading: outcomes 0 to 8. The rooms are those of the token and the node table in bytes.
pub fn read(text: &[u8], token_room: usize, node_room: usize) -> Answer {
    let lexed = lex(text, token_room);
    if lexed.outcome != ACCEPTED {
        return lexed;
    }
    let mut reader = Reader {
        text,
        tokens: &lexed.tokens,
        at: 0,
        untaken: 0,
        nest: 0,
        nodes: Vec::with_capacity(lexed.tokens.len()),
        errors: Vec::new(),
        failed_else: usize::MAX,
    };
    loop {
        match reader.attempt(Reader::item) {
            Ok(Some(())) => {}
            Ok(None) => break,
            Err(_) => return Answer::refused(NEST),
        }
    }
    if reader.peek() != TokenKind::End {
        // the first token that was not taken, or nothing at the end of the text
        let end = Span { start: text.len() as u16, end: text.len() as u16 };
        let span = reader.tokens.get(reader.untaken).map_or(end, |token| token.span);
        return Answer { outcome: SYNTAX, diagnostics: vec![Diagnostic { span, reason: REASON_STOP }], ..Answer::default() };
    }
    let Reader { nodes, errors, .. } = reader;
    if !errors.is_empty() {
        return Answer { outcome: SUFFIX, diagnostics: errors, ..Answer::default() };
    }
    let node_count = nodes.len();
    if node_count > node_room / Node::SIZE {
        return Answer { outcome: NODE_ROOM, node_count, ..Answer::default() };
    }
    Answer { node_count, nodes, ..lexed }
}

// ---- the listing

/// A field of a table's entry.
pub fn number(bytes: &[u8]) -> u64 {
    bytes.iter().rev().fold(0, |number, &byte| number << 8 | byte as u64)
}

/// The JSON of every whole entry of a node table, or none where a kind is not in the table.
fn json_of_nodes(nodes: &[u8]) -> Option<String> {
    let mut json = String::from("[");
    for (i, node) in nodes.chunks_exact(Node::SIZE).enumerate() {
        let word = NODE_WORDS.get((node[0] as usize).checked_sub(1)?)?;
        let comma = if i == 0 { "" } else { "," };
        let (start, end, children) = (number(&node[2..4]), number(&node[4..6]), number(&node[6..8]));
        let value = number(&node[8..16]);
        // past what a 64-bit float counts one by one, the digits stand in a string
        let quote = if value >> 53 == 0 { "" } else { "\"" };
        write!(json, "{comma}[\"{word}\",{start},{end},{children},{quote}{value}{quote}").unwrap();
        // a Count or a literal: the base, as it stands in the table
        if matches!(*word, "Count" | "Literal" | "LiteralFelt" | "LiteralU32") {
            write!(json, ",{}", node[1]).unwrap();
        }
        json.push(']');
    }
    json.push(']');
    Some(json)
}

fn json_of_refusal(outcome: u32, diagnostics: &[u8]) -> String {
    let mut json = format!("{{\"refused\":{outcome},\"diagnostics\":[");
    for (i, diagnostic) in diagnostics.chunks_exact(Diagnostic::SIZE).enumerate() {
        let comma = if i == 0 { "" } else { "," };
        let (start, end, reason) = (number(&diagnostic[0..2]), number(&diagnostic[2..4]), diagnostic[4]);
        write!(json, "{comma}[{start},{end},{reason}]").unwrap();
    }
    json.push_str("]}");
    json
}

/// The listing of a tree: outcomes 0, 10 and 11, with its text.
pub fn list(nodes: &[u8], out_room: usize) -> (u32, String) {
    match json_of_nodes(nodes) {
        None => (KIND, String::new()),
        Some(json) if json.len() > out_room => (OUTPUT_ROOM, String::new()),
        Some(json) => (ACCEPTED, json),
    }
}

/// The listing of a refusal: outcomes 0 and 10, with its text.
pub fn list_refused(outcome: u32, diagnostics: &[u8], out_room: usize) -> (u32, String) {
    let json = json_of_refusal(outcome, diagnostics);
    if json.len() > out_room {
        return (OUTPUT_ROOM, String::new());
    }
    (ACCEPTED, json)
}

/// The spelling of a Name, Named or Identifier; an empty part for another kind, or for a span not within the text.
pub fn spelling(text: &[u8], kind: u8, start: u16, end: u16) -> &[u8] {
    if !matches!(kind, 1 | 2 | 11) {
        return &[];
    }
    text.get(start as usize..end as usize).unwrap_or(&[])
}

// ---- the hit test

/// The spans of a node table that are not empty, each with its node's place: the shortest first, those of a length as they stand.
pub fn spans_by_length(nodes: &[u8]) -> Vec<(Range<u64>, usize)> {
    let spans = nodes.chunks_exact(Node::SIZE).map(|node| number(&node[2..4])..number(&node[4..6]));
    let mut spans: Vec<_> = spans.zip(0..).filter(|(span, _)| !span.is_empty()).collect();
    // a stable sort
    spans.sort_by_key(|(span, _)| span.end - span.start);
    spans
}

/// The hit test of Wish 4: outcomes 0 and 12, whether a node contains the offset, and its place.
pub fn hit_test(offset: usize, length: usize, spans_by_length: &[(Range<u64>, usize)]) -> (u32, u8, usize) {
    if offset >= length {
        return (OFFSET, 0, 0);
    }
    match spans_by_length.iter().find(|(span, _)| span.contains(&(offset as u64))) {
        Some(&(_, place)) => (ACCEPTED, 1, place),
        None => (ACCEPTED, 0, 0),
    }
}

#[cfg(test)]
mod tests {
    use super::*;

    const ENOUGH: usize = 16 * LONGEST_TEXT;

    fn outcome(text: &str) -> u32 {
        read(text.as_bytes(), ENOUGH, ENOUGH).outcome
    }

    /// The outcome of statements in the body of a function without parameters.
    fn body(statements: &str) -> u32 {
        outcome(&format!("fn f() {{ {statements} }}"))
    }

    fn listing(text: &str) -> String {
        let answer = read(text.as_bytes(), ENOUGH, ENOUGH);
        if answer.outcome == ACCEPTED {
            json_of_nodes(&table(&answer.nodes, 16 * answer.node_count)).unwrap()
        } else {
            json_of_refusal(answer.outcome, &table(&answer.diagnostics, 8 * answer.diagnostics.len()))
        }
    }

    /// The listing of statements, without the nodes of the function around them, spans from the statements' first byte on.
    fn body_listing(statements: &str) -> String {
        let head = "fn f(){";
        let answer = read(format!("{head}{statements}}}").as_bytes(), ENOUGH, ENOUGH);
        assert_eq!(answer.outcome, ACCEPTED, "{statements}");
        let mut nodes = answer.nodes[2..answer.node_count - 1].to_vec();
        for node in nodes.iter_mut().filter(|node| node.span != NO_SPAN) {
            node.span.start -= head.len() as u16;
            node.span.end -= head.len() as u16;
        }
        json_of_nodes(&table(&nodes, 16 * nodes.len())).unwrap()
    }

    #[test]
    fn bracketed_texts_on_the_edge() {
        assert_eq!(listing(""), "[]");
        assert_eq!(listing("const A = 1;"), r#"[["Name",6,7,0,0],["Literal",10,11,0,1,10],["Const",0,12,2,0]]"#);
        assert_eq!(listing("@"), r#"{"refused":3,"diagnostics":[[0,1,1]]}"#);
        assert_eq!(numeral(b"0x1felt"), (0, 1, 1, 16, 0));
        for text in ["0b12", "0x", "12u32x", "1felt2"] {
            assert_eq!(numeral(text.as_bytes()), (3, 0, 0, 0, 3), "{text}");
        }
        assert_eq!(numeral(b"18446744073709551615"), (0, u64::MAX, 0, 10, 0));
        assert_eq!(numeral(b"18446744073709551616"), (3, 0, 0, 0, 2));
        assert_eq!(numeral(b"99999999999999999999felt2"), (3, 0, 0, 0, 2));
        assert_eq!(body("if x {}"), 7);
        assert_eq!(body("if (x) {}"), 0);
        assert_eq!(
            body_listing("a || b && c;"),
            r#"[["Identifier",0,1,0,0],["Identifier",5,6,0,0],["Binary",0,6,2,12],["Identifier",10,11,0,0],["Binary",0,11,2,11],["ExprStmt",0,12,1,0]]"#
        );
        assert_eq!(
            listing("const A = f( );"),
            r#"[["Name",6,7,0,0],["Identifier",10,11,0,0],["Call",10,13,1,0],["Const",0,15,2,0]]"#
        );
        assert_eq!(body("let (a) = b;"), 7);
        assert_eq!(body("[1; 3u32];"), 7);
        assert_eq!(body("12u8;"), 8);
    }

    #[test]
    fn bases() {
        for (text, value, suffix, base) in [
            ("0", 0, 0, 10),
            ("007", 7, 0, 10),
            ("101u32", 101, 2, 10),
            ("9felt", 9, 1, 10),
            ("0_x", 0, 3, 10),
            ("0e5", 0, 3, 10),
            ("00x1", 0, 3, 10),
            ("10b1", 10, 3, 10),
            ("0x0", 0, 0, 16),
            ("0XfFu32", 255, 2, 16),
            ("0xffelt", 15, 1, 16),
            ("0xb1u8", 177, 3, 16),
            ("0o17", 15, 0, 8),
            ("0O17felt", 15, 1, 8),
            ("0b101", 5, 0, 2),
            ("0B101u32", 5, 2, 2),
        ] {
            assert_eq!(numeral(text.as_bytes()), (0, value, suffix, base, 0), "{text}");
        }
        for (text, reason) in [("0X", 3), ("0o8", 3), ("0B", 3), ("0xg", 3), ("0xfelt", 3), ("0x10000000000000000", 2)] {
            assert_eq!(numeral(text.as_bytes()), (3, 0, 0, 0, reason), "{text}");
        }
        assert_eq!(numeral(b"x1"), (9, 0, 0, 0, 0));
        assert_eq!(numeral(&[b'0'; 65_536]), (1, 0, 0, 0, 0));
        // a tuple index is a numeral's token, and its node has no base
        assert_eq!(
            body_listing("[0X1felt;0b11];(t.0o7)[2u32];"),
            r#"[["LiteralFelt",1,8,0,1,16],["Count",9,13,0,3,2],["ArrayRepeat",0,14,2,0],["ExprStmt",0,15,1,0],["Identifier",16,17,0,0],["TupleIndex",16,21,1,7],["Paren",15,22,1,0],["LiteralU32",23,27,0,2,10],["Index",15,27,2,0],["ExprStmt",15,29,1,0]]"#
        );
        assert_eq!(
            listing("const A:[T;0O17]=1;"),
            r#"[["Name",6,7,0,0],["Named",9,10,0,3],["Count",11,15,0,15,8],["FixedArray",8,16,2,0],["Literal",17,18,0,1,10],["Const",0,19,3,1]]"#
        );
    }

    #[test]
    fn large_values() {
        for (value, said) in [
            ("9007199254740991", "9007199254740991"),
            ("9007199254740992", r#""9007199254740992""#),
            ("0x20000000000001", r#""9007199254740993""#),
            ("18446744073709551615", r#""18446744073709551615""#),
        ] {
            let base = if value.starts_with("0x") { 16 } else { 10 };
            let n = value.len();
            assert_eq!(
                listing(&format!("const A:[T;{value}]=1;")),
                format!(
                    r#"[["Name",6,7,0,0],["Named",9,10,0,3],["Count",11,{},0,{said},{base}],["FixedArray",8,{},2,0],["Literal",{},{},0,1,10],["Const",0,{},3,1]]"#,
                    11 + n, 12 + n, 13 + n, 14 + n, 15 + n
                )
            );
            assert_eq!(
                body_listing(&format!("t.{value};")),
                format!(r#"[["Identifier",0,1,0,0],["TupleIndex",0,{},1,{said}],["ExprStmt",0,{},1,0]]"#, 2 + n, 3 + n)
            );
            for (suffix, word) in [("", "Literal"), ("felt", "LiteralFelt"), ("u32", "LiteralU32")] {
                let n = n + suffix.len();
                assert_eq!(
                    body_listing(&format!("{value}{suffix};")),
                    format!(r#"[["{word}",0,{n},0,{said},{base}],["ExprStmt",0,{},1,0]]"#, n + 1)
                );
            }
        }
        // every kind, and room for all or for a byte less
        for kind in 1..=42 {
            for (value, said) in [((1 << 53) - 1, "9007199254740991"), (1 << 53, r#""9007199254740992""#)] {
                let mut entry = [kind, 7, 1, 0, 2, 0, 3, 0, 0, 0, 0, 0, 0, 0, 0, 0];
                entry[8..].copy_from_slice(&u64::to_le_bytes(value));
                let word = NODE_WORDS[kind as usize - 1];
                let sixth = if (6..=9).contains(&kind) { ",7" } else { "" };
                let json = format!("[[\"{word}\",1,2,3,{said}{sixth}]]");
                let room = json.len();
                assert_eq!(list(&entry, room), (0, json));
                assert_eq!(list(&entry, room - 1), (10, String::new()));
            }
        }
    }

    #[test]
    fn bytes_of_the_tables() {
        let answer = read(b"const A=t.0x10+0B1felt;", ENOUGH, ENOUGH);
        assert_eq!(table(&answer.tokens[4..6], 33), [
            50, 0, 9, 0, 10, 0, 0, 0, 0, 0, 0, 0, 0, 0, 0, 0, 1, 0, 10, 0, 14, 0, 16, 0, 16, 0, 0, 0, 0, 0, 0, 0, 0,
        ]);
        assert_eq!(table(&answer.tokens[7..8], 16), [1, 1, 15, 0, 22, 0, 2, 0, 1, 0, 0, 0, 0, 0, 0, 0]);
        assert_eq!(table(&answer.nodes[2..4], 32), [
            19, 0, 8, 0, 14, 0, 1, 0, 16, 0, 0, 0, 0, 0, 0, 0, 8, 2, 15, 0, 22, 0, 0, 0, 1, 0, 0, 0, 0, 0, 0, 0,
        ]);
        // the listing prints a base as it stands, on four kinds alone
        let entry = |kind: u8, base: u8| [kind, base, 1, 0, 2, 0, 3, 0, 4, 0, 0, 0, 0, 0, 0, 0];
        for kind in 1..=42 {
            for base in [0, 10, 77, 255] {
                let word = NODE_WORDS[kind as usize - 1];
                let sixth = if (6..=9).contains(&kind) { format!(",{base}") } else { String::new() };
                assert_eq!(list(&entry(kind, base), ENOUGH), (0, format!("[[\"{word}\",1,2,3,4{sixth}]]")));
            }
        }
    }

    #[test]
    fn sizes_on_the_edge() {
        let parens = |depth: usize| format!("const A = {}1{};", "(".repeat(depth), ")".repeat(depth));
        assert_eq!(outcome(&parens(63)), 0);
        assert_eq!(outcome(&parens(64)), 5);
        assert_eq!(outcome(&" ".repeat(65_535)), 0);
        assert_eq!(outcome(&" ".repeat(65_536)), 1);
    }

    #[test]
    fn slips_from_habit() {
        assert_eq!(body("if (a) == (b) {}"), 7);
        assert_eq!(listing("fn f(){if a [12u8, 1];}"), r#"{"refused":8,"diagnostics":[[13,17,4]]}"#);
        assert_eq!(listing("fn f(){a[12u8];b(1u8);}"), r#"{"refused":8,"diagnostics":[[9,13,4],[17,20,4]]}"#);
    }

    /// Each text has `@` before the first token that nothing takes, perhaps with white space between, or at its end.
    #[test]
    fn stops() {
        let stops = |marked: &str| {
            let at = marked.find('@').unwrap();
            let text = marked.replace('@', "");
            let answer = read(text.as_bytes(), ENOUGH, 0);
            let [Diagnostic { span, reason: REASON_STOP }] = answer.diagnostics[..] else { panic!("{text}: {answer:?}") };
            let rest = lex(text[at..].as_bytes(), ENOUGH).tokens;
            let owed = rest.first().map_or(Span { start: 0, end: 0 }, |token| token.span);
            let (start, end) = (at + owed.start as usize, at + owed.end as usize);
            assert_eq!((answer.outcome, span.start as usize, span.end as usize), (SYNTAX, start, end), "{text}");
        };
        for statements in [
            "if x {}@", "let (a@) = b;", "let ((a@), b) = c;", "let (a,@) = b;", "[1; 3u32]@;", "[1; 3@; 4];", "[1,@, 2];", "t.0u32@;",
            "t.@-1;", "if (a) @== (b) {}", "if (a) b; else@", "if (a) if (b) c; else @+ d;", "x { y: 1 @; }", "a as T as @5;",
            "a + b * @/ c;", "f(a, b,@, c);", "(a, b,@, c);", "x = y @= z;", "for (x; y; z.@) {}", "let a: [T; 3u32@] = b;",
            "let a: [T; 3 +@] = b;", "let a: (T, U, @5) = b;", "if x { y @}", "return a @b;", "while (a)(b) == c {}@",
        ] {
            stops(&format!("fn f() {{ {statements} }}"));
        }
        for text in [
            "@x", "fn@", "fn f() {@", "fn f() { a; // \u{e9}\n@", "use a::@;", "use a::{b@", "const A = 1; // \u{20ac}\n\t@in",
            "const A = 1 @2; const B = ;", "fn f() { {@", "const A = [1;@", "struct S { a: T, @1 }", "fn f() -> @{}",
        ] {
            stops(text);
        }
    }

    #[test]
    fn lists_and_trailing_commas() {
        for text in ["f(,)", "[,]", "S{,}", "(,)", "(a,,)", "f(a,,)"] {
            assert_eq!(body(&format!("x = {text};")), 7, "{text}");
        }
        for text in ["f(a,)", "[a,]", "[]", "S{}", "S{a:1,}", "()", "(a,)", "(a,b,)", "[a;3]", "new (felt,)*[3]", "new (,)[n]"] {
            assert_eq!(body(&format!("x = {text};")), 0, "{text}");
        }
        for text in ["()", "(,)", "(T)", "(T,)", "(T,U,)", "[(T);3]**", "(T)*"] {
            assert_eq!(outcome(&format!("const A: {text} = 1;")), 0, "{text}");
        }
        for text in ["(,T)", "(T,,)", "[T;3u32]", "[T;(3)]", "[T;3+1]", "[T;3u8]", "*T"] {
            assert_eq!(outcome(&format!("const A: {text} = 1;")), 7, "{text}");
        }
        assert_eq!(body("let x = new [T;3][1];"), 7);
        assert_eq!(body("let (a,b,) = c;"), 7);
        assert_eq!(outcome("use a; use a::b; use a::{}; use a::{b,}; struct S{} struct T{a:felt,} fn f(a:felt,){}"), 0);
        for text in ["use a::;", "use ::a;", "use {a};", "use a::{,};", "use a{b};"] {
            assert_eq!(outcome(text), 7, "{text}");
        }
    }

    #[test]
    fn spans() {
        assert_eq!(
            body_listing("-f(x).y[2] as u32;"),
            r#"[["Identifier",1,2,0,0],["Identifier",3,4,0,0],["Call",1,4,2,0],["Name",6,7,0,0],["Member",1,7,2,0],["Literal",8,9,0,2,10],["Index",1,9,2,0],["Unary",0,9,1,1],["Named",14,17,0,2],["Cast",0,17,2,0],["ExprStmt",0,18,1,0]]"#
        );
        assert_eq!(
            body_listing("let(a,(b,c)):(T)* =1;"),
            r#"[["Name",4,5,0,0],["Name",7,8,0,0],["Name",9,10,0,0],["PatternTuple",0,0,2,0],["PatternTuple",0,0,2,0],["Named",14,15,0,3],["Pointer",14,17,1,0],["Literal",19,20,0,1,10],["Let",0,21,3,1]]"#
        );
        assert_eq!(
            body_listing("for(i=0;a;i=f(x))b;"),
            r#"[["Identifier",4,5,0,0],["Literal",6,7,0,0,10],["Assign",4,8,2,0],["Identifier",8,9,0,0],["Identifier",10,11,0,0],["Identifier",12,13,0,0],["Identifier",14,15,0,0],["Call",12,15,2,0],["Assign",10,16,2,0],["Identifier",17,18,0,0],["ExprStmt",17,19,1,0],["For",0,19,4,0]]"#
        );
        assert_eq!(body("for(;;)x;"), 7);
    }

    #[test]
    fn dropped_attempts_count_for_the_nest() {
        // the condition in parentheses reads its expression at nest n + 1, the bare one at n + 2
        let deep = |condition: &str, depth: usize| format!("{}if {condition} {{}}{}", "{".repeat(depth), "}".repeat(depth));
        assert_eq!(body(&deep("(a)", 62)), 0);
        assert_eq!(body(&deep("(a)", 63)), 5);
        assert_eq!(body(&deep("(a, b)", 61)), 0);
        assert_eq!(body(&deep("(a, b)", 62)), 5);
        // the index is dropped, but its token was taken at nest 65
        assert_eq!(body(&format!("{}if (a) b [c, d];{}", "{".repeat(62), "}".repeat(62))), 5);
        // nothing is taken at nest 65
        assert_eq!(outcome(&format!("const A = {}{};", "[".repeat(64), "]".repeat(64))), 0);
        assert_eq!(outcome(&format!("const A = {}{};", "(".repeat(64), ")".repeat(64))), 0);
        assert_eq!(outcome(&format!("const A = {}{};", "(".repeat(64), "+)".repeat(64))), 7);
    }

    #[test]
    fn long_runs() {
        assert_eq!(body(&format!("{}a;", "-".repeat(60_000))), 0);
        assert_eq!(body(&"a;".repeat(20_000)), 0);
        assert_eq!(body(&format!("f({});", "a,".repeat(20_000))), 0);
        assert_eq!(body(&format!("a{};", "+a".repeat(20_000))), 0);
        assert_eq!(body(&format!("a{};", "()".repeat(20_000))), 0);
        assert_eq!(outcome(&format!("const A: T{} = 1;", "*".repeat(60_000))), 0);
        // an else that fails is not read again by every outer if
        assert_eq!(body(&"if(a)if(a)if(a)b;else ".repeat(20)), 7);
    }

    /// Under each byte of a text the place of its node, `.` for nobody.
    #[test]
    fn hits() {
        for (text, owed) in [
            // the bracket of a call is outside if it has arguments
            ("const A=f(a);", "4444440413244"),
            ("const A=f();", "333333031223"),
            ("const A=f()(a)+b[1];", "99999909122438857699"),
            // Param, PatternTuple and an absent return type have 0..0
            ("fn f(a:T){let(b,c)=d;}", "aaa0a1a2aa99995969989a"),
            // a step is as long as its expression
            ("fn f(){for(x;y;z)w;}", "aaa0aaa999923495978a"),
            (" use m;// ", ".111101..."),
        ] {
            let answer = read(text.as_bytes(), ENOUGH, ENOUGH);
            let spans = spans_by_length(&table(&answer.nodes, 16 * answer.node_count + 40));
            let said: String = (0..text.len())
                .map(|offset| match hit_test(offset, text.len(), &spans) {
                    (0, 1, place) => char::from_digit(place as u32, 36).unwrap(),
                    (0, 0, 0) => '.',
                    other => panic!("{text}: {other:?}"),
                })
                .collect();
            assert_eq!(said, owed, "{text}");
            assert_eq!(hit_test(text.len(), text.len(), &spans), (12, 0, 0));
        }
        let hit = |offset, length, spans: &[(u16, u16)]| {
            let mut nodes = Vec::new();
            for (start, end) in spans {
                nodes.extend([0, 7]);
                nodes.extend(start.to_le_bytes());
                nodes.extend(end.to_le_bytes());
                nodes.extend([9; 10]);
            }
            // a cut off entry behind them
            nodes.extend([1, 0, 4, 0, 5, 0, 0, 0, 0, 0, 0, 0, 0, 0, 0]);
            hit_test(offset, length, &spans_by_length(&nodes))
        };
        let spans = [(0, 9), (5, 4), (4, 4), (2, 6), (3, 7), (3, 7)];
        assert_eq!([0, 1, 2, 3, 5, 6, 8].map(|offset| hit(offset, 9, &spans).2), [0, 0, 3, 3, 3, 4, 0]);
        assert_eq!(hit(9, 10, &spans), (0, 0, 0));
        assert_eq!(hit(4, 4, &spans), (12, 0, 0));
        assert_eq!(hit(0, 1, &[(0, 0), (65535, 0)]), (0, 0, 0));
        assert_eq!(hit(65534, usize::MAX, &[(0, 65535)]), (0, 1, 0));
        assert_eq!(hit(65536, usize::MAX, &[(0, 65535)]), (0, 0, 0));
    }

    #[test]
    fn rooms() {
        let text = b"const A = 1;";
        assert_eq!(read(text, 79, 48).outcome, 4);
        assert_eq!(read(text, 80, 47).outcome, 6);
        assert_eq!(read(text, 80, 48).outcome, 0);
        assert_eq!(read(b"const A = 1", 64, 0).outcome, 7);
        assert_eq!(read(b"const A = 1u8;", 80, 0).outcome, 8);
        assert_eq!(list(&[0; 16], 0).0, 11);
        assert_eq!(list(&[0; 15], 1).0, 10);
        assert_eq!(list(&[0; 15], 2), (0, "[]".to_string()));
    }
}
