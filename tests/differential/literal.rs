//! The reader by hand against parser.rs word for word.
//!
//! The rules below are parser.rs's combinators, one for one, with nothing decided by a look ahead and nothing kept from a dropped
//! attempt. They give outcome 0, 5, 7 or 8, the unknown suffixes and the first token that no attempt took, slowly, and no tree. That
//! holds `reader.rs` to the order of choice, to the nests of all attempts and to what they take; its trees are held against the
//! library's. parser.rs has no bases, so they are left out.

// the run alone uses the rest of them
#[allow(dead_code)]
mod generate;
#[allow(dead_code)]
mod reader;

use reader::{Token, TokenKind, TokenKind::*};

#[derive(Clone, Copy)]
enum Name {
    Type,
    Allocation,
    Pattern,
    Expression,
    Statement,
    Call,
    Unary,
    Cast,
    Multiplicative,
    Additive,
    Comparison,
    Bitwise,
}

enum Rule {
    Just(TokenKind),
    /// A literal: an unknown suffix is noted with `emitter.emit`.
    Literal,
    /// `then`, `ignore_then`, `then_ignore`, `delimited_by`
    Then(Vec<Rule>),
    /// `or`, `choice`
    Or(Vec<Rule>),
    Repeated(Box<Rule>),
    OrNot(Box<Rule>),
    SeparatedBy { item: Box<Rule>, separator: TokenKind, at_least: usize, allow_trailing: bool },
    /// `rewind`: the token has to stand here; a look takes nothing
    Rewind(TokenKind),
    /// `try_map_with`: what was read is turned down by its tokens
    TryMap(Box<Rule>, fn(&[Token]) -> bool),
    /// A type, an allocation type, a pattern, an expression or a statement, one nest deeper.
    Nested(Name),
    /// A level.
    Of(Name),
}

use Rule::*;

fn repeated(rule: Rule) -> Rule {
    Repeated(Box::new(rule))
}

fn or_not(rule: Rule) -> Rule {
    OrNot(Box::new(rule))
}

fn separated_by(item: Rule, separator: TokenKind, at_least: usize, allow_trailing: bool) -> Rule {
    SeparatedBy { item: Box::new(item), separator, at_least, allow_trailing }
}

fn delimited_by(rule: Rule, open: TokenKind, close: TokenKind) -> Rule {
    Then(vec![Just(open), rule, Just(close)])
}

fn foldl(lower: Name, operators: &[TokenKind]) -> Rule {
    let operator = Or(operators.iter().map(|&kind| Just(kind)).collect());
    Then(vec![Of(lower), repeated(Then(vec![operator, Of(lower)]))])
}

fn expr() -> Rule {
    Nested(Name::Expression)
}

fn type_expr() -> Rule {
    Nested(Name::Type)
}

fn statement() -> Rule {
    Nested(Name::Statement)
}

fn tuple_type(inner: Name) -> Rule {
    Then(vec![Just(LParen), separated_by(Nested(inner), Comma, 0, false), or_not(Just(Comma)), Just(RParen)])
}

fn call() -> Rule {
    let struct_literal_fields = delimited_by(
        separated_by(Then(vec![Just(Identifier), Just(Colon), expr()]), Comma, 0, true),
        LBrace,
        RBrace,
    );
    let new_expr = Then(vec![Just(New), Nested(Name::Allocation), delimited_by(expr(), LBrack, RBrack)]);
    let tuple_tail = Then(vec![
        Rewind(Comma),
        repeated(Then(vec![Just(Comma), expr()])),
        or_not(Just(Comma)),
        Just(RParen),
    ]);
    let paren_tail = Then(vec![Rewind(RParen), Just(RParen)]);
    let paren_or_tuple =
        Then(vec![Just(LParen), Or(vec![Just(RParen), Then(vec![expr(), Or(vec![tuple_tail, paren_tail])])])]);
    let array_repeat = TryMap(
        Box::new(Then(vec![Just(LBrack), expr(), Just(Semicolon), Just(LiteralNumber), Just(RBrack)])),
        |tokens| tokens[tokens.len() - 2].suffix == 0,
    );
    let array_literal = delimited_by(separated_by(expr(), Comma, 0, true), LBrack, RBrack);
    let atom = Or(vec![
        Literal,
        Or(vec![Just(True), Just(False)]),
        new_expr,
        Then(vec![Just(Identifier), struct_literal_fields]),
        array_repeat,
        array_literal,
        Just(Identifier),
        paren_or_tuple,
    ]);
    let postfix_op = Or(vec![
        delimited_by(separated_by(expr(), Comma, 0, true), LParen, RParen),
        TryMap(Box::new(Then(vec![Just(Dot), Just(LiteralNumber)])), |tokens| tokens[1].suffix == 0),
        Then(vec![Just(Dot), Just(Identifier)]),
        delimited_by(expr(), LBrack, RBrack),
    ]);
    Then(vec![atom, repeated(postfix_op)])
}

fn rule_of(name: Name) -> Rule {
    match name {
        Name::Type => {
            let size = TryMap(Box::new(expr()), |tokens| {
                tokens.len() == 1 && tokens[0].kind == LiteralNumber && tokens[0].suffix == 0
            });
            let array_type = Then(vec![Just(LBrack), type_expr(), Just(Semicolon), size, Just(RBrack)]);
            Then(vec![Or(vec![Just(Identifier), array_type, tuple_type(Name::Type)]), repeated(Just(Mul))])
        }
        Name::Allocation => Then(vec![Or(vec![Just(Identifier), tuple_type(Name::Allocation)]), repeated(Just(Mul))]),
        Name::Pattern => Or(vec![
            delimited_by(separated_by(Nested(Name::Pattern), Comma, 2, false), LParen, RParen),
            Just(Identifier),
        ]),
        Name::Call => call(),
        Name::Unary => Then(vec![repeated(Or(vec![Just(Not), Just(Minus)])), Of(Name::Call)]),
        Name::Cast => Then(vec![Of(Name::Unary), repeated(Then(vec![Just(As), Just(Identifier)]))]),
        Name::Multiplicative => foldl(Name::Cast, &[Mul, Div, Mod]),
        Name::Additive => foldl(Name::Multiplicative, &[Plus, Minus]),
        Name::Comparison => foldl(Name::Additive, &[EqEq, Neq, Less, Greater, LessEqual, GreaterEqual]),
        Name::Bitwise => foldl(Name::Comparison, &[BitwiseAnd, BitwiseOr, BitwiseXor]),
        Name::Expression => foldl(Name::Bitwise, &[AndAnd, OrOr]),
        Name::Statement => {
            let typed = || or_not(Then(vec![Just(Colon), type_expr()]));
            let condition = || Or(vec![delimited_by(expr(), LParen, RParen), expr()]);
            let assignment_or_expr = || Then(vec![expr(), or_not(Then(vec![Just(Eq), expr()]))]);
            let let_stmt =
                || Then(vec![Just(Let), Nested(Name::Pattern), typed(), Just(Eq), expr(), Just(Semicolon)]);
            let for_parts = Then(vec![
                Or(vec![let_stmt(), Then(vec![assignment_or_expr(), Just(Semicolon)])]),
                Then(vec![expr(), Just(Semicolon)]),
                assignment_or_expr(),
            ]);
            Or(vec![
                delimited_by(repeated(statement()), LBrace, RBrace),
                Then(vec![Just(If), condition(), statement(), or_not(Then(vec![Just(Else), statement()]))]),
                Then(vec![Just(Loop), statement()]),
                Then(vec![Just(While), condition(), statement()]),
                Then(vec![Just(For), delimited_by(for_parts, LParen, RParen), statement()]),
                Then(vec![Just(Break), Just(Semicolon)]),
                Then(vec![Just(Continue), Just(Semicolon)]),
                let_stmt(),
                Then(vec![Just(Const), Just(Identifier), typed(), Just(Eq), expr(), Just(Semicolon)]),
                Then(vec![Just(Return), or_not(expr()), Just(Semicolon)]),
                Then(vec![assignment_or_expr(), Just(Semicolon)]),
            ])
        }
    }
}

fn top_level_item() -> Rule {
    let field = || Then(vec![Just(Identifier), Just(Colon), type_expr()]);
    let func_def = Then(vec![
        Just(Function),
        Just(Identifier),
        delimited_by(separated_by(field(), Comma, 0, true), LParen, RParen),
        or_not(Then(vec![Just(Arrow), type_expr()])),
        delimited_by(repeated(statement()), LBrace, RBrace),
    ]);
    let struct_def = Then(vec![
        Just(Struct),
        Just(Identifier),
        delimited_by(separated_by(field(), Comma, 0, true), LBrace, RBrace),
    ]);
    let const_def = Then(vec![
        Just(Const),
        Just(Identifier),
        or_not(Then(vec![Just(Colon), type_expr()])),
        Just(Eq),
        expr(),
        Just(Semicolon),
    ]);
    let module_path = || separated_by(Just(Identifier), ColonColon, 1, false);
    let single = Then(vec![module_path(), Just(Semicolon)]);
    let list = Then(vec![
        module_path(),
        Just(ColonColon),
        delimited_by(separated_by(Just(Identifier), Comma, 0, true), LBrace, RBrace),
        Just(Semicolon),
    ]);
    let use_stmt = Then(vec![Just(Use), Or(vec![single, list])]);
    Or(vec![func_def, struct_def, const_def, use_stmt])
}

const NAMES: [Name; 12] = [
    Name::Type,
    Name::Allocation,
    Name::Pattern,
    Name::Expression,
    Name::Statement,
    Name::Call,
    Name::Unary,
    Name::Cast,
    Name::Multiplicative,
    Name::Additive,
    Name::Comparison,
    Name::Bitwise,
];

enum Stop {
    Fail,
    Nest,
    /// Dropped attempts are read again and again: some texts take too long.
    Tired,
}

struct Literally<'a> {
    rules: &'a [Rule],
    tokens: &'a [Token],
    at: usize,
    /// The first token that no attempt has taken.
    untaken: usize,
    nest: u32,
    /// Literals with an unknown suffix.
    emitted: Vec<usize>,
    steps: u32,
}

impl Literally<'_> {
    fn take(&mut self, kind: TokenKind) -> Result<(), Stop> {
        self.steps += 1;
        if self.steps > 2_000_000 {
            return Err(Stop::Tired);
        }
        match self.tokens.get(self.at) {
            Some(token) if token.kind == kind => {
                if self.nest > 64 {
                    return Err(Stop::Nest);
                }
                self.at += 1;
                self.untaken = self.untaken.max(self.at);
                Ok(())
            }
            _ => Err(Stop::Fail),
        }
    }

    /// Whether the rule fits here; if not, everything is as it was.
    fn fits(&mut self, rule: &Rule) -> Result<bool, Stop> {
        let (at, emitted) = (self.at, self.emitted.len());
        match self.read(rule) {
            Ok(()) => Ok(true),
            Err(Stop::Fail) => {
                self.at = at;
                self.emitted.truncate(emitted);
                Ok(false)
            }
            Err(stop) => Err(stop),
        }
    }

    fn read(&mut self, rule: &Rule) -> Result<(), Stop> {
        let rules = self.rules;
        match rule {
            Just(kind) => self.take(*kind),
            Literal => {
                self.take(LiteralNumber)?;
                if self.tokens[self.at - 1].suffix == 3 {
                    self.emitted.push(self.at - 1);
                }
                Ok(())
            }
            Then(parts) => parts.iter().try_for_each(|part| self.read(part)),
            Or(choices) => {
                for choice in choices {
                    if self.fits(choice)? {
                        return Ok(());
                    }
                }
                Err(Stop::Fail)
            }
            Repeated(round) => {
                while self.fits(round)? {}
                Ok(())
            }
            OrNot(part) => self.fits(part).map(|_| ()),
            SeparatedBy { item, separator, at_least, allow_trailing } => {
                let mut count = 0;
                loop {
                    let (at, emitted) = (self.at, self.emitted.len());
                    if count > 0 && !self.fits(&Just(*separator))? {
                        break;
                    }
                    if !self.fits(item)? {
                        if !(*allow_trailing && count > 0) {
                            self.at = at;
                            self.emitted.truncate(emitted);
                        }
                        break;
                    }
                    count += 1;
                }
                if count < *at_least {
                    return Err(Stop::Fail);
                }
                Ok(())
            }
            Rewind(kind) => match self.tokens.get(self.at) {
                Some(token) if token.kind == *kind => Ok(()),
                _ => Err(Stop::Fail),
            },
            TryMap(rule, keeps) => {
                let first = self.at;
                self.read(rule)?;
                if keeps(&self.tokens[first..self.at]) {
                    Ok(())
                } else {
                    Err(Stop::Fail)
                }
            }
            Nested(name) => {
                self.nest += 1;
                let read = self.read(&rules[*name as usize]);
                self.nest -= 1;
                read
            }
            Of(name) => self.read(&rules[*name as usize]),
        }
    }
}

/// Outcome 0, 5, 7 or 8 with the places among the tokens of unknown suffixes, or of where reading stopped; none where it takes too
/// long.
fn outcome(item: &Rule, rules: &[Rule], tokens: &[Token]) -> Option<(u32, Vec<usize>)> {
    let mut literally = Literally { rules, tokens, at: 0, untaken: 0, nest: 0, emitted: Vec::new(), steps: 0 };
    loop {
        match literally.fits(item) {
            Ok(true) => {}
            Ok(false) => break,
            Err(Stop::Nest) => return Some((5, Vec::new())),
            Err(_) => return None,
        }
    }
    Some(if literally.at < tokens.len() {
        (7, vec![literally.untaken])
    } else if !literally.emitted.is_empty() {
        (8, literally.emitted)
    } else {
        (0, Vec::new())
    })
}

/// `literal SEED TEXTS`: so many texts of the run with this seed, as far as they are lexed without error.
fn main() {
    let mut arguments = std::env::args().skip(1).map(|argument| argument.parse::<u64>().expect("a number"));
    let (seed, texts) = (arguments.next().unwrap_or(1), arguments.next().unwrap_or(100_000));
    let item = top_level_item();
    let rules: Vec<Rule> = NAMES.map(rule_of).into();
    let mut seen = [0; 9];
    let mut too_long = 0;
    for number in 0..texts {
        let text = generate::text(seed, number);
        let lexed = reader::lex(&text, usize::MAX);
        if lexed.outcome != reader::ACCEPTED {
            continue;
        }
        let Some((outcome, places)) = outcome(&item, &rules, &lexed.tokens) else {
            too_long += 1;
            continue;
        };
        let answer = reader::read(&text, usize::MAX, usize::MAX);
        let end = reader::Span { start: text.len() as u16, end: text.len() as u16 };
        let spans: Vec<_> = places.iter().map(|&place| lexed.tokens.get(place).map_or(end, |token| token.span)).collect();
        let expected: Vec<_> = answer.diagnostics.iter().map(|diagnostic| diagnostic.span).collect();
        if outcome != answer.outcome || spans != expected {
            println!("text {number} of seed {seed}: parser.rs word for word {outcome} {spans:?}, reader {answer:?}");
            println!("{}", String::from_utf8_lossy(&text));
            std::process::exit(1);
        }
        seen[outcome as usize] += 1;
    }
    println!("seed {seed}: on {texts} texts the reader by hand is parser.rs word for word");
    println!("by outcome 0: {}, 5: {}, 7: {}, 8: {}; {too_long} took too long", seen[0], seen[5], seen[7], seen[8]);
}
