//! An unproved parser of the language of `docs/PROFILE.md` in plain Rust, to measure the proved one
//! by: see `../README.md`.
//!
//! It reads a text in the same five passes and hands on the same tree. Names and strings are slices
//! of the text until the names are resolved; what is handed on owns its texts.

use std::collections::{HashMap, HashSet};
use std::fmt::Write as _;
use std::io::{Read as _, Write as _};
use std::process::ExitCode;
use std::rc::Rc;
use std::time::Instant;

// ------------------------------------------------------------------------------------------ Faults

#[derive(Clone, Copy, PartialEq, Eq, Debug)]
enum FaultKind {
    Character,
    Token,
    Indent,
    Statement,
    Scope,
}

impl FaultKind {
    fn name(self) -> &'static str {
        match self {
            FaultKind::Character => "character",
            FaultKind::Token => "token",
            FaultKind::Indent => "indent",
            FaultKind::Statement => "statement",
            FaultKind::Scope => "scope",
        }
    }
}

/// The first fault of a text, with its line.
#[derive(Clone, Copy, PartialEq, Eq, Debug)]
struct Fault {
    line: u32,
    kind: FaultKind,
}

fn fault<T>(kind: FaultKind, line: u32) -> Result<T, Fault> {
    Err(Fault { line, kind })
}

#[derive(Clone, Copy, PartialEq, Eq, Debug)]
enum FileKind {
    Module,
    Build,
}

// ------------------------------------------------------------------------------------------ Tokens

#[derive(Clone, Copy, PartialEq, Eq, Debug)]
enum Kind<'t> {
    Name(&'t str),
    Number(u64),
    /// The body of a string, as it is written.
    Str(&'t str),
    And,
    Break,
    Continue,
    Def,
    Elif,
    Else,
    For,
    If,
    In,
    Load,
    Not,
    Or,
    Pass,
    Return,
    Reserved,
    OpenParen,
    CloseParen,
    OpenBracket,
    CloseBracket,
    OpenBrace,
    CloseBrace,
    Comma,
    Colon,
    Dot,
    Assign,
    AddAssign,
    Equal,
    NotEqual,
    Less,
    Greater,
    LessEqual,
    GreaterEqual,
    Plus,
    Minus,
    Star,
    FloorDivide,
    Percent,
}

#[derive(Clone, Copy, Debug)]
struct Token<'t> {
    kind: Kind<'t>,
    line: u32,
    column: u32,
}

/// The first pass: each byte is a character.
fn check_characters(text: &str) -> Result<(), Fault> {
    let bytes = text.as_bytes();
    match bytes.iter().position(|b| !matches!(b, b' '..=b'~' | b'\n')) {
        None => Ok(()),
        Some(at) => {
            let before = bytes[..at].iter().filter(|&&b| b == b'\n').count();
            fault(FaultKind::Character, before as u32 + 1)
        }
    }
}

fn word(spelling: &str) -> Kind<'_> {
    match spelling {
        "and" => Kind::And,
        "break" => Kind::Break,
        "continue" => Kind::Continue,
        "def" => Kind::Def,
        "elif" => Kind::Elif,
        "else" => Kind::Else,
        "for" => Kind::For,
        "if" => Kind::If,
        "in" => Kind::In,
        "load" => Kind::Load,
        "not" => Kind::Not,
        "or" => Kind::Or,
        "pass" => Kind::Pass,
        "return" => Kind::Return,
        "as" | "assert" | "async" | "await" | "class" | "del" | "except" | "finally" | "from"
        | "global" | "import" | "is" | "lambda" | "nonlocal" | "raise" | "try" | "while"
        | "with" | "yield" => Kind::Reserved,
        name => Kind::Name(name),
    }
}

fn is_word_byte(b: u8) -> bool {
    b.is_ascii_alphanumeric() || b == b'_'
}

struct Lexer<'t> {
    text: &'t str,
    at: usize,
}

impl<'t> Lexer<'t> {
    fn peek(&self) -> Option<u8> {
        self.text.as_bytes().get(self.at).copied()
    }

    fn skip_while(&mut self, goes_on: impl Fn(u8) -> bool) {
        while self.peek().is_some_and(&goes_on) {
            self.at += 1;
        }
    }

    fn name(&mut self) -> Kind<'t> {
        let start = self.at;
        self.skip_while(is_word_byte);
        word(&self.text[start..self.at])
    }

    fn number(&mut self) -> Option<Kind<'t>> {
        let start = self.at;
        self.at += 1;
        if self.text.as_bytes()[start] != b'0' {
            self.skip_while(|b| b.is_ascii_digit());
        }
        if self.peek().is_some_and(is_word_byte) {
            return None;
        }
        let value: u64 = self.text[start..self.at].parse().ok()?;
        (value <= i64::MAX as u64).then_some(Kind::Number(value))
    }

    fn string(&mut self, quote: u8) -> Option<Kind<'t>> {
        self.at += 1;
        let start = self.at;
        loop {
            let b = self.peek()?;
            self.at += 1;
            if b == quote {
                return Some(Kind::Str(&self.text[start..self.at - 1]));
            }
            match b {
                b'\n' => return None,
                b'\\' => {
                    if !matches!(self.peek()?, b'n' | b't' | b'\\' | b'"' | b'\'') {
                        return None;
                    }
                    self.at += 1;
                }
                _ => {}
            }
        }
    }

    fn mark(&mut self, first: u8) -> Option<Kind<'t>> {
        self.at += 1;
        let pair = match (first, self.peek()) {
            (b'+', Some(b'=')) => Some(Kind::AddAssign),
            (b'=', Some(b'=')) => Some(Kind::Equal),
            (b'!', Some(b'=')) => Some(Kind::NotEqual),
            (b'<', Some(b'=')) => Some(Kind::LessEqual),
            (b'>', Some(b'=')) => Some(Kind::GreaterEqual),
            (b'/', Some(b'/')) => Some(Kind::FloorDivide),
            _ => None,
        };
        if pair.is_some() {
            self.at += 1;
            return pair;
        }
        Some(match first {
            b'(' => Kind::OpenParen,
            b')' => Kind::CloseParen,
            b'[' => Kind::OpenBracket,
            b']' => Kind::CloseBracket,
            b'{' => Kind::OpenBrace,
            b'}' => Kind::CloseBrace,
            b',' => Kind::Comma,
            b':' => Kind::Colon,
            b'.' => Kind::Dot,
            b'=' => Kind::Assign,
            b'<' => Kind::Less,
            b'>' => Kind::Greater,
            b'+' => Kind::Plus,
            b'-' => Kind::Minus,
            b'*' => Kind::Star,
            b'%' => Kind::Percent,
            _ => return None,
        })
    }
}

/// The second pass: the tokens of a text.
fn tokens(text: &str) -> Result<Vec<Token<'_>>, Fault> {
    let mut lexer = Lexer { text, at: 0 };
    let mut tokens = Vec::new();
    let mut line = 1;
    let mut line_start = 0;
    while let Some(first) = lexer.peek() {
        let column = (lexer.at - line_start) as u32;
        let kind = match first {
            b' ' => {
                lexer.at += 1;
                continue;
            }
            b'\n' => {
                lexer.at += 1;
                line += 1;
                line_start = lexer.at;
                continue;
            }
            b'#' => {
                lexer.skip_while(|b| b != b'\n');
                continue;
            }
            b'"' | b'\'' => lexer.string(first),
            b'0'..=b'9' => lexer.number(),
            b'a'..=b'z' | b'A'..=b'Z' | b'_' => Some(lexer.name()),
            _ => lexer.mark(first),
        };
        match kind {
            Some(kind) => tokens.push(Token { kind, line, column }),
            None => return fault(FaultKind::Token, line),
        }
    }
    Ok(tokens)
}

// ----------------------------------------------------------------------------------- Logical lines

/// A logical line, with the line and the column of its first token.
struct Line<'l, 't> {
    number: u32,
    column: u32,
    tokens: &'l [Token<'t>],
}

const MOST_BRACKETS: usize = 100;
const MOST_BLOCKS: usize = 32;

/// The brackets and blocks that are open.
#[derive(Default)]
struct Layout<'t> {
    brackets: Vec<(Kind<'t>, u32)>,
    columns: Vec<u32>,
}

impl<'t> Layout<'t> {
    /// Opens or closes the bracket that a token is, if it is one.
    fn bracket(&mut self, token: &Token<'t>) -> Result<(), Fault> {
        let closing = match token.kind {
            Kind::OpenParen => Some(Kind::CloseParen),
            Kind::OpenBracket => Some(Kind::CloseBracket),
            Kind::OpenBrace => Some(Kind::CloseBrace),
            _ => None,
        };
        if let Some(closing) = closing {
            if self.brackets.len() == MOST_BRACKETS {
                return fault(FaultKind::Indent, token.line);
            }
            self.brackets.push((closing, token.line));
        } else if matches!(
            token.kind,
            Kind::CloseParen | Kind::CloseBracket | Kind::CloseBrace
        ) {
            match self.brackets.pop() {
                Some((kind, _)) if kind == token.kind => {}
                _ => return fault(FaultKind::Indent, token.line),
            }
        }
        Ok(())
    }

    /// Opens a block, or goes back to one, where a logical line begins. A head is the line before,
    /// where that ends with `:`.
    fn begin_line(&mut self, token: &Token<'t>, head: Option<u32>) -> Result<(), Fault> {
        if let Some(head) = head {
            if token.column <= self.columns.last().copied().unwrap_or(0) {
                return fault(FaultKind::Indent, head);
            }
            if self.columns.len() == MOST_BLOCKS {
                return fault(FaultKind::Indent, token.line);
            }
            self.columns.push(token.column);
            return Ok(());
        }
        while self
            .columns
            .last()
            .is_some_and(|&column| column > token.column)
        {
            self.columns.pop();
        }
        if self.columns.last().copied().unwrap_or(0) != token.column {
            return fault(FaultKind::Indent, token.line);
        }
        Ok(())
    }
}

/// The third pass: the logical lines, by brackets and columns.
fn logical_lines<'l, 't>(tokens: &'l [Token<'t>]) -> Result<Vec<Line<'l, 't>>, Fault> {
    let mut layout = Layout::default();
    let mut lines: Vec<Line> = Vec::new();
    let mut start = 0;
    for (at, token) in tokens.iter().enumerate() {
        if layout.brackets.is_empty() && (at == 0 || tokens[at - 1].line != token.line) {
            let head = at > 0 && tokens[at - 1].kind == Kind::Colon;
            layout.begin_line(token, head.then(|| tokens[start].line))?;
            if at > 0 {
                lines.push(line(&tokens[start..at]));
            }
            start = at;
        }
        layout.bracket(token)?;
    }
    if let Some(&(_, line)) = layout.brackets.last() {
        return fault(FaultKind::Indent, line);
    }
    if let Some(last) = tokens.last() {
        if last.kind == Kind::Colon {
            return fault(FaultKind::Indent, tokens[start].line);
        }
        lines.push(line(&tokens[start..]));
    }
    Ok(lines)
}

fn line<'l, 't>(tokens: &'l [Token<'t>]) -> Line<'l, 't> {
    Line {
        number: tokens[0].line,
        column: tokens[0].column,
        tokens,
    }
}

// ------------------------------------------------------------------------------------- Expressions

const MAX_DEPTH: usize = 200;

#[derive(Clone, Copy, PartialEq, Eq, Debug)]
enum Operator {
    Or,
    And,
    Equal,
    NotEqual,
    Less,
    Greater,
    LessEqual,
    GreaterEqual,
    In,
    NotIn,
    Add,
    Subtract,
    Multiply,
    FloorDivide,
    Remainder,
}

const LOOSEST: u8 = 2;
const NEGATION: u8 = 4;
const COMPARISON: u8 = 5;
const TIGHTEST: u8 = 8;

impl Operator {
    fn level(self) -> u8 {
        match self {
            Operator::Or => LOOSEST,
            Operator::And => 3,
            Operator::Equal
            | Operator::NotEqual
            | Operator::Less
            | Operator::Greater
            | Operator::LessEqual
            | Operator::GreaterEqual
            | Operator::In
            | Operator::NotIn => COMPARISON,
            Operator::Add | Operator::Subtract => 6,
            Operator::Multiply | Operator::FloorDivide | Operator::Remainder => 7,
        }
    }
}

#[derive(Clone, Copy, PartialEq, Eq, Debug)]
enum Sign {
    Not,
    Minus,
}

/// An expression as it is written.
enum Expr<'t> {
    Name(&'t str),
    Number(u64),
    Str(&'t str),
    Tuple(Vec<Expr<'t>>),
    ListOf(Vec<Expr<'t>>),
    DictOf(Vec<(Expr<'t>, Expr<'t>)>),
    /// `THEN if TEST else OTHER`.
    Choice(Box<Expr<'t>>, Box<Expr<'t>>, Box<Expr<'t>>),
    Binary(Operator, Box<Expr<'t>>, Box<Expr<'t>>),
    Unary(Sign, Box<Expr<'t>>),
    Attribute(Box<Expr<'t>>, &'t str),
    Index(Box<Expr<'t>>, Box<Expr<'t>>),
    Call(Box<Call<'t>>),
    ListEach(Box<Expr<'t>>, Vec<Clause<'t>>),
    DictEach(Box<(Expr<'t>, Expr<'t>)>, Vec<Clause<'t>>),
}

struct Call<'t> {
    callee: Expr<'t>,
    items: Vec<Expr<'t>>,
    named: Vec<(&'t str, Expr<'t>)>,
}

enum Clause<'t> {
    For(Vec<&'t str>, Expr<'t>),
    If(Expr<'t>),
}

/// An expression with its depth.
struct Part<'t> {
    expr: Expr<'t>,
    depth: usize,
}

/// The line has no form, or an expression that is too deep.
struct NoForm;

type Reads<T> = Result<T, NoForm>;

/// An expression of this depth, where there is room for it.
fn part(expr: Expr<'_>, depth: usize, room: usize) -> Reads<Part<'_>> {
    if depth > room {
        return Err(NoForm);
    }
    Ok(Part { expr, depth })
}

/// What is left of a logical line.
struct Ahead<'l, 't> {
    tokens: &'l [Token<'t>],
    at: usize,
}

impl<'l, 't> Ahead<'l, 't> {
    fn peek(&self) -> Option<Kind<'t>> {
        self.tokens.get(self.at).map(|token| token.kind)
    }

    fn second(&self) -> Option<Kind<'t>> {
        self.tokens.get(self.at + 1).map(|token| token.kind)
    }

    fn is_done(&self) -> bool {
        self.at == self.tokens.len()
    }

    fn eat(&mut self, kind: Kind<'t>) -> bool {
        let found = self.peek() == Some(kind);
        if found {
            self.at += 1;
        }
        found
    }

    fn expect(&mut self, kind: Kind<'t>) -> Reads<()> {
        if self.eat(kind) {
            Ok(())
        } else {
            Err(NoForm)
        }
    }

    fn expect_done(&self) -> Reads<()> {
        if self.is_done() {
            Ok(())
        } else {
            Err(NoForm)
        }
    }

    fn name(&mut self) -> Reads<&'t str> {
        let Some(Kind::Name(name)) = self.peek() else {
            return Err(NoForm);
        };
        self.at += 1;
        Ok(name)
    }

    fn string(&mut self) -> Reads<&'t str> {
        let Some(Kind::Str(body)) = self.peek() else {
            return Err(NoForm);
        };
        self.at += 1;
        Ok(body)
    }

    /// Names with commas between them.
    fn names(&mut self) -> Reads<Vec<&'t str>> {
        let mut names = vec![self.name()?];
        while self.eat(Kind::Comma) {
            names.push(self.name()?);
        }
        Ok(names)
    }

    /// An operator of a level between these, which isn't passed by; and how many tokens it has.
    fn operator(&self) -> Option<(Operator, usize)> {
        let operator = match self.peek()? {
            Kind::Or => Operator::Or,
            Kind::And => Operator::And,
            Kind::Equal => Operator::Equal,
            Kind::NotEqual => Operator::NotEqual,
            Kind::Less => Operator::Less,
            Kind::Greater => Operator::Greater,
            Kind::LessEqual => Operator::LessEqual,
            Kind::GreaterEqual => Operator::GreaterEqual,
            Kind::In => Operator::In,
            Kind::Not if self.second() == Some(Kind::In) => return Some((Operator::NotIn, 2)),
            Kind::Plus => Operator::Add,
            Kind::Minus => Operator::Subtract,
            Kind::Star => Operator::Multiply,
            Kind::FloorDivide => Operator::FloorDivide,
            Kind::Percent => Operator::Remainder,
            _ => return None,
        };
        Some((operator, 1))
    }

    /// Any expression, no deeper than there is room.
    fn expression(&mut self, room: usize) -> Reads<Part<'t>> {
        let then = self.binary(LOOSEST, room)?;
        if !self.eat(Kind::If) {
            return Ok(then);
        }
        let below = room.saturating_sub(1);
        let test = self.binary(LOOSEST, below)?;
        self.expect(Kind::Else)?;
        let other = self.expression(below)?;
        let depth = then.depth.max(test.depth).max(other.depth) + 1;
        let expr = Expr::Choice(
            Box::new(then.expr),
            Box::new(test.expr),
            Box::new(other.expr),
        );
        part(expr, depth, room)
    }

    /// An expression whose operators are of this level or tighter.
    fn binary(&mut self, level: u8, room: usize) -> Reads<Part<'t>> {
        let mut tightest = TIGHTEST;
        let mut left = if level <= NEGATION && self.eat(Kind::Not) {
            tightest = NEGATION - 1;
            let operand = self.binary(NEGATION, room.saturating_sub(1))?;
            part(
                Expr::Unary(Sign::Not, Box::new(operand.expr)),
                operand.depth + 1,
                room,
            )?
        } else {
            self.unary(room)?
        };
        while let Some((operator, length)) = self.operator() {
            let own = operator.level();
            if own < level || own > tightest {
                break;
            }
            self.at += length;
            let right = self.binary(own + 1, room.saturating_sub(1))?;
            let depth = left.depth.max(right.depth) + 1;
            left = part(
                Expr::Binary(operator, Box::new(left.expr), Box::new(right.expr)),
                depth,
                room,
            )?;
            // Comparisons aren't chained.
            tightest = if own == COMPARISON { own - 1 } else { own };
        }
        Ok(left)
    }

    fn unary(&mut self, room: usize) -> Reads<Part<'t>> {
        if room == 0 {
            return Err(NoForm);
        }
        if !self.eat(Kind::Minus) {
            return self.suffixed(room);
        }
        let operand = self.unary(room - 1)?;
        part(
            Expr::Unary(Sign::Minus, Box::new(operand.expr)),
            operand.depth + 1,
            room,
        )
    }

    /// An atom with its fields, indexes and calls.
    fn suffixed(&mut self, room: usize) -> Reads<Part<'t>> {
        let mut whole = self.atom(room)?;
        loop {
            if self.eat(Kind::Dot) {
                let name = self.name()?;
                whole = part(
                    Expr::Attribute(Box::new(whole.expr), name),
                    whole.depth + 1,
                    room,
                )?;
            } else if self.eat(Kind::OpenBracket) {
                let at = self.expression(room - 1)?;
                self.expect(Kind::CloseBracket)?;
                let depth = whole.depth.max(at.depth) + 1;
                whole = part(
                    Expr::Index(Box::new(whole.expr), Box::new(at.expr)),
                    depth,
                    room,
                )?;
            } else if self.eat(Kind::OpenParen) {
                whole = self.call(whole, room)?;
            } else {
                return Ok(whole);
            }
        }
    }

    /// The arguments of a call.
    fn call(&mut self, callee: Part<'t>, room: usize) -> Reads<Part<'t>> {
        let mut depth = callee.depth;
        let mut call = Call {
            callee: callee.expr,
            items: Vec::new(),
            named: Vec::new(),
        };
        while !self.eat(Kind::CloseParen) {
            let value = match (self.peek(), self.second()) {
                (Some(Kind::Name(name)), Some(Kind::Assign)) => {
                    self.at += 2;
                    let value = self.expression(room - 1)?;
                    call.named.push((name, value.expr));
                    value.depth
                }
                _ if !call.named.is_empty() => return Err(NoForm),
                _ => {
                    let value = self.expression(room - 1)?;
                    call.items.push(value.expr);
                    value.depth
                }
            };
            depth = depth.max(value);
            if !self.eat(Kind::Comma) {
                self.expect(Kind::CloseParen)?;
                break;
            }
        }
        part(Expr::Call(Box::new(call)), depth + 1, room)
    }

    fn atom(&mut self, room: usize) -> Reads<Part<'t>> {
        let kind = self.peek().ok_or(NoForm)?;
        self.at += 1;
        let expr = match kind {
            Kind::Name(name) => Expr::Name(name),
            Kind::Number(value) => Expr::Number(value),
            Kind::Str(body) => Expr::Str(body),
            Kind::OpenParen => return self.round(room),
            Kind::OpenBracket => return self.square(room),
            Kind::OpenBrace => return self.curly(room),
            _ => return Err(NoForm),
        };
        Ok(Part { expr, depth: 1 })
    }

    /// The items behind the first one, up to the closing bracket; and the depth of the deepest.
    fn items(
        &mut self,
        first: Part<'t>,
        closing: Kind<'t>,
        room: usize,
    ) -> Reads<(Vec<Expr<'t>>, usize)> {
        let mut depth = first.depth;
        let mut items = vec![first.expr];
        while !self.eat(closing) {
            self.expect(Kind::Comma)?;
            if self.eat(closing) {
                break;
            }
            let item = self.expression(room)?;
            depth = depth.max(item.depth);
            items.push(item.expr);
        }
        Ok((items, depth))
    }

    /// Behind `(`: a tuple, or an expression in brackets.
    fn round(&mut self, room: usize) -> Reads<Part<'t>> {
        if self.eat(Kind::CloseParen) {
            return Ok(Part {
                expr: Expr::Tuple(Vec::new()),
                depth: 1,
            });
        }
        let first = self.expression(room)?;
        if self.eat(Kind::CloseParen) {
            return Ok(first);
        }
        let (items, depth) = self.items(first, Kind::CloseParen, room - 1)?;
        part(Expr::Tuple(items), depth + 1, room)
    }

    /// Behind `[`: a list, or a comprehension.
    fn square(&mut self, room: usize) -> Reads<Part<'t>> {
        if self.eat(Kind::CloseBracket) {
            return Ok(Part {
                expr: Expr::ListOf(Vec::new()),
                depth: 1,
            });
        }
        let first = self.expression(room - 1)?;
        if self.peek() == Some(Kind::For) {
            let (clauses, depth) = self.clauses(room - 1)?;
            self.expect(Kind::CloseBracket)?;
            let expr = Expr::ListEach(Box::new(first.expr), clauses);
            return part(expr, first.depth.max(depth) + 1, room);
        }
        let (items, depth) = self.items(first, Kind::CloseBracket, room - 1)?;
        part(Expr::ListOf(items), depth + 1, room)
    }

    /// An entry of a dict, with the depth of the deeper part.
    fn entry(&mut self, room: usize) -> Reads<((Expr<'t>, Expr<'t>), usize)> {
        let key = self.expression(room)?;
        self.expect(Kind::Colon)?;
        let value = self.expression(room)?;
        Ok(((key.expr, value.expr), key.depth.max(value.depth)))
    }

    /// Behind `{`: a dict, or a comprehension.
    fn curly(&mut self, room: usize) -> Reads<Part<'t>> {
        let mut entries = Vec::new();
        let mut depth = 0;
        while !self.eat(Kind::CloseBrace) {
            let (entry, deep) = self.entry(room - 1)?;
            depth = depth.max(deep);
            if entries.is_empty() && self.peek() == Some(Kind::For) {
                let (clauses, deep) = self.clauses(room - 1)?;
                self.expect(Kind::CloseBrace)?;
                return part(
                    Expr::DictEach(Box::new(entry), clauses),
                    depth.max(deep) + 1,
                    room,
                );
            }
            entries.push(entry);
            if !self.eat(Kind::Comma) {
                self.expect(Kind::CloseBrace)?;
                break;
            }
        }
        part(Expr::DictOf(entries), depth + 1, room)
    }

    /// The clauses of a comprehension, and the depth of the deepest.
    fn clauses(&mut self, room: usize) -> Reads<(Vec<Clause<'t>>, usize)> {
        let mut clauses = Vec::new();
        let mut depth = 0;
        loop {
            if self.eat(Kind::For) {
                let names = self.names()?;
                self.expect(Kind::In)?;
                let operand = self.binary(LOOSEST, room)?;
                depth = depth.max(operand.depth);
                clauses.push(Clause::For(names, operand.expr));
            } else if self.eat(Kind::If) {
                let test = self.binary(LOOSEST, room)?;
                depth = depth.max(test.depth);
                clauses.push(Clause::If(test.expr));
            } else {
                return Ok((clauses, depth));
            }
        }
    }
}

// -------------------------------------------------------------------------------------- Statements

/// A statement as it is written, with its first line.
struct Written<'t> {
    line: u32,
    form: Form<'t>,
}

enum Form<'t> {
    Load(&'t str, Vec<Item<'t>>),
    Def(&'t str, Vec<Param<'t>>, Vec<Written<'t>>),
    If(Vec<WrittenBranch<'t>>, Vec<Written<'t>>),
    For(Vec<&'t str>, Expr<'t>, Vec<Written<'t>>),
    Assign(Vec<&'t str>, Expr<'t>),
    AssignAt(Box<Expr<'t>>, Box<Expr<'t>>, Expr<'t>),
    Add(&'t str, Expr<'t>),
    AddAt(Box<Expr<'t>>, Box<Expr<'t>>, Expr<'t>),
    Evaluate(Expr<'t>),
    Pass,
    Break,
    Continue,
    Return(Option<Expr<'t>>),
}

/// What a `load` asks for, and the name that it binds where that is another.
struct Item<'t> {
    name: Option<&'t str>,
    asked: &'t str,
}

struct Param<'t> {
    name: &'t str,
    default: Option<Expr<'t>>,
}

struct WrittenBranch<'t> {
    line: u32,
    test: Expr<'t>,
    block: Vec<Written<'t>>,
}

/// Where a statement stands.
#[derive(Clone, Copy, PartialEq, Eq)]
enum Place {
    Module,
    Build,
    Function,
    Loop,
}

impl Place {
    fn is_top(self) -> bool {
        matches!(self, Place::Module | Place::Build)
    }
}

fn require(holds: bool) -> Reads<()> {
    if holds {
        Ok(())
    } else {
        Err(NoForm)
    }
}

impl<'l, 't> Ahead<'l, 't> {
    /// An expression up to the end of the line.
    fn last(&mut self) -> Reads<Expr<'t>> {
        let value = self.expression(MAX_DEPTH)?;
        self.expect_done()?;
        Ok(value.expr)
    }

    /// An expression up to the end of the line, or several, which are a tuple.
    fn value(&mut self) -> Reads<Expr<'t>> {
        let first = self.expression(MAX_DEPTH)?;
        if self.is_done() {
            return Ok(first.expr);
        }
        require(first.depth < MAX_DEPTH)?;
        let mut items = vec![first.expr];
        while !self.is_done() {
            self.expect(Kind::Comma)?;
            items.push(self.expression(MAX_DEPTH - 1)?.expr);
        }
        Ok(Expr::Tuple(items))
    }

    /// A statement that begins with an expression.
    fn expression_statement(&mut self) -> Reads<Form<'t>> {
        let first = self.expression(MAX_DEPTH)?.expr;
        if self.is_done() {
            return Ok(Form::Evaluate(first));
        }
        // A target isn't in brackets of its own.
        require(self.tokens[self.at - 1].kind != Kind::CloseParen)?;
        match first {
            Expr::Name(name) => {
                if self.eat(Kind::AddAssign) {
                    return Ok(Form::Add(name, self.last()?));
                }
                let mut names = vec![name];
                while self.eat(Kind::Comma) {
                    names.push(self.name()?);
                }
                self.expect(Kind::Assign)?;
                Ok(Form::Assign(names, self.value()?))
            }
            Expr::Index(base, at) => {
                if self.eat(Kind::AddAssign) {
                    return Ok(Form::AddAt(base, at, self.last()?));
                }
                self.expect(Kind::Assign)?;
                Ok(Form::AssignAt(base, at, self.value()?))
            }
            _ => Err(NoForm),
        }
    }

    /// A statement without a head.
    fn simple(&mut self, place: Place) -> Reads<Form<'t>> {
        let form = match self.peek() {
            Some(Kind::Pass) => Form::Pass,
            Some(Kind::Break) => Form::Break,
            Some(Kind::Continue) => Form::Continue,
            Some(Kind::Return) => {
                require(!place.is_top())?;
                self.at += 1;
                let value = if self.is_done() {
                    None
                } else {
                    Some(self.value()?)
                };
                return Ok(Form::Return(value));
            }
            _ => return self.expression_statement(),
        };
        require(matches!(form, Form::Pass) || place == Place::Loop)?;
        self.at += 1;
        self.expect_done()?;
        Ok(form)
    }

    /// A `load`, behind its word.
    fn load(&mut self) -> Reads<Form<'t>> {
        self.expect(Kind::OpenParen)?;
        let module = self.string()?;
        let mut items = Vec::new();
        while !self.eat(Kind::CloseParen) {
            self.expect(Kind::Comma)?;
            if !items.is_empty() && self.eat(Kind::CloseParen) {
                break;
            }
            let mut name = None;
            if let Some(Kind::Name(binds)) = self.peek() {
                self.at += 1;
                self.expect(Kind::Assign)?;
                name = Some(binds);
            }
            items.push(Item {
                name,
                asked: self.string()?,
            });
        }
        require(!items.is_empty())?;
        self.expect_done()?;
        Ok(Form::Load(module, items))
    }

    /// The parameters of a function.
    fn params(&mut self) -> Reads<Vec<Param<'t>>> {
        self.expect(Kind::OpenParen)?;
        let mut params = Vec::new();
        while !self.eat(Kind::CloseParen) {
            let name = self.name()?;
            let mut default = None;
            if self.eat(Kind::Assign) {
                default = Some(self.expression(MAX_DEPTH)?.expr);
            }
            params.push(Param { name, default });
            if !self.eat(Kind::Comma) {
                self.expect(Kind::CloseParen)?;
                break;
            }
        }
        Ok(params)
    }
}

/// Reads the statements of the lines of a file, each in its block.
struct StatementReader<'l, 't> {
    lines: &'l [Line<'l, 't>],
    next: usize,
}

impl<'l, 't> StatementReader<'l, 't> {
    /// The statements of a block. Its lines are those of its column, since the columns were seen
    /// to fit.
    fn block(&mut self, place: Place) -> Result<Vec<Written<'t>>, Fault> {
        let mut statements = Vec::new();
        let mut early = place.is_top();
        let Some(column) = self.lines.get(self.next).map(|line| line.column) else {
            return Ok(statements);
        };
        while let Some(line) = self.lines.get(self.next) {
            if line.column != column {
                break;
            }
            let form = self.statement(line, place, early)?;
            let is_text = line.tokens.len() == 1 && matches!(line.tokens[0].kind, Kind::Str(_));
            early = early && (is_text || matches!(form, Form::Load(..)));
            statements.push(Written {
                line: line.number,
                form,
            });
        }
        Ok(statements)
    }

    /// A statement with the lines that belong to it.
    fn statement(
        &mut self,
        line: &Line<'l, 't>,
        place: Place,
        early: bool,
    ) -> Result<Form<'t>, Fault> {
        self.next += 1;
        let mut ahead = Ahead {
            tokens: line.tokens,
            at: 1,
        };
        match line.tokens[0].kind {
            Kind::Load => at_line(line, require(early).and_then(|()| ahead.load())),
            Kind::Def => {
                let name = at_line(
                    line,
                    require(place == Place::Module).and_then(|()| ahead.name()),
                )?;
                let params = at_line(line, ahead.params())?;
                Ok(Form::Def(
                    name,
                    params,
                    self.body(line, ahead, Place::Function)?,
                ))
            }
            Kind::If => self.condition(line, ahead, place),
            Kind::For => {
                let names = at_line(line, require(!place.is_top()).and_then(|()| ahead.names()))?;
                at_line(line, ahead.expect(Kind::In))?;
                let operand = at_line(line, ahead.expression(MAX_DEPTH))?.expr;
                Ok(Form::For(
                    names,
                    operand,
                    self.body(line, ahead, Place::Loop)?,
                ))
            }
            _ => {
                ahead.at = 0;
                at_line(line, ahead.simple(place))
            }
        }
    }

    /// An `if`, with its `elif`s and its `else`.
    fn condition(
        &mut self,
        first: &Line<'l, 't>,
        ahead: Ahead<'l, 't>,
        place: Place,
    ) -> Result<Form<'t>, Fault> {
        at_line(first, require(!place.is_top()))?;
        let mut branches = vec![self.branch(first, ahead, place)?];
        while let Some(line) = self.lines.get(self.next) {
            if line.column != first.column {
                break;
            }
            let ahead = Ahead {
                tokens: line.tokens,
                at: 1,
            };
            match line.tokens[0].kind {
                Kind::Elif => {
                    self.next += 1;
                    branches.push(self.branch(line, ahead, place)?);
                }
                Kind::Else => {
                    self.next += 1;
                    let other = self.body(line, ahead, place)?;
                    return Ok(Form::If(branches, other));
                }
                _ => break,
            }
        }
        Ok(Form::If(branches, Vec::new()))
    }

    fn branch(
        &mut self,
        line: &Line<'l, 't>,
        mut ahead: Ahead<'l, 't>,
        place: Place,
    ) -> Result<WrittenBranch<'t>, Fault> {
        let test = at_line(line, ahead.expression(MAX_DEPTH))?.expr;
        let block = self.body(line, ahead, place)?;
        Ok(WrittenBranch {
            line: line.number,
            test,
            block,
        })
    }

    /// The `:` of a head, and the statement behind it or the block that follows.
    fn body(
        &mut self,
        line: &Line<'l, 't>,
        mut ahead: Ahead<'l, 't>,
        place: Place,
    ) -> Result<Vec<Written<'t>>, Fault> {
        at_line(line, ahead.expect(Kind::Colon))?;
        if ahead.is_done() {
            return self.block(place);
        }
        let form = at_line(line, ahead.simple(place))?;
        Ok(vec![Written {
            line: line.number,
            form,
        }])
    }
}

fn at_line<T>(line: &Line, read: Reads<T>) -> Result<T, Fault> {
    read.map_err(|NoForm| Fault {
        line: line.number,
        kind: FaultKind::Statement,
    })
}

/// The fourth pass: the statements of a file.
fn statements<'t>(lines: &[Line<'_, 't>], kind: FileKind) -> Result<Vec<Written<'t>>, Fault> {
    let place = match kind {
        FileKind::Module => Place::Module,
        FileKind::Build => Place::Build,
    };
    StatementReader { lines, next: 0 }.block(place)
}

// ------------------------------------------------------------------------------- What is handed on

#[derive(Clone, Copy, PartialEq, Eq, Debug)]
enum Predeclared {
    None,
    True,
    False,
    Len,
    Str,
    Range,
    List,
    Fail,
    Depset,
    Provider,
    Rule,
    Attr,
    DefaultInfo,
}

#[derive(Clone, Copy, PartialEq, Eq, Debug)]
#[allow(dead_code)]
enum Binding {
    Slot(usize),
    Global(usize),
    Builtin(Predeclared),
}

/// The slots of a comprehension's own names: from the first up to the end.
#[derive(Clone, Copy)]
#[allow(dead_code)]
struct OwnSlots {
    first: usize,
    end: usize,
}

/// An expression whose names are resolved.
#[allow(dead_code)]
enum Term {
    Name(Binding),
    Number(u64),
    Str(String),
    Tuple(Vec<Term>),
    ListOf(Vec<Term>),
    DictOf(Vec<(Term, Term)>),
    Choice(Box<Term>, Box<Term>, Box<Term>),
    Binary(Operator, Box<Term>, Box<Term>),
    Unary(Sign, Box<Term>),
    Attribute(Box<Term>, String),
    Index(Box<Term>, Box<Term>),
    Call(Box<Invocation>),
    ListEach(Box<ListEach>),
    DictEach(Box<DictEach>),
}

#[allow(dead_code)]
struct Invocation {
    callee: Term,
    items: Vec<Term>,
    named: Vec<(String, Term)>,
}

#[allow(dead_code)]
struct ListEach {
    own: OwnSlots,
    element: Term,
    rounds: Vec<Round>,
}

#[allow(dead_code)]
struct DictEach {
    own: OwnSlots,
    key: Term,
    value: Term,
    rounds: Vec<Round>,
}

#[allow(dead_code)]
enum Round {
    For(Vec<Binding>, Term),
    If(Term),
}

#[allow(dead_code)]
struct Loaded {
    asked: String,
    binds: usize,
}

#[allow(dead_code)]
struct Step {
    line: u32,
    statement: Statement,
}

#[allow(dead_code)]
enum Statement {
    Load(String, Vec<Loaded>),
    Define(Box<Function>),
    If(Vec<Branch>, Vec<Step>),
    For(Vec<Binding>, Term, Vec<Step>),
    Assign(Vec<Binding>, Term),
    AssignAt(Box<Term>, Box<Term>, Term),
    Add(Binding, Term),
    AddAt(Box<Term>, Box<Term>, Term),
    Evaluate(Term),
    Pass,
    Break,
    Continue,
    Return(Option<Term>),
}

#[allow(dead_code)]
struct Branch {
    line: u32,
    test: Term,
    steps: Vec<Step>,
}

#[allow(dead_code)]
struct Function {
    number: usize,
    binds: usize,
    params: Vec<String>,
    defaults: Vec<Term>,
    slots: usize,
    steps: Vec<Step>,
}

/// The names of a top level, by number and by name.
#[derive(Default)]
struct Globals {
    names: Vec<Rc<str>>,
    numbers: HashMap<Rc<str>, usize>,
}

impl Globals {
    /// Binds a name; whether it wasn't bound before.
    fn bind(&mut self, name: &str) -> bool {
        if self.numbers.contains_key(name) {
            return false;
        }
        let name: Rc<str> = name.into();
        self.numbers.insert(name.clone(), self.names.len());
        self.names.push(name);
        true
    }

    fn number(&self, name: &str) -> Option<usize> {
        self.numbers.get(name).copied()
    }
}

#[allow(dead_code)]
struct Parsed {
    globals: Globals,
    loaded: usize,
    slots: usize,
    steps: Vec<Step>,
}

// ------------------------------------------------------------------------------------------ Scopes

fn predeclared(name: &str) -> Option<Predeclared> {
    Some(match name {
        "None" => Predeclared::None,
        "True" => Predeclared::True,
        "False" => Predeclared::False,
        "len" => Predeclared::Len,
        "str" => Predeclared::Str,
        "range" => Predeclared::Range,
        "list" => Predeclared::List,
        "fail" => Predeclared::Fail,
        "depset" => Predeclared::Depset,
        "provider" => Predeclared::Provider,
        "rule" => Predeclared::Rule,
        "attr" => Predeclared::Attr,
        "DefaultInfo" => Predeclared::DefaultInfo,
        _ => return None,
    })
}

/// What the body of a string stands for.
fn unescape(body: &str) -> String {
    if !body.contains('\\') {
        return body.to_owned();
    }
    let mut text = String::with_capacity(body.len());
    let mut chars = body.chars();
    while let Some(c) = chars.next() {
        text.push(match c {
            '\\' => match chars.next() {
                Some('n') => '\n',
                Some('t') => '\t',
                Some(other) => other,
                None => break,
            },
            _ => c,
        });
    }
    text
}

/// A rule of scopes is broken.
struct Breaks;

type Resolves<T> = Result<T, Breaks>;

fn free(name: &str) -> Resolves<()> {
    if predeclared(name).is_some() {
        Err(Breaks)
    } else {
        Ok(())
    }
}

struct Resolver<'t> {
    globals: Globals,
    /// The slots of the names of the function around; none at the top level.
    locals: HashMap<&'t str, usize>,
    /// The names of the comprehensions around, the innermost last. Their slots follow those of the
    /// function.
    inner: Vec<&'t str>,
    /// How many slots are needed so far.
    most: usize,
    /// How many functions there were.
    functions: usize,
}

impl<'t> Resolver<'t> {
    fn stands_for(&self, name: &str) -> Resolves<Binding> {
        if let Some(place) = self.inner.iter().rposition(|inner| *inner == name) {
            return Ok(Binding::Slot(self.locals.len() + place));
        }
        if let Some(&slot) = self.locals.get(name) {
            return Ok(Binding::Slot(slot));
        }
        if let Some(number) = self.globals.number(name) {
            return Ok(Binding::Global(number));
        }
        predeclared(name).map(Binding::Builtin).ok_or(Breaks)
    }

    /// What names stand for that are bound here.
    fn bindings(&self, names: &[&'t str]) -> Resolves<Vec<Binding>> {
        names
            .iter()
            .map(|name| {
                free(name)?;
                self.stands_for(name)
            })
            .collect()
    }

    fn boxed(&mut self, expr: Expr<'t>) -> Resolves<Box<Term>> {
        Ok(Box::new(self.term(expr)?))
    }

    fn terms(&mut self, exprs: Vec<Expr<'t>>) -> Resolves<Vec<Term>> {
        exprs.into_iter().map(|expr| self.term(expr)).collect()
    }

    fn term(&mut self, expr: Expr<'t>) -> Resolves<Term> {
        Ok(match expr {
            Expr::Name(name) => Term::Name(self.stands_for(name)?),
            Expr::Number(value) => Term::Number(value),
            Expr::Str(body) => Term::Str(unescape(body)),
            Expr::Tuple(items) => Term::Tuple(self.terms(items)?),
            Expr::ListOf(items) => Term::ListOf(self.terms(items)?),
            Expr::DictOf(entries) => {
                let mut pairs = Vec::with_capacity(entries.len());
                for (key, value) in entries {
                    pairs.push((self.term(key)?, self.term(value)?));
                }
                Term::DictOf(pairs)
            }
            Expr::Choice(then, test, other) => {
                Term::Choice(self.boxed(*then)?, self.boxed(*test)?, self.boxed(*other)?)
            }
            Expr::Binary(operator, left, right) => {
                Term::Binary(operator, self.boxed(*left)?, self.boxed(*right)?)
            }
            Expr::Unary(sign, operand) => Term::Unary(sign, self.boxed(*operand)?),
            Expr::Attribute(base, name) => Term::Attribute(self.boxed(*base)?, name.to_owned()),
            Expr::Index(base, at) => Term::Index(self.boxed(*base)?, self.boxed(*at)?),
            Expr::Call(call) => self.call(*call)?,
            Expr::ListEach(element, clauses) => {
                let (own, (element, rounds)) =
                    self.inside(clauses, |resolver| resolver.term(*element))?;
                Term::ListEach(Box::new(ListEach {
                    own,
                    element,
                    rounds,
                }))
            }
            Expr::DictEach(entry, clauses) => {
                let (own, ((key, value), rounds)) = self.inside(clauses, |resolver| {
                    let (key, value) = *entry;
                    Ok((resolver.term(key)?, resolver.term(value)?))
                })?;
                Term::DictEach(Box::new(DictEach {
                    own,
                    key,
                    value,
                    rounds,
                }))
            }
        })
    }

    fn call(&mut self, call: Call<'t>) -> Resolves<Term> {
        let callee = self.term(call.callee)?;
        let items = self.terms(call.items)?;
        let mut seen = HashSet::new();
        let mut named = Vec::with_capacity(call.named.len());
        for (name, value) in call.named {
            if !seen.insert(name) {
                return Err(Breaks);
            }
            named.push((name.to_owned(), self.term(value)?));
        }
        Ok(Term::Call(Box::new(Invocation {
            callee,
            items,
            named,
        })))
    }

    /// A comprehension, by what resolves its element. The operand of its first clause stands outside
    /// of its scope.
    fn inside<T>(
        &mut self,
        clauses: Vec<Clause<'t>>,
        element: impl FnOnce(&mut Self) -> Resolves<T>,
    ) -> Resolves<(OwnSlots, (T, Vec<Round>))> {
        let around = self.inner.len();
        let mut own_names: Vec<&'t str> = Vec::new();
        for clause in &clauses {
            let Clause::For(names, _) = clause else {
                continue;
            };
            for name in names {
                free(name)?;
                if !own_names.contains(name) {
                    own_names.push(name);
                }
            }
        }
        let mut clauses = clauses.into_iter();
        let mut rounds = Vec::with_capacity(clauses.len());
        let first = match clauses.next() {
            Some(Clause::For(names, operand)) => Some((names, self.term(operand)?)),
            _ => None,
        };
        self.inner.extend(own_names);
        let own = OwnSlots {
            first: self.locals.len() + around,
            end: self.locals.len() + self.inner.len(),
        };
        self.most = self.most.max(own.end);
        let element = element(self)?;
        if let Some((names, operand)) = first {
            rounds.push(Round::For(self.bindings(&names)?, operand));
        }
        for clause in clauses {
            rounds.push(match clause {
                Clause::For(names, operand) => {
                    Round::For(self.bindings(&names)?, self.term(operand)?)
                }
                Clause::If(test) => Round::If(self.term(test)?),
            });
        }
        self.inner.truncate(around);
        Ok((own, (element, rounds)))
    }

    fn load(&self, module: &str, items: Vec<Item<'t>>) -> Resolves<Statement> {
        let mut loaded = Vec::with_capacity(items.len());
        for item in items {
            let asked = unescape(item.asked);
            let binds = item.name.unwrap_or(&asked);
            free(binds)?;
            let binds = self.globals.number(binds).ok_or(Breaks)?;
            loaded.push(Loaded { asked, binds });
        }
        Ok(Statement::Load(unescape(module), loaded))
    }

    /// The parameters of a function, and the defaults of the last of them.
    fn params(&mut self, params: Vec<Param<'t>>) -> Resolves<(Vec<&'t str>, Vec<Term>)> {
        let mut names = Vec::with_capacity(params.len());
        let mut defaults = Vec::new();
        for param in params {
            free(param.name)?;
            match param.default {
                Some(default) => defaults.push(self.term(default)?),
                None if !defaults.is_empty() => return Err(Breaks),
                None => {}
            }
            names.push(param.name);
        }
        Ok((names, defaults))
    }

    fn function(
        &mut self,
        line: u32,
        name: &'t str,
        params: Vec<Param<'t>>,
        block: Vec<Written<'t>>,
    ) -> Result<Function, Fault> {
        let (names, defaults) = breaks_at(line, free(name).and_then(|()| self.params(params)))?;
        let mut locals = HashMap::new();
        for (slot, name) in names.iter().enumerate() {
            if locals.insert(*name, slot).is_some() {
                return fault(FaultKind::Scope, line);
            }
        }
        bind_block(&mut locals, &block);
        let binds = breaks_at(line, self.globals.number(name).ok_or(Breaks))?;
        self.functions += 1;
        let number = self.functions;
        let outside = std::mem::replace(&mut self.most, locals.len());
        self.locals = locals;
        let steps = self.block(block)?;
        self.locals = HashMap::new();
        Ok(Function {
            number,
            binds,
            params: names.into_iter().map(str::to_owned).collect(),
            defaults,
            slots: std::mem::replace(&mut self.most, outside),
            steps,
        })
    }

    fn condition(
        &mut self,
        branches: Vec<WrittenBranch<'t>>,
        other: Vec<Written<'t>>,
    ) -> Result<Statement, Fault> {
        let mut resolved = Vec::with_capacity(branches.len());
        for branch in branches {
            resolved.push(Branch {
                line: branch.line,
                test: breaks_at(branch.line, self.term(branch.test))?,
                steps: self.block(branch.block)?,
            });
        }
        Ok(Statement::If(resolved, self.block(other)?))
    }

    fn simple(&mut self, form: Form<'t>) -> Resolves<Statement> {
        Ok(match form {
            Form::Load(module, items) => self.load(module, items)?,
            Form::Assign(names, value) => {
                Statement::Assign(self.bindings(&names)?, self.term(value)?)
            }
            Form::AssignAt(base, at, value) => {
                Statement::AssignAt(self.boxed(*base)?, self.boxed(*at)?, self.term(value)?)
            }
            Form::Add(name, value) => {
                free(name)?;
                Statement::Add(self.stands_for(name)?, self.term(value)?)
            }
            Form::AddAt(base, at, value) => {
                Statement::AddAt(self.boxed(*base)?, self.boxed(*at)?, self.term(value)?)
            }
            Form::Evaluate(value) => Statement::Evaluate(self.term(value)?),
            Form::Return(Some(value)) => Statement::Return(Some(self.term(value)?)),
            Form::Return(None) => Statement::Return(None),
            Form::Break => Statement::Break,
            Form::Continue => Statement::Continue,
            Form::Pass | Form::Def(..) | Form::If(..) | Form::For(..) => Statement::Pass,
        })
    }

    fn statement(&mut self, line: u32, form: Form<'t>) -> Result<Statement, Fault> {
        match form {
            Form::Def(name, params, block) => {
                let function = self.function(line, name, params, block)?;
                Ok(Statement::Define(Box::new(function)))
            }
            Form::If(branches, other) => self.condition(branches, other),
            Form::For(names, operand, block) => {
                let names = breaks_at(line, self.bindings(&names))?;
                let operand = breaks_at(line, self.term(operand))?;
                Ok(Statement::For(names, operand, self.block(block)?))
            }
            form => breaks_at(line, self.simple(form)),
        }
    }

    fn block(&mut self, block: Vec<Written<'t>>) -> Result<Vec<Step>, Fault> {
        let mut steps = Vec::with_capacity(block.len());
        for Written { line, form } in block {
            let statement = self.statement(line, form)?;
            steps.push(Step { line, statement });
        }
        Ok(steps)
    }
}

fn breaks_at<T>(line: u32, read: Resolves<T>) -> Result<T, Fault> {
    read.map_err(|Breaks| Fault {
        line,
        kind: FaultKind::Scope,
    })
}

/// Gives the names that a block of a function binds their slots, in the order of the text.
fn bind_block<'t>(locals: &mut HashMap<&'t str, usize>, block: &[Written<'t>]) {
    let bind = |name: &'t str, locals: &mut HashMap<&'t str, usize>| {
        let next = locals.len();
        locals.entry(name).or_insert(next);
    };
    for statement in block {
        match &statement.form {
            Form::Assign(names, _) => {
                for name in names {
                    bind(name, locals);
                }
            }
            Form::Add(name, _) => bind(name, locals),
            Form::For(names, _, inner) => {
                for name in names {
                    bind(name, locals);
                }
                bind_block(locals, inner);
            }
            Form::If(branches, other) => {
                for branch in branches {
                    bind_block(locals, &branch.block);
                }
                bind_block(locals, other);
            }
            _ => {}
        }
    }
}

/// Binds what a statement of the top level binds; whether it may.
fn bind_global(globals: &mut Globals, form: &Form) -> bool {
    match form {
        Form::Load(_, items) => items.iter().fold(true, |fresh, item| {
            let bound = match item.name {
                Some(name) => globals.bind(name),
                None => globals.bind(&unescape(item.asked)),
            };
            fresh && bound
        }),
        Form::Assign(names, _) => names
            .iter()
            .fold(true, |fresh, name| globals.bind(name) && fresh),
        Form::Def(name, _, _) => globals.bind(name),
        Form::Add(name, _) => {
            globals.bind(name);
            false
        }
        _ => true,
    }
}

/// The fifth pass: what the names of a file stand for.
fn resolve(mut file: Vec<Written>) -> Result<Parsed, Fault> {
    let mut globals = Globals::default();
    let mut loaded = 0;
    let mut wrong = None;
    for (place, statement) in file.iter().enumerate() {
        if let Form::Load(_, items) = &statement.form {
            loaded += items.len();
        }
        if !bind_global(&mut globals, &statement.form) && wrong.is_none() {
            wrong = Some((place, statement.line));
        }
    }
    if let Some((place, _)) = wrong {
        file.truncate(place);
    }
    let mut resolver = Resolver {
        globals,
        locals: HashMap::new(),
        inner: Vec::new(),
        most: 0,
        functions: 0,
    };
    let steps = resolver.block(file)?;
    if let Some((_, line)) = wrong {
        return fault(FaultKind::Scope, line);
    }
    Ok(Parsed {
        globals: resolver.globals,
        loaded,
        slots: resolver.most,
        steps,
    })
}

/// Reads a file: its tree, or its first fault.
fn parse(text: &str, kind: FileKind) -> Result<Parsed, Fault> {
    check_characters(text)?;
    let tokens = tokens(text)?;
    let lines = logical_lines(&tokens)?;
    let file = statements(&lines, kind)?;
    drop(lines);
    drop(tokens);
    resolve(file)
}

// ---------------------------------------------------------------------------------------- Verdicts

/// What a file is, by its path; None where its text isn't looked at.
fn kind_of(path: &str) -> Option<FileKind> {
    if path == "BUILD" || path.ends_with("/BUILD") {
        Some(FileKind::Build)
    } else if path.ends_with(".bzl") {
        Some(FileKind::Module)
    } else {
        None
    }
}

/// Reads as much of JSON as the input has: an array of pairs of strings.
struct Json<'j> {
    text: &'j str,
}

impl<'j> Json<'j> {
    fn eat(&mut self, mark: char) -> bool {
        self.text = self.text.trim_start();
        match self.text.strip_prefix(mark) {
            Some(rest) => {
                self.text = rest;
                true
            }
            None => false,
        }
    }

    fn string(&mut self) -> Option<String> {
        if !self.eat('"') {
            return None;
        }
        let mut read = String::new();
        let mut chars = self.text.chars();
        loop {
            match chars.next()? {
                '"' => break,
                '\\' => match chars.next()? {
                    'n' => read.push('\n'),
                    't' => read.push('\t'),
                    'r' => read.push('\r'),
                    'b' => read.push('\u{8}'),
                    'f' => read.push('\u{c}'),
                    'u' => {
                        let digits: String = chars.by_ref().take(4).collect();
                        let code = u32::from_str_radix(&digits, 16).ok()?;
                        // Half of a pair is any character that no file may hold.
                        read.push(char::from_u32(code).unwrap_or('\u{fffd}'));
                    }
                    other => read.push(other),
                },
                other => read.push(other),
            }
        }
        self.text = chars.as_str();
        Some(read)
    }

    fn pairs(&mut self) -> Option<Vec<(String, String)>> {
        let mut pairs = Vec::new();
        if !self.eat('[') {
            return None;
        }
        while !self.eat(']') {
            if !self.eat('[') {
                return None;
            }
            let path = self.string()?;
            if !self.eat(',') {
                return None;
            }
            let text = self.string()?;
            if !self.eat(']') {
                return None;
            }
            pairs.push((path, text));
            self.eat(',');
        }
        Some(pairs)
    }
}

/// Prints the verdict of each file, and says whether one has a fault.
fn check_all(pairs: &[(String, String)]) -> std::io::Result<bool> {
    let mut out = std::io::stdout().lock();
    let mut found = false;
    for (path, text) in pairs {
        let Some(kind) = kind_of(path) else {
            continue;
        };
        match parse(text, kind) {
            Ok(_) => writeln!(out, "{path} ok")?,
            Err(fault) => {
                found = true;
                writeln!(out, "{path}:{} syntax {}", fault.line, fault.kind.name())?;
            }
        }
    }
    Ok(found)
}

// ------------------------------------------------------------------------------------------- Times

/// The length that each text comes near to. The texts are those of
/// `crates/syntax_check/src/texts.rt`, byte for byte.
const LENGTH: usize = 1_048_576;
const ROUNDS: usize = 3;
const LONGEST_PIECE: usize = 256;

/// A text of pieces, as long as there is room for one.
fn pieces(begin: &str, most: usize, room: usize, piece: impl Fn(&mut String, usize)) -> String {
    let mut text = String::from(begin);
    for i in 0..most {
        if text.len() > LENGTH - room {
            break;
        }
        piece(&mut text, i);
    }
    text
}

fn add(text: &mut String, piece: std::fmt::Arguments) {
    text.write_fmt(piece).expect("a string takes all");
}

fn functions() -> String {
    pieces("", LENGTH, LONGEST_PIECE, |text, i| {
        add(
            text,
            format_args!(
                "def f{i}(a, b = {i}):\n    c = [a, b]\n    for x in c:\n        if x != b and len(c) > {i}:\n            return [y for y in c if y]\n    return {{\"k\": c}}\n\n"
            ),
        );
    })
}

fn long_list() -> String {
    let mut text = pieces("x = [\n", LENGTH, LONGEST_PIECE, |text, i| {
        add(text, format_args!("    len(\"s{i}\") + {i} * 2,\n"));
    });
    text.push_str("]\n");
    text
}

fn deep_lists() -> String {
    pieces("", LENGTH, LONGEST_PIECE, |text, i| {
        add(
            text,
            format_args!("x{i} = {}{}\n", "[".repeat(60), "]".repeat(60)),
        );
    })
}

fn branches() -> String {
    pieces("def f(x):\n if x:0\n", LENGTH, LONGEST_PIECE, |text, _| {
        text.push_str(" elif 1:0\n")
    })
}

fn loaded_names() -> String {
    let mut text = pieces("load(\":a.bzl\"", LENGTH, LONGEST_PIECE, |text, i| {
        add(text, format_args!(", \"x{i}\""));
    });
    text.push_str(")\n");
    text
}

fn names_inside() -> String {
    let begin = format!("x = {}[", "[".repeat(99));
    let mut text = pieces(&begin, LENGTH, 99 * 24, |text, _| text.push_str("len, "));
    text.push(']');
    for i in 0..99 {
        add(&mut text, format_args!(" for a{i} in []]"));
    }
    text
}

fn calls() -> String {
    pieces("", 10_000, LONGEST_PIECE, |text, i| {
        add(
            text,
            format_args!("len(name = \"n{i}\", deps = [\":n{i}\"], text = \"t\" + str({i}))\n"),
        );
    })
}

type Text = (&'static str, FileKind, fn() -> String);

const TEXTS: [Text; 8] = [
    ("functions", FileKind::Module, functions),
    ("long list", FileKind::Module, long_list),
    ("deep lists", FileKind::Module, deep_lists),
    ("signs", FileKind::Module, || "-".repeat(LENGTH)),
    ("branches", FileKind::Module, branches),
    ("loaded names", FileKind::Module, loaded_names),
    ("names inside", FileKind::Module, names_inside),
    ("calls", FileKind::Build, calls),
];

/// What Linux says of the program's memory under a name, in bytes; 0 where it says nothing.
fn memory(name: &str) -> usize {
    let status = std::fs::read_to_string("/proc/self/status").unwrap_or_default();
    let line = status.lines().find_map(|line| line.strip_prefix(name));
    let size = line.and_then(|size| size.trim().strip_suffix(" kB"));
    size.and_then(|size| size.parse::<usize>().ok())
        .unwrap_or(0)
        * 1024
}

/// The peak of memory while a text is read, beyond what there was before, in bytes.
fn peak(text: &str, kind: FileKind) -> usize {
    let _ = std::fs::write("/proc/self/clear_refs", "5");
    let before = memory("VmRSS:");
    let _read = parse(text, kind);
    memory("VmHWM:").saturating_sub(before)
}

/// The least time of some rounds, in nanoseconds. What is read is given back behind the clock.
fn least_time(text: &str, kind: FileKind) -> u128 {
    let mut least = u128::MAX;
    for _ in 0..ROUNDS {
        let start = Instant::now();
        let _read = std::hint::black_box(parse(std::hint::black_box(text), kind));
        least = least.min(start.elapsed().as_nanos());
    }
    least
}

/// Prints the times of the text of this name, or of all where there is none.
fn time(name: Option<&str>) {
    for (which, kind, make) in TEXTS {
        if name.is_some_and(|name| name != which) {
            continue;
        }
        let text = make();
        let bytes = text.len() as u128;
        let peak = peak(&text, kind) as u128 / bytes;
        let tenths = least_time(&text, kind) * 10 / bytes;
        let verdict = if parse(&text, kind).is_ok() {
            "a tree"
        } else {
            "a fault"
        };
        println!(
            "{which}: {verdict}, {}.{} ns a byte, {peak} bytes a byte at most",
            tenths / 10,
            tenths % 10
        );
    }
}

fn main() -> std::io::Result<ExitCode> {
    let words: Vec<String> = std::env::args().collect();
    if words.len() > 1 {
        time(words.get(2).map(String::as_str));
        return Ok(ExitCode::SUCCESS);
    }
    let mut input = String::new();
    std::io::stdin().read_to_string(&mut input)?;
    let Some(pairs) = (Json { text: &input }).pairs() else {
        eprintln!("the input is no array of pairs of strings");
        return Ok(ExitCode::FAILURE);
    };
    let found = check_all(&pairs)?;
    Ok(ExitCode::from(u8::from(found)))
}
