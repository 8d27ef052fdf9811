//! Number files and sources.

use crate::*;

pub fn read(text: &[u8], count: usize) -> Option<Vec<u64>> {
    let mut found = vec![];
    for line in text.split(|b| *b == b'\n') {
        let line = line.split(|b| *b == b'#').next()?;
        for word in line.split(|b| b" \t\r".contains(b)).filter(|w| !w.is_empty()) {
            let (base, digits) = match word {
                [b'0', b'x', rest @ ..] if !rest.is_empty() => (16, rest),
                _ => (10, word),
            };
            let mut n = 0u128;
            for d in digits {
                let d = (*d as char).to_digit(base)?;
                n = n.checked_mul(base as u128)?.checked_add(d as u128)?;
            }
            if found.len() >= count || n >= P as u128 {
                return None;
            }
            found.push(n as u64);
        }
    }
    (found.len() == count).then_some(found)
}

pub fn numbers(times: u32) -> u128 {
    let text = b"18446744069414584320\n".repeat(199_728);
    let mut total = 0;
    for _ in 0..times {
        for x in read(std::hint::black_box(&text), 199_728).unwrap_or_default() {
            total = add(total, x);
        }
    }
    total as u128
}

// An expression of a source: an input or a let name by its number.
pub enum Expr {
    Number(u128),
    Public(u32),
    Private(u32),
    Named(u32),
    Neg(Box<Expr>),
    Sum(Vec<(bool, Expr)>),
    Product(Vec<Expr>),
}

#[derive(Clone, Copy)]
pub enum Binding {
    Public(u32),
    Private(u32),
    Named(u32),
}

#[derive(Clone, Copy, PartialEq)]
pub enum Token<'a> {
    Word(&'a [u8]),
    Sign(u8),
}

#[allow(dead_code)]
pub enum Statement {
    Public(Vec<u8>),
    Private(Vec<u8>),
    Let(Vec<u8>, Expr),
    Assert(Expr, Expr),
}

// The tokens of a line, where each byte is a blank or of one.
pub fn tokens<'a>(line: &'a [u8], out: &mut Vec<Token<'a>>) -> Option<()> {
    out.clear();
    let mut i = 0;
    while i < line.len() {
        let b = line[i];
        if b.is_ascii_alphanumeric() || b == b'_' {
            let start = i;
            while i < line.len() && (line[i].is_ascii_alphanumeric() || line[i] == b'_') {
                i += 1;
            }
            out.push(Token::Word(&line[start..i]));
            continue;
        }
        if b"+-*()=".contains(&b) {
            out.push(Token::Sign(b));
        } else if !b" \t\r".contains(&b) {
            return None;
        }
        i += 1;
    }
    Some(())
}

pub fn number(word: &[u8]) -> Option<u128> {
    let (base, digits) = match word {
        [b'0', b'x', rest @ ..] if !rest.is_empty() => (16, rest),
        _ => (10, word),
    };
    digits.iter().try_fold(0u128, |n, d| n.checked_mul(base as u128)?.checked_add((*d as char).to_digit(base)? as u128))
}

pub struct Parser<'a, 'b> {
    pub tokens: &'b [Token<'a>],
    pub at: usize,
    pub names: &'b std::collections::BTreeMap<&'a [u8], Binding>,
}

impl Parser<'_, '_> {
    pub fn takes(&mut self, sign: u8) -> bool {
        let there = self.tokens.get(self.at) == Some(&Token::Sign(sign));
        self.at += there as usize;
        there
    }

    pub fn sum(&mut self) -> Option<Expr> {
        let mut parts = vec![(false, self.product()?)];
        loop {
            let minus = self.takes(b'-');
            if !minus && !self.takes(b'+') {
                break;
            }
            parts.push((minus, self.product()?));
        }
        if parts.len() == 1 { Some(parts.pop()?.1) } else { Some(Expr::Sum(parts)) }
    }

    pub fn product(&mut self) -> Option<Expr> {
        let mut factors = vec![self.factor()?];
        while self.takes(b'*') {
            factors.push(self.factor()?);
        }
        if factors.len() == 1 { factors.pop() } else { Some(Expr::Product(factors)) }
    }

    pub fn factor(&mut self) -> Option<Expr> {
        if self.takes(b'-') { Some(Expr::Neg(Box::new(self.atom()?))) } else { self.atom() }
    }

    pub fn atom(&mut self) -> Option<Expr> {
        if self.takes(b'(') {
            let inner = self.sum()?;
            return self.takes(b')').then_some(inner);
        }
        let Some(Token::Word(word)) = self.tokens.get(self.at) else { return None };
        self.at += 1;
        if word[0].is_ascii_digit() {
            return number(word).filter(|n| *n < P as u128).map(Expr::Number);
        }
        Some(match self.names.get(word)? {
            Binding::Public(i) => Expr::Public(*i),
            Binding::Private(i) => Expr::Private(*i),
            Binding::Named(i) => Expr::Named(*i),
        })
    }
}

pub fn parse_source(text: &[u8]) -> Option<Vec<Statement>> {
    let mut names = std::collections::BTreeMap::new();
    let (mut statements, mut found) = (vec![], vec![]);
    let (mut field, mut publics, mut privates, mut lets) = (false, 0, 0, 0);
    for line in text.split(|b| *b == b'\n') {
        tokens(line.split(|b| *b == b'#').next()?, &mut found)?;
        let Some(Token::Word(key)) = found.first() else { continue };
        let mut open = 0;
        for token in &found {
            match token {
                Token::Word(word) if word.len() > 32 && !word[0].is_ascii_digit() => return None,
                Token::Sign(b'(') => open += 1,
                Token::Sign(b')') => open = (open - 1).max(0),
                _ => {}
            }
            if open > 64 {
                return None;
            }
        }
        let mut parser = Parser { tokens: &found, at: 1, names: &names };
        match *key {
            b"field" => field = found.len() == 2 && found[1] == Token::Word(b"goldilocks"),
            b"public" | b"private" if field => {
                let public = *key == b"public";
                for token in &found[1..] {
                    let Token::Word(name) = token else { return None };
                    let (binding, statement) = if public {
                        publics += 1;
                        (Binding::Public(publics - 1), Statement::Public(name.to_vec()))
                    } else {
                        privates += 1;
                        (Binding::Private(privates - 1), Statement::Private(name.to_vec()))
                    };
                    if names.insert(*name, binding).is_some() {
                        return None;
                    }
                    statements.push(statement);
                }
            }
            b"let" if field => {
                let Some(Token::Word(name)) = found.get(1) else { return None };
                parser.at = 2;
                let expr = parser.takes(b'=').then(|| parser.sum())??;
                if parser.at != found.len() || names.insert(*name, Binding::Named(lets)).is_some() {
                    return None;
                }
                lets += 1;
                statements.push(Statement::Let(name.to_vec(), expr));
            }
            b"assert" if field => {
                let left = parser.sum()?;
                let right = parser.takes(b'=').then(|| parser.sum())??;
                if parser.at != found.len() {
                    return None;
                }
                statements.push(Statement::Assert(left, right));
            }
            _ => return None,
        }
    }
    field.then_some(statements)
}

pub fn source(times: u32) -> u128 {
    let mut text = b"field goldilocks\npublic y\nprivate x\n".to_vec();
    text.extend(b"assert x * (x + 18446744069414584320) - 7 * y = x * x - 7 * -y\n".repeat(66_575));
    let mut total = 0;
    for _ in 0..times {
        total += std::hint::black_box(parse_source(std::hint::black_box(&text))).unwrap_or_default().len() as u128;
    }
    total
}
