//! The bracket host, a function of the token list and a token number.
//!
//! A run from Function, Class, or Async then Function ends with the RCurly that returns to depth zero, any
//! other with its first Semicolon at depth zero; depth counts round, square and curly brackets.
//! Codes: 1 not a declaration, or an empty default body; 2 a closing bracket that does not match, or a
//! 65th open one; 3 the end, Undetermined past the first token, or past it at depth zero an Export or an
//! Import not before LParen or Dot; 4 a missing name. The leftmost token decides, then 3, 2, 4, 1.
use crate::lexer::Kind;
use crate::tokenfile::Tok;

/// Code and the number of the token that decided.
pub type Refusal = (u8, usize);

#[derive(Debug, Clone, Copy, PartialEq, Eq)]
pub enum Name {
    Plain(usize),
    Absent,
    Named(usize),
}

#[derive(Clone, Copy, PartialEq, Eq)]
enum Q {
    Statement,
    Declaration,
    Default,
}

struct Run {
    len: usize,
    /// Ends with RCurly (Function, Class, Async Function) and not with Semicolon.
    block: bool,
    names: Vec<usize>,
}

fn run(t: &[Tok<'_>], n: usize, q: Q) -> Result<Run, Refusal> {
    let kind = |i: usize| t.get(i).map_or(Kind::Eof, |x| x.kind);
    let first = kind(n);
    let head = match first {
        Kind::Function | Kind::Class => Some(n),
        Kind::Async if kind(n + 1) == Kind::Function => Some(n + 1),
        _ => None,
    };
    let block = head.is_some();
    let binder = matches!(first, Kind::Const | Kind::Let | Kind::Var);
    // Place of a name after Class or Function, one Star skipped after either.
    let head_name = head.map(|h| if kind(h + 1) == Kind::Star { h + 2 } else { h + 1 });
    let mut names = vec![];
    let mut open: Vec<Kind> = vec![];
    let mut want_name = None; // number of the token where a name must stand
    if q == Q::Declaration {
        if let Some(h) = head_name {
            want_name = Some(h);
        } else if binder {
            want_name = Some(n + 1);
        }
    }
    let mut i = n;
    loop {
        let k = kind(i);
        // 3
        if i >= t.len() {
            return Err((3, i));
        }
        if i > n {
            if k == Kind::Undetermined {
                return Err((3, i));
            }
            if open.is_empty()
                && (k == Kind::Export
                    || k == Kind::Import && !matches!(kind(i + 1), Kind::LParen | Kind::Dot))
            {
                return Err((3, i));
            }
        }
        // 2
        let mut closed = false;
        match k {
            Kind::LParen | Kind::LBrack | Kind::LCurly => {
                if open.len() == 64 {
                    return Err((2, i));
                }
                open.push(k);
            }
            Kind::RParen | Kind::RBrack | Kind::RCurly => {
                let want = match k {
                    Kind::RParen => Kind::LParen,
                    Kind::RBrack => Kind::LBrack,
                    _ => Kind::LCurly,
                };
                if open.pop() != Some(want) {
                    return Err((2, i));
                }
                closed = true;
            }
            _ => {}
        }
        // 4
        if want_name == Some(i) {
            if !k.is_binding_identifier() {
                return Err((4, i));
            }
            names.push(i);
            want_name = None;
        }
        // 1
        if i == n {
            match q {
                Q::Declaration if !block && !binder => return Err((1, i)),
                Q::Default if !block && k == Kind::Semicolon => return Err((1, i)),
                _ => {}
            }
        }
        if open.is_empty() {
            if block && closed && k == Kind::RCurly {
                break;
            }
            if !block && k == Kind::Semicolon {
                break;
            }
            if q == Q::Declaration && binder && k == Kind::Comma {
                want_name = Some(i + 1);
            }
        }
        i += 1;
    }
    if q == Q::Default && let Some(h) = head_name && kind(h).is_binding_identifier() {
        names.push(h);
    }
    Ok(Run { len: i + 1 - n, block, names })
}

pub fn statement(t: &[Tok<'_>], n: usize) -> Result<usize, Refusal> {
    run(t, n, Q::Statement).map(|r| r.len)
}

pub fn declaration(t: &[Tok<'_>], n: usize) -> Result<(usize, Vec<usize>), Refusal> {
    run(t, n, Q::Declaration).map(|r| (r.len, r.names))
}

/// Length, body length, name.
pub fn default(t: &[Tok<'_>], n: usize) -> Result<(usize, usize, Name), Refusal> {
    let r = run(t, n, Q::Default)?;
    if r.block {
        return Ok((r.len, r.len, r.names.first().map_or(Name::Absent, |&x| Name::Named(x))));
    }
    let name = if r.len == 2 && t[n].kind.is_binding_identifier() { Name::Plain(n) } else { Name::Absent };
    Ok((r.len, r.len - 1, name))
}
