//! Vectors: modules from the generator, and what the library has to answer.
pub mod expect;
mod forms;
pub mod generate;
pub mod series;
mod rng;

use std::collections::BTreeSet;
use std::fmt::Write;

use oxc_parser::{answer, tokenfile};

/// One block of vectors/README.md, and the rules that were applied.
pub fn block(
    name: &str,
    class: &str,
    bytes: &[u8],
    text: &[u8],
    js: Option<usize>,
) -> Result<(String, expect::Expected), expect::LeftOut> {
    let list = tokenfile::read(bytes, text);
    let e = expect::expect(&list)?;
    let mut o = String::new();
    answer::head(&mut o, name, class, bytes, text, js, &list);
    e.answer.lines(&mut o, &list);
    let rules: &BTreeSet<&'static str> = &e.rules;
    for r in expect::RULES {
        if rules.contains(r) {
            writeln!(o, "rule {r}").unwrap();
        }
    }
    o.push_str("end\n");
    Ok((o, e))
}
