//! vectors CLASS [COUNT [SEED]]     blocks of vectors/README.md on standard output, a summary on standard error
//! vectors CLASS only INDEX SEED    one module of a drawn series again
//!
//! Drawn: valid mutated forms random wild big, and sweep (all of them in turn).
//! Written out: damaged (COUNT more are drawn) heads braces limits heads-all braces-all.
use std::{
    collections::BTreeMap,
    io::{BufWriter, Write},
};
use vectors::{block, generate as g, generate::Module, series};

fn drawn(class: &str, seed: u64, i: u64) -> Option<Module> {
    Some(match class {
        "valid" => g::valid(seed, i),
        "mutated" => g::mutated(seed, i),
        "forms" => g::form(seed, i),
        "random" => g::random(seed, i),
        "wild" => g::wild(seed, i),
        "big" => g::big(seed, i),
        "sweep" if i % 200 == 199 => g::big(seed, i),
        "sweep" => match i % 20 {
            0..=3 => g::valid(seed, i),
            4..=10 => g::mutated(seed, i),
            11..=14 => g::form(seed, i + 1000),
            15..=16 => g::random(seed, i),
            _ => g::wild(seed, i),
        },
        _ => return None,
    })
}

fn main() {
    let a: Vec<String> = std::env::args().skip(1).collect();
    let usage = || -> ! {
        eprintln!("usage: vectors CLASS [COUNT [SEED]] | vectors CLASS only INDEX SEED");
        std::process::exit(2)
    };
    let Some(class) = a.first().map(String::as_str) else { usage() };
    let number = |i: usize, or: u64| a.get(i).map_or(or, |s| s.parse().unwrap_or_else(|_| usage()));
    let mut out = BufWriter::with_capacity(1 << 20, std::io::stdout().lock());
    let mut of: BTreeMap<String, u64> = BTreeMap::new();
    let mut left: BTreeMap<String, u64> = BTreeMap::new();
    let mut all = 0u64;
    let mut give = |m: Module| {
        all += 1;
        match block(&m.name, m.class, &m.bytes, &m.text, m.js) {
            Ok((b, e)) => {
                for r in &e.rules {
                    *of.entry(format!("rule {r}")).or_default() += 1;
                }
                let how = match &e.answer.stop {
                    Some(s) if s.number == 9 => format!("stop 9 layer {}", s.layer),
                    Some(s) => format!("stop {}", s.number),
                    None => {
                        let r = e.answer.record.as_ref().unwrap();
                        for f in e.answer.pages.iter().flat_map(|p| &p.faults).chain(&r.faults) {
                            *of.entry(format!("fault {}", f.number)).or_default() += 1;
                        }
                        "read to the end".into()
                    }
                };
                *of.entry(how).or_default() += 1;
                if out.write_all(b.as_bytes()).is_err() {
                    eprintln!("the reader of the blocks went away");
                    std::process::exit(1);
                }
            }
            Err(why) => {
                *left.entry(why.to_string()).or_default() += 1;
                eprintln!("left out: {} ({why})", m.name);
            }
        }
    };
    match class {
        "damaged" => series::damaged(number(2, 1), number(1, 0), &mut give),
        "heads" => series::heads(false, &mut give),
        "heads-all" => series::heads(true, &mut give),
        "braces" => series::braces(false, &mut give),
        "braces-all" => series::braces(true, &mut give),
        "limits" => series::limits(&mut give),
        _ => {
            let (from, to, seed) = if a.get(1).is_some_and(|s| s == "only") {
                (number(2, 0), number(2, 0) + 1, number(3, 1))
            } else {
                (0, number(1, 100), number(2, 1))
            };
            for i in from..to {
                give(drawn(class, seed, i).unwrap_or_else(|| usage()));
            }
        }
    }
    let _ = out.flush();
    eprintln!("{class}: {all} modules, {} left out", left.values().sum::<u64>());
    for (k, n) in &of {
        eprintln!("  {k}: {n}");
    }
}
