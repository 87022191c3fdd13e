//! oracle TOKENS TEXT      what the Rust made of a token file, in the lines of vectors/README.md, no rule applied
use std::fs;
fn main() {
    let args: Vec<String> = std::env::args().skip(1).collect();
    let [t, x] = args.as_slice() else {
        eprintln!("usage: oracle TOKENS TEXT");
        std::process::exit(2);
    };
    let (bytes, text) = (fs::read(t).expect("tokens"), fs::read(x).expect("text"));
    let list = oxc_parser::tokenfile::read(&bytes, &text);
    let answer = oxc_parser::run(&list, &list.toks());
    let mut o = String::new();
    answer.lines(&mut o, &list);
    print!("{o}");
    if let Some(s) = answer.stop {
        println!("said {}", s.constructor);
    }
}
