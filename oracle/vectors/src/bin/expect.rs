//! expect TOKENS TEXT [NAME]     the expected answer for a token file, as one block of vectors/README.md
use std::{fs, process};
fn main() {
    let args: Vec<String> = std::env::args().skip(1).collect();
    if args.len() < 2 {
        eprintln!("usage: expect TOKENS TEXT [NAME]");
        process::exit(2);
    }
    let (bytes, text) = (fs::read(&args[0]).expect("tokens"), fs::read(&args[1]).expect("text"));
    let name = args.get(2).map_or("one", String::as_str);
    match vectors::block(name, "given", &bytes, &text, None) {
        Ok((b, _)) => print!("{b}"),
        Err(e) => {
            eprintln!("left out: {e}");
            process::exit(1);
        }
    }
}
