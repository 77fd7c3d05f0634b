mod base;
mod book;
mod curve;
mod life;
mod rulebook;
mod store;

use std::io::{BufWriter, Read, Write};
use std::path::Path;
use std::process::exit;

fn main() {
    let arguments: Vec<String> = std::env::args().skip(1).collect();
    let mut out = BufWriter::new(std::io::stdout().lock());
    let fail = |out: &mut BufWriter<_>, message: String| -> ! {
        out.flush().unwrap();
        eprintln!("{message}");
        exit(1)
    };

    if arguments.first().is_some_and(|a| a == "--import") {
        for file in &arguments[1..] {
            let text = std::fs::read(file).unwrap_or_else(|e| fail(&mut out, format!("{file}: {e}")));
            match curve::import(&text) {
                Ok((curve, [a, b, c, d])) => {
                    write!(out, "{file} ok QUARTER {a} A1 {b} A2 {c} STATE {d}").unwrap();
                    for reading in curve {
                        match reading {
                            Some(wh) => write!(out, " {wh}").unwrap(),
                            None => write!(out, " E").unwrap(),
                        }
                    }
                    writeln!(out).unwrap();
                }
                Err(r) => writeln!(out, "{file} refused {} {} {} {}", r.number, r.layer, r.places.0, r.places.1).unwrap(),
            }
        }
        out.flush().unwrap();
        return;
    }

    let mut text = vec![];
    let mut directory = Path::new("");
    match &arguments[..] {
        [] => {
            if let Err(e) = std::io::stdin().read_to_end(&mut text) {
                fail(&mut out, format!("standard input: {e}"));
            }
        }
        [file] => {
            text = std::fs::read(file).unwrap_or_else(|e| fail(&mut out, format!("{file}: {e}")));
            directory = Path::new(file).parent().unwrap_or(directory);
        }
        _ => fail(&mut out, "usage: peer [FILE], peer --import FILE..".into()),
    }
    if let Err(message) = life::run(&text, directory, &mut out) {
        fail(&mut out, message);
    }
    out.flush().unwrap();
}
