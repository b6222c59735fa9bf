// The show program beside cases by hand and the original's kept answers. The text is made here anew, from the stored bytes of the lists; the
// place of a refusal, which the original does not tell, by the plain reading of tests/rust.
#[path = "../rust/src/plain/faults.rs"]
mod faults;
mod lines;
#[path = "../rust/src/plain/words.rs"]
mod words;

use lines::shown;
use std::collections::HashMap;
use std::io::Write;
use std::process::{Command, Stdio};

fn bytes(hex: &str) -> Vec<u8> {
    if hex == "-" {
        return Vec::new();
    }
    (0..hex.len() / 2).map(|i| u8::from_str_radix(&hex[2 * i..2 * i + 2], 16).unwrap()).collect()
}

fn run(program: &str, input: &[u8]) -> Vec<u8> {
    let mut child = Command::new(program).stdin(Stdio::piped()).stdout(Stdio::piped()).spawn().unwrap();
    // a program that has read enough may be gone before all is written
    let _ = child.stdin.take().unwrap().write_all(input);
    child.wait_with_output().unwrap().stdout
}

fn by_hand(program: &str, folder: &str) -> usize {
    let mut names: Vec<_> = std::fs::read_dir(folder).unwrap().map(|e| e.unwrap().path()).collect();
    names.retain(|p| p.extension().unwrap() == "in");
    names.sort();
    for name in &names {
        let wanted = std::fs::read(name.with_extension("out")).unwrap();
        let got = run(program, &std::fs::read(name).unwrap());
        if got != wanted {
            println!("{} differs:\n{}", name.display(), String::from_utf8_lossy(&got));
            std::process::exit(1);
        }
    }
    names.len()
}

// Where a refusal of a text is; 0 for those that have no place.
fn place(refusal: &str, name: &[u8], text: &[u8]) -> usize {
    let number: u32 = refusal.parse().unwrap();
    if !(4..=17).contains(&number) {
        return 0;
    }
    let fields = faults::Fields { field: name, analyzer: 2, entries: Vec::new() };
    let (found, place) = faults::first(&fields, text).unwrap();
    assert_eq!(found, number, "the plain reading");
    place
}

fn main() {
    let args: Vec<String> = std::env::args().collect();
    let (program, folder, lists) = (&args[1], &args[2], &args[3]);
    let list = |name: &str| std::fs::read_to_string(format!("{lists}/{name}")).unwrap();
    let hand = by_hand(program, folder);

    let mut rewritings = HashMap::new();
    let rewrite = list("rewrite.txt");
    for row in rewrite.lines().filter(|l| !l.starts_with('#')) {
        let c: Vec<&str> = row.split(' ').collect();
        rewritings.insert(c[0], (c[1], c[2]));
    }
    let (mut whole, mut written) = (0, 0);
    for row in (list("parse.txt") + &list("document.txt")).lines().filter(|l| !l.starts_with('#')) {
        let c: Vec<&str> = row.split(' ').collect();
        let (name, text) = (bytes(c[2]), bytes(c[4]));
        let operator = match c[0] {
            "0" => "or ",
            "1" => "and ",
            _ => continue,
        };
        if c[1] != "2" || c[3] != "-" || name.contains(&10) || text.contains(&10) {
            continue;
        }
        let mut input = operator.as_bytes().to_vec();
        input.extend(&name);
        input.push(10);
        input.extend(&text);
        let got = String::from_utf8(run(program, &input)).unwrap();
        let front = format!("written\n{}rewritten ", shown(&bytes(if c[5] == "0" { c[6] } else { "-" })));
        let good = match (c[5], rewritings.get(c[6])) {
            ("0", Some((rounds, query))) => {
                whole += 1;
                got == format!("{front}{rounds}\n{}", shown(&bytes(query)))
            }
            ("0", None) => {
                written += 1;
                got.starts_with(&front)
            }
            (refusal, _) => {
                whole += 1;
                got == format!("refused {refusal} {}\n", place(refusal, &name, &text))
            }
        };
        if !good {
            println!("differs: {row}\n{got}");
            std::process::exit(1);
        }
    }
    println!("{hand} cases by hand; of the lists {whole} texts whole, {written} as far as the query as written");
}
