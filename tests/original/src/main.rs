//! The oracle: asks the original Rust and writes its answers as lists.
//!
//!     oracle check          holds the original to the statements of document 01
//!     oracle lists FOLDER   makes the lists in the folder

mod check;
mod document_cases;
mod document_limits;
mod lists;
mod numeral_cases;
mod parse_cases;
mod parse_tables;
mod rewrite_cases;
mod rewrite_sums;
mod token_cases;
mod word_cases;

use std::path::Path;

/// One seed for all that is random in the lists.
const SEED: u64 = 1;

fn main() {
    let arguments: Vec<String> = std::env::args().skip(1).collect();
    let arguments: Vec<&str> = arguments.iter().map(String::as_str).collect();
    match arguments.as_slice() {
        ["check"] => check::all(),
        ["lists", folder] => {
            let folder = Path::new(folder);
            std::fs::create_dir_all(folder).expect("the folder of the lists");
            parse_cases::list(SEED).write(folder);
            rewrite_cases::list(SEED).write(folder);
            numeral_cases::list(SEED).write(folder);
            document_cases::list().write(folder);
            token_cases::list(SEED).write(folder);
        }
        _ => {
            eprintln!("oracle check | oracle lists FOLDER");
            std::process::exit(2);
        }
    }
}
