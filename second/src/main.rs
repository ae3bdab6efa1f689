//! A second reader, from the documents' text alone, and what compares the answers program with it.
//!
//!   second corpus STDIN STDOUT       writes the stored cases, and what is to be printed of them
//!   second compare N SEED COMMAND..  makes N cases from the seed, runs the command on them and compares what it prints
//!   second programs N SEED PAGE FOLDER LAUNCHER
//!                                    makes N runs of the launcher from the seed, with files in the folder and the words of the page, and compares

mod corpus;
mod making;
mod reading;
mod running;

fn main() {
    let words: Vec<String> = std::env::args().skip(1).collect();
    let words: Vec<&str> = words.iter().map(String::as_str).collect();
    if let Err(problem) = running::commands::run(&words) {
        eprintln!("{problem}");
        std::process::exit(1);
    }
}
