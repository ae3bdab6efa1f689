//! Runs a program on fresh cases, and compares what it prints with the second reader's answers.

use crate::corpus::calls::rooms;
use crate::making::answers::expected;
use crate::making::cases::Case;
use crate::making::chance::Random;
use crate::making::random::any;
use crate::reading::told::hex;
use std::io::{Read, Write};
use std::process::{Command, Stdio};

/// So many cases go to one run of the program.
const BATCH: usize = 500;

/// Lists of calls are as long as this.
const CALLS: usize = 250;

/// What the command prints when it is given the input.
fn output(command: &[&str], input: Vec<u8>) -> Result<Vec<u8>, String> {
    let problem = |e: std::io::Error| format!("{}: {e}", command[0]);
    let mut child = Command::new(command[0]).args(&command[1..]).stdin(Stdio::piped()).stdout(Stdio::piped()).spawn().map_err(problem)?;
    let mut stdin = child.stdin.take().unwrap();
    // A program that stops early leaves its input unread, which shows in what it printed.
    let feeder = std::thread::spawn(move || drop(stdin.write_all(&input)));
    let mut printed = Vec::new();
    child.stdout.take().unwrap().read_to_end(&mut printed).map_err(problem)?;
    feeder.join().unwrap();
    child.wait().map_err(problem)?;
    Ok(printed)
}

/// The part of what was printed that belongs to case n, counted from 1.
fn of_case(printed: &[u8], n: usize) -> String {
    let text = String::from_utf8_lossy(printed);
    let from = text.find(&format!("case {n}\n"));
    let end = text.find(&format!("case {}\n", n + 1)).unwrap_or(text.len());
    from.map_or(String::new(), |from| text[from..end].to_string())
}

fn difference(first: usize, cases: &[Case], wanted: &[String], printed: &[u8]) -> String {
    for (i, (case, want)) in cases.iter().zip(wanted).enumerate() {
        let got = of_case(printed, i + 1);
        if got != *want {
            let bytes = case.bytes();
            let hex = hex(&bytes[..bytes.len().min(20_000)]);
            let place = want.lines().zip(got.lines()).position(|(a, b)| a != b).unwrap_or(0);
            return format!(
                "case {} (kind {}) differs, first in line {}\nthe case: {hex}\nthe second reader:\n{want}the program:\n{got}",
                first + i + 1,
                case.kind(),
                place + 1
            );
        }
    }
    "the outputs differ outside the cases".to_string()
}

pub fn run(count: usize, seed: u64, command: &[&str]) -> Result<(), String> {
    let mut r = Random(seed);
    let mut calls = 0;
    // First those that are too large to be stored.
    let mut next = rooms();
    let count = count + next.len();
    let mut done = 0;
    while done < count {
        let fresh = |r: &mut Random| (0..BATCH.min(count - done)).map(|_| any::case(r, CALLS)).collect();
        let cases: Vec<Case> = if next.is_empty() { fresh(&mut r) } else { std::mem::take(&mut next) };
        let wanted = expected(&cases);
        let printed = output(command, cases.iter().flat_map(Case::bytes).collect())?;
        if printed != wanted.concat().into_bytes() {
            return Err(format!("seed {seed}: {}", difference(done, &cases, &wanted, &printed)));
        }
        calls += cases.iter().map(Case::calls).sum::<usize>();
        done += cases.len();
    }
    println!("second: {done} cases with {calls} calls, seed {seed}: no difference");
    Ok(())
}
