//! Runs the launcher on fresh files, and compares what each program prints, and its status, with what the second reader says.

use crate::making::chance::Random;
use crate::making::random::runs::{after, run, Run};
use crate::reading::printed::{Printed, Words};
use crate::reading::told::hex;
use std::collections::BTreeMap;
use std::io::Write;
use std::path::Path;
use std::process::{Command, Stdio};

/// Runs the launcher in the folder, and tells what it printed.
fn launch(launcher: &str, folder: &Path, it: &Run) -> Result<Printed, String> {
    let problem = |e: std::io::Error| format!("{launcher}: {e}");
    for (name, bytes) in &it.files {
        std::fs::write(folder.join(name), bytes).map_err(problem)?;
    }
    let mut child = Command::new(launcher)
        .args(&it.words)
        .current_dir(folder)
        .stdin(Stdio::piped())
        .stdout(Stdio::piped())
        .stderr(Stdio::piped())
        .spawn()
        .map_err(problem)?;
    let mut stdin = child.stdin.take().unwrap();
    let pieces = it.pieces.clone();
    // A program that stops at a bad record leaves the rest unread.
    let feeder = std::thread::spawn(move || pieces.iter().all(|p| stdin.write_all(p).is_ok()));
    let out = child.wait_with_output().map_err(problem)?;
    feeder.join().unwrap();
    let status = out.status.code().unwrap_or(-1);
    let aside = String::from_utf8_lossy(&out.stderr).into_owned();
    match status {
        2 if aside.is_empty() => Err("status 2, and nothing on standard error".to_string()),
        2 => Ok(Printed { text: out.stdout, aside: String::new(), status }),
        _ => Ok(Printed { text: out.stdout, aside, status }),
    }
}

/// The first words of what is printed: the sort of answer, for the count at the end.
fn sort(it: &Run) -> String {
    if ["send", "convert", "replay", "frames"].contains(&it.words[0].as_str()) {
        return format!("{} {}", it.words[0], it.wanted.status);
    }
    let text = String::from_utf8_lossy(&it.wanted.text);
    let words: Vec<&str> = text.split_whitespace().collect();
    match words[..] {
        [] => "wrong call".to_string(),
        ["refused", number, ..] => format!("{number:0>2}"),
        ["delivered", ..] => "ledger".to_string(),
        ["bad", ..] => "bad record".to_string(),
        [word, ..] => word.to_string(),
    }
}

fn told(it: &Run, got: &Result<Printed, String>) -> String {
    let hex = |bytes: &[u8]| hex(&bytes[..bytes.len().min(20_000)]);
    let files: Vec<String> = it.files.iter().map(|(n, b)| format!("{n}: {}\n", hex(b))).collect();
    format!(
        "palkodhen {}\n{}by standard input: {}\nthe second reader: {:?}\nthe program: {got:?}",
        it.words.join(" "),
        files.concat(),
        hex(&it.pieces.concat()),
        it.wanted
    )
}

pub fn compare(count: usize, seed: u64, page: &str, folder: &str, launcher: &str) -> Result<(), String> {
    let said = Words::load(page)?;
    let mut r = Random(seed);
    let mut sorts: BTreeMap<String, usize> = BTreeMap::new();
    for i in 1..=count {
        let mut next = Some(run(&mut r, &said));
        while let Some(it) = next {
            let got = launch(launcher, Path::new(folder), &it);
            if got.as_ref() != Ok(&it.wanted) {
                return Err(format!("seed {seed}: run {i} differs: {}", told(&it, &got)));
            }
            *sorts.entry(sort(&it)).or_default() += 1;
            next = after(&it, &said);
        }
    }
    let sorts: Vec<String> = sorts.iter().map(|(k, n)| format!("{k} {n}")).collect();
    println!("second: {count} runs of the programs, seed {seed}: no difference ({})", sorts.join(", "));
    Ok(())
}
