//! The commands of `second`, as main.rs names them.

use crate::corpus::stored;
use crate::running::compare;
use crate::running::programs;

pub fn run(words: &[&str]) -> Result<(), String> {
    match *words {
        ["corpus", stdin, stdout] => stored::write(stdin, stdout),
        ["compare", count, seed, ref command @ ..] if !command.is_empty() => match (count.parse(), seed.parse()) {
            (Ok(count), Ok(seed)) => compare::run(count, seed, command),
            _ => Err("compare: N and SEED are numbers".to_string()),
        },
        ["programs", count, seed, page, folder, launcher] => match (count.parse(), seed.parse()) {
            (Ok(count), Ok(seed)) => programs::compare(count, seed, page, folder, launcher),
            _ => Err("programs: N and SEED are numbers".to_string()),
        },
        _ => Err("usage: second corpus .., second compare .. or second programs ..: see main.rs".to_string()),
    }
}
