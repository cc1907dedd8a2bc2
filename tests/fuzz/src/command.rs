//! The program's own commands, without AFL++.
use crate::input::Input;
use crate::plant::Plant;
use crate::{calls, compare, lines, seeds};
use diff::compare::Outcome;
use std::io::{Error, ErrorKind, Result};
use std::path::{Path, PathBuf};
use std::process::ExitCode;

/// Runs a command.
pub fn run(words: &[&str], plant: &Plant) -> Result<ExitCode> {
    match words {
        ["seeds", folder, file, seed] => {
            let seed = seed
                .parse()
                .map_err(|_| Error::new(ErrorKind::InvalidInput, "SEED is a number"))?;
            let lines = std::fs::read(file)?;
            println!("{}", seeds::write(Path::new(folder), &lines, seed)?);
            Ok(ExitCode::SUCCESS)
        }
        ["inputs", folder] => inputs(folder, plant),
        ["lines", tool, folder] => {
            let inputs: Result<Vec<Vec<u8>>> = files(folder)?.iter().map(std::fs::read).collect();
            Ok(report(lines::ask(tool, &inputs?)?))
        }
        ["calls"] => {
            for call in calls::calls() {
                println!("{}", call.name);
            }
            Ok(ExitCode::SUCCESS)
        }
        _ => Err(Error::new(
            ErrorKind::InvalidInput,
            "seeds FOLDER FILE SEED, inputs FOLDER, lines TOOL FOLDER, or calls",
        )),
    }
}

/// Returns the files of a folder, sorted by name. AFL++ also keeps its own state there, in a folder of its own.
fn files(folder: &str) -> Result<Vec<PathBuf>> {
    let mut files = Vec::new();
    for entry in std::fs::read_dir(folder)? {
        let path = entry?.path();
        if path.is_file() && !path.ends_with("README.txt") {
            files.push(path);
        }
    }
    files.sort();
    Ok(files)
}

/// Makes all calls on each input. Reports the input if the original panics.
fn inputs(folder: &str, plant: &Plant) -> Result<ExitCode> {
    let calls = calls::calls();
    for file in files(folder)? {
        let input = std::fs::read(file)?;
        let asked = Input::new(&input).map(|input| compare::words(&input));
        std::panic::set_hook(Box::new(move |panic| {
            println!(
                "a difference: the original panics, {}",
                asked.as_deref().unwrap_or("")
            );
            println!("{panic}");
        }));
        if let Err(difference) = compare::compare(&calls, plant, &input) {
            println!("{difference}");
            return Ok(ExitCode::FAILURE);
        }
    }
    Ok(ExitCode::SUCCESS)
}

/// Prints the result of a comparison of lines.
fn report(outcome: Outcome) -> ExitCode {
    match outcome {
        Outcome::Same(counts) => {
            for (difference, times) in counts {
                println!("a known difference, {times} times: {}", difference.words());
            }
            ExitCode::SUCCESS
        }
        Outcome::Different(words) => {
            println!("a difference\n{words}");
            ExitCode::FAILURE
        }
    }
}
