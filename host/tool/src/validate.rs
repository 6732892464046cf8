//! `fluxproof validate`: whether images obey the rules, a line for each.

use std::ffi::OsStr;
use std::io::Write;

use crate::arguments::{Arguments, Command};
use crate::failure::{Failure, Status};
use crate::faults::{of_image, Rules};
use crate::files::Input;

/// The command.
pub const COMMAND: Command =
    Command { name: "validate", flags: &["--all"], values: &["--edition"], help: include_str!("help/validate.txt"), run };

/// Validates each file as an SCP image.
fn run(arguments: &Arguments, out: &mut dyn Write) -> Result<(), Failure> {
    each_file(arguments, arguments.edition()?, out)
}

/// Has each file judged, also after one that fails.
pub fn each_file(arguments: &Arguments, rules: impl Rules, out: &mut dyn Write) -> Result<(), Failure> {
    if arguments.operands.is_empty() {
        return Err(Failure::usage("FILE is missing"));
    }
    if arguments.operands.iter().filter(|file| *file == "-").count() > 1 {
        return Err(Failure::usage("standard input (-) can be read only once"));
    }
    let mut worst = Ok(());
    for file in &arguments.operands {
        let (lines, verdict) = verdict(file, rules, arguments.has("--all"));
        worst = worst.max(verdict);
        for line in lines {
            writeln!(out, "{line}")?;
        }
    }
    worst.map_err(Failure::Said)
}

/// The line of a file, with all its faults one for each, and whether it passes.
fn verdict(file: &OsStr, rules: impl Rules, all: bool) -> (Vec<String>, Result<(), Status>) {
    let input = match Input::try_read(file) {
        Err(message) => return (vec![message], Err(Status::File)),
        Ok(input) => input,
    };
    match rules.validate(&input.bytes) {
        Ok(()) => (vec![format!("{}: ok", input.name)], Ok(())),
        Err(refusal) => {
            let mut lines = vec![format!("{}: {}", input.name, of_image(rules, &input.bytes, refusal))];
            if all {
                lines.extend(others(&input, rules, refusal));
            }
            (lines, Err(Status::Refused))
        }
    }
}

/// A line for each fault but the one that is refused.
fn others<R: Rules>(input: &Input, rules: R, refusal: R::Refusal) -> Vec<String> {
    let mut faults = rules.faults(&input.bytes);
    if let Some(first) = faults.iter().position(|fault| fault.refusal == refusal) {
        faults.remove(first);
    }
    faults.iter().map(|fault| format!("{}: also {fault}", input.name)).collect()
}
