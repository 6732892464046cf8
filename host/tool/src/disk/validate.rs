//! `fluxproof dsk validate`: whether images obey the rules, a line for each.

use std::io::Write;

use super::faults::Standard;
use crate::arguments::{Arguments, Command};
use crate::failure::Failure;
use crate::validate::each_file;

/// The command.
pub const COMMAND: Command =
    Command { name: "dsk validate", flags: &["--all"], values: &[], help: include_str!("../help/dsk/validate.txt"), run };

/// Validates each file as a DSK image.
fn run(arguments: &Arguments, out: &mut dyn Write) -> Result<(), Failure> {
    each_file(arguments, Standard, out)
}
