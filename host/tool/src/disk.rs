//! `fluxproof dsk`: standard DSK disk images.

mod contents;
mod dump;
mod faults;
mod layout;
mod list;
mod make;
mod notes;
mod reasons;
mod sector;
mod show;
mod validate;

use crate::arguments::Command;

/// All commands, in the order of the help.
pub const COMMANDS: [Command; 5] = [list::COMMAND, validate::COMMAND, show::COMMAND, sector::COMMAND, make::COMMAND];
