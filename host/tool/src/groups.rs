//! The commands by their names: those for SCP images, and after a word of their own those for DSK images.

use std::ffi::OsString;
use std::io::Write;

use crate::arguments::{suggestion, Arguments, Command};
use crate::failure::{Failure, Status};
use crate::files::shown;
use crate::{disk, list, patch, plot, read, replay, show, validate};

/// Commands with the same word before them, or none.
struct Group {
    /// That word; empty for none.
    word: &'static str,
    /// The commands, in the order of the help.
    commands: &'static [Command],
    /// The help of all of them.
    help: &'static str,
}

/// The commands for SCP images; the help is that of the whole tool.
static SCP: Group = Group {
    word: "",
    commands: &[list::COMMAND, validate::COMMAND, show::COMMAND, read::COMMAND, patch::COMMAND, replay::COMMAND, plot::COMMAND],
    help: include_str!("help/fluxproof.txt"),
};

/// The commands for DSK images.
static DSK: Group = Group { word: "dsk", commands: &disk::COMMANDS, help: include_str!("help/dsk.txt") };

/// Does what the words ask for.
pub fn obey(mut words: Vec<OsString>, out: &mut dyn Write) -> Result<(), Failure> {
    let group = if words.first().is_some_and(|word| word == DSK.word) { &DSK } else { &SCP };
    if !group.word.is_empty() {
        words.remove(0);
    }
    group.obey(words, out)
}

impl Group {
    /// Finds what the first word asks for, and does it.
    fn obey(&self, mut words: Vec<OsString>, out: &mut dyn Write) -> Result<(), Failure> {
        if words.is_empty() {
            return Err(self.usage("no command is given"));
        }
        let first = words.remove(0);
        match first.to_string_lossy().as_ref() {
            "--help" | "-h" => Ok(out.write_all(self.help.as_bytes())?),
            "help" => Ok(out.write_all(self.help_of(&words)?.as_bytes())?),
            name => run(self.find(name)?, words, out),
        }
    }

    /// The failure that wrong words are, with where to look.
    fn usage(&self, message: impl std::fmt::Display) -> Failure {
        Failure::usage(match self.word {
            "" => format!("{message}; see \"fluxproof --help\""),
            word => format!("{word}: {message}; see \"fluxproof help {word}\""),
        })
    }

    /// The command of a name.
    fn find(&self, name: &str) -> Result<&Command, Failure> {
        self.commands.iter().find(|command| self.bare_name(command) == name).ok_or_else(|| {
            let commands = self.commands.iter().map(|command| self.bare_name(command));
            let names: Vec<&str> = if self.word.is_empty() { commands.chain([DSK.word]).collect() } else { commands.collect() };
            let (kind, hint) = (if name.starts_with('-') { "option" } else { "command" }, suggestion(name, &names));
            self.usage(format!("unknown {kind} \"{}\"{hint}", shown(name)))
        })
    }

    /// The name of a command after the word.
    fn bare_name(&self, command: &Command) -> &'static str {
        command.name.strip_prefix(self.word).unwrap_or(command.name).trim_start()
    }

    /// The help of a command, or of the whole group.
    fn help_of(&self, words: &[OsString]) -> Result<&str, Failure> {
        match words {
            [] => Ok(self.help),
            [name] if name == "help" || name == "--help" || name == "-h" => Ok(self.help),
            [word, rest @ ..] if self.word.is_empty() && word == DSK.word => DSK.help_of(rest),
            [name] => Ok(self.find(&name.to_string_lossy())?.help),
            _ => Err(self.usage("help takes one command")),
        }
    }
}

/// Runs a command, or prints its help where its words ask for that.
fn run(command: &Command, words: Vec<OsString>, out: &mut dyn Write) -> Result<(), Failure> {
    let done = match Arguments::parse(command, words) {
        Ok(Some(arguments)) => (command.run)(&arguments, out),
        Ok(None) => Ok(out.write_all(command.help.as_bytes())?),
        Err(failure) => Err(failure),
    };
    done.map_err(|failure| match failure {
        Failure::Told(Status::Usage, message) => {
            Failure::usage(format!("{}: {message}; see \"fluxproof help {}\"", command.name, command.name))
        }
        other => other,
    })
}
