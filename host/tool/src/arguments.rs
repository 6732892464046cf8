//! The words of a command line, taken apart into operands and options.

use std::ffi::{OsStr, OsString};
use std::io::Write;

use scp::Edition;

use crate::editions;
use crate::failure::Failure;
use crate::files::shown;
use crate::numbers::number;

/// A command of the tool.
pub struct Command {
    /// Its name.
    pub name: &'static str,
    /// Its options that stand alone.
    pub flags: &'static [&'static str],
    /// Its options that take a value.
    pub values: &'static [&'static str],
    /// The text of its help.
    pub help: &'static str,
    /// What it does, with what it says.
    pub run: fn(&Arguments, &mut dyn Write) -> Result<(), Failure>,
}

/// The operands and options of a command line.
#[derive(Default)]
pub struct Arguments {
    /// The operands in order.
    pub operands: Vec<OsString>,
    /// Each option with its value, empty for a flag.
    options: Vec<(&'static str, OsString)>,
}

impl Arguments {
    /// Takes the words apart, or finds that help is asked for.
    pub fn parse(command: &Command, words: Vec<OsString>) -> Result<Option<Arguments>, Failure> {
        let mut arguments = Arguments::default();
        let mut words = words.into_iter();
        while let Some(word) = words.next() {
            match word.to_str() {
                Some("--help" | "-h") => return Ok(None),
                Some("--") => arguments.operands.extend(words.by_ref()),
                Some(option) if option.starts_with('-') && option != "-" => arguments.option(command, option, &mut words)?,
                None if word.as_encoded_bytes().starts_with(b"-") => {
                    return Err(Failure::usage(format!("\"{}\" is not UTF-8: give a value as a word of its own", shown(&word))));
                }
                _ => arguments.operands.push(word),
            }
        }
        Ok(Some(arguments))
    }

    /// Takes an option, and its value after "=" or as the next word.
    fn option(&mut self, command: &Command, word: &str, words: &mut dyn Iterator<Item = OsString>) -> Result<(), Failure> {
        let (given, attached) = match word.split_once('=') {
            Some((given, value)) => (given, Some(OsString::from(value))),
            None => (word, None),
        };
        let known = |names: &[&'static str]| names.iter().copied().find(|&name| name == given);
        let (name, value) = match (known(command.flags), known(command.values)) {
            (Some(name), _) if attached.is_none() => (name, OsString::new()),
            (Some(name), _) => return Err(Failure::usage(format!("{name} takes no value"))),
            (None, Some(name)) => {
                let value = attached.or_else(|| words.next());
                (name, value.ok_or_else(|| Failure::usage(format!("{name} needs a value")))?)
            }
            (None, None) => {
                let names: Vec<&str> = [command.flags, command.values].concat();
                return Err(Failure::usage(format!("unknown option \"{}\"{}", shown(given), suggestion(given, &names))));
            }
        };
        if self.value(name).is_some() {
            return Err(Failure::usage(format!("{name} is given twice")));
        }
        self.options.push((name, value));
        Ok(())
    }

    /// The operands, if they are as many as the names.
    pub fn operands<const N: usize>(&self, names: [&str; N]) -> Result<[&OsStr; N], Failure> {
        if let Some(missing) = names.get(self.operands.len()) {
            return Err(Failure::usage(format!("{missing} is missing")));
        }
        if let Some(extra) = self.operands.get(N) {
            return Err(Failure::usage(format!("unexpected argument \"{}\" after {}", shown(extra), names.join(" "))));
        }
        Ok(std::array::from_fn(|index| self.operands[index].as_os_str()))
    }

    /// Whether a flag is given.
    pub fn has(&self, flag: &str) -> bool {
        self.value(flag).is_some()
    }

    /// The value of an option, if it is given.
    pub fn value(&self, name: &str) -> Option<&OsStr> {
        self.options.iter().find(|(option, _)| *option == name).map(|(_, value)| value.as_os_str())
    }

    /// The number that an option is, or another one where it is not given.
    pub fn number_or(&self, name: &str, other: u32) -> Result<u32, Failure> {
        self.value(name).map_or(Ok(other), |text| number_of(name, text))
    }

    /// The edition that --edition names, or 1.6 where it is not given.
    pub fn edition(&self) -> Result<Edition, Failure> {
        let Some(name) = self.value("--edition") else { return Ok(Edition::V1_6) };
        editions::named(&name.to_string_lossy()).map_err(|message| Failure::usage(format!("--edition: {message}")))
    }
}

/// The number that an argument is.
pub fn number_of(name: &str, text: &OsStr) -> Result<u32, Failure> {
    number(&text.to_string_lossy()).map_err(|message| Failure::usage(format!("{name}: {message}")))
}

/// The numbers of a track and a revolution.
pub fn place_of(track: &OsStr, revolution: &OsStr) -> Result<(u32, u32), Failure> {
    Ok((number_of("TRACK", track)?, number_of("REV", revolution)?))
}

/// A hint at the name that is nearest to a wrong one, if any is near.
pub fn suggestion(given: &str, names: &[&str]) -> String {
    let near = names.iter().map(|name| (distance(given, name), name)).min();
    match near {
        Some((distance, name)) if distance <= 2 && distance < name.len() => format!(" (did you mean \"{name}\"?)"),
        _ => String::new(),
    }
}

/// How many letters must be put in, taken out or changed to make one word the other.
fn distance(left: &str, right: &str) -> usize {
    let right: Vec<char> = right.chars().collect();
    let mut row: Vec<usize> = (0..=right.len()).collect();
    for (above, letter) in left.chars().enumerate() {
        let mut corner = above;
        let mut last = above + 1;
        for (place, &other) in row.iter_mut().skip(1).zip(&right) {
            let here = (corner + usize::from(letter != other)).min(last + 1).min(*place + 1);
            corner = std::mem::replace(place, here);
            last = here;
        }
        row[0] = above + 1;
    }
    row.last().copied().unwrap_or_default()
}

#[cfg(test)]
mod tests {
    use super::*;

    #[test]
    fn distances_count_letters() {
        for (left, right, count) in
            [("", "", 0), ("", "abc", 3), ("abc", "", 3), ("lst", "list", 1), ("sohw", "show", 2), ("plot", "plot", 0)]
        {
            assert_eq!(distance(left, right), count, "{left} {right}");
        }
    }

    #[test]
    fn only_near_names_are_suggested() {
        assert_eq!(suggestion("lisst", &["list", "show"]), " (did you mean \"list\"?)");
        assert_eq!(suggestion("frobnicate", &["list", "show"]), "");
    }
}
