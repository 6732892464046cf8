//! New flux for a revolution, as times in a text file.

use scp::{Reason, Refusal, ZERO_WORD_TICKS};

use crate::failure::Failure;
use crate::files::Input;
use crate::numbers::{ticks_of_microseconds, whole_ticks};
use crate::reasons;

/// The unit of all times of a file.
#[derive(Clone, Copy, PartialEq, Eq)]
pub enum Unit {
    /// Ticks of 25 ns, which are whole numbers.
    Ticks,
    /// Microseconds, with or without a decimal point.
    Microseconds,
}

/// What stands on each line of a file.
#[derive(Clone, Copy)]
enum Form {
    /// A time, and the word that closed it where that is said.
    Plain,
    /// An index and a time.
    Rows,
    /// An index, a time and the word that closed it.
    ClosedRows,
}

/// A line taken apart.
struct Parts<'a> {
    /// What stands before the time: an index, "open" or nothing.
    first: &'a str,
    /// The time.
    time: &'a str,
    /// The word after it, where there is a place for one.
    word: Option<&'a str>,
}

/// The times of a file, with their lines, and the zero words after them.
struct Times {
    unit: Unit,
    form: Form,
    ticks: Vec<u64>,
    lines: Vec<usize>,
    open_words: Option<u64>,
}

/// The words of a text with times, as bytes; a revolution of `most` words must have room for them.
pub fn words_of_times(input: &Input, unit: Unit, most: u32) -> Result<Vec<u8>, Failure> {
    let times = Times::parse(input, unit)?;
    let mut words = vec![0; 2 * most as usize];
    let made = scp::words(&times.ticks, &mut words);
    if let Err(refusal @ Refusal { reason: Reason::Time, position }) = made {
        let (ticks, line) = (times.ticks[position as usize], times.lines[position as usize]);
        return Err(input.failure(format!("line {line}: {}", reasons::of_time(ticks, refusal))));
    }
    let need = times.word_count();
    if need > u128::from(most) {
        return Err(input.failure(reasons::of_too_many_words(need, most)));
    }
    let size = made.map_err(|refusal| input.failure(refusal))?;
    words.truncate(size + 2 * times.open_words.unwrap_or(0) as usize);
    Ok(words)
}

impl Unit {
    /// The ticks of a time in this unit.
    fn ticks(self, text: &str) -> Result<u64, String> {
        match self {
            Unit::Microseconds => ticks_of_microseconds(text),
            Unit::Ticks if text.contains('.') => {
                Err(format!("\"{}\" is no whole number of ticks; --us is for microseconds", text.escape_debug()))
            }
            Unit::Ticks => whole_ticks(text),
        }
    }
}

impl Form {
    /// The form and the unit that a line of column names says, if it is one.
    fn of_columns(line: &str) -> Option<(Form, Unit)> {
        match line {
            "index,ticks" => Some((Form::Rows, Unit::Ticks)),
            "index,microseconds" => Some((Form::Rows, Unit::Microseconds)),
            "index,ticks,word" => Some((Form::ClosedRows, Unit::Ticks)),
            "index,microseconds,word" => Some((Form::ClosedRows, Unit::Microseconds)),
            _ => None,
        }
    }

    /// Takes a line apart, if it has as many columns as its form.
    fn parts(self, line: &str) -> Result<Parts<'_>, String> {
        let no_row = |columns| format!("\"{}\" is no row of {columns}", line.escape_debug());
        let (first, time, word) = match self {
            Form::Plain => {
                let (rest, word) = cut_word(line).map_or((line, None), |(rest, word)| (rest, Some(word)));
                let (first, time) = rest.split_once(char::is_whitespace).unwrap_or(("", rest));
                (first, time, word)
            }
            Form::Rows => {
                let (index, time) = line.split_once(',').ok_or_else(|| no_row("an index and a time"))?;
                (index, time, None)
            }
            Form::ClosedRows => {
                let (index, rest) = line.split_once(',').ok_or_else(|| no_row("an index, a time and a word"))?;
                match rest.rsplit_once(',') {
                    Some((time, word)) => (index, time, Some(word)),
                    // spreadsheets drop empty columns at the end of a row
                    None if index.trim() == "open" => (index, rest, None),
                    None => return Err(no_row("an index, a time and a word")),
                }
            }
        };
        Ok(Parts { first: first.trim(), time: time.trim(), word: word.map(str::trim) })
    }
}

impl Parts<'_> {
    /// Tests the word: a number after an interval, and none after the open time.
    fn test_word(&self) -> Result<(), String> {
        match (self.first, self.word) {
            (_, None) | ("open", Some("")) => Ok(()),
            ("open", Some(_)) => Err("no word closes the open time".to_string()),
            (_, Some(word)) if is_number(word) => Ok(()),
            (_, Some(word)) => Err(format!("\"{}\" is not the number of a word", word.escape_debug())),
        }
    }
}

impl Times {
    /// Reads the lines: a time each, or rows after the line that names their columns; at the end the open time.
    fn parse(input: &Input, unit: Unit) -> Result<Times, Failure> {
        let mut times = Times { unit, form: Form::Plain, ticks: Vec::new(), lines: Vec::new(), open_words: None };
        for (index, (number, line)) in input.lines().enumerate() {
            let line = line?;
            let added = match Form::of_columns(line) {
                Some((form, named)) if index == 0 => times.start_rows(form, named),
                _ => times.add(number, line),
            };
            added.map_err(|message| input.bad_line(number, message))?;
        }
        Ok(times)
    }

    /// Takes the next lines as rows of a form, if their times have the unit of the file.
    fn start_rows(&mut self, form: Form, named: Unit) -> Result<(), String> {
        self.form = form;
        match (named, self.unit) {
            (Unit::Ticks, Unit::Microseconds) => Err("these are ticks, but --us is given; leave it out".to_string()),
            (Unit::Microseconds, Unit::Ticks) => Err("these are microseconds; give --us, too".to_string()),
            _ => Ok(()),
        }
    }

    /// Adds what a line says; an index and a word are only tested to be numbers.
    fn add(&mut self, number: usize, line: &str) -> Result<(), String> {
        if self.open_words.is_some() {
            return Err("nothing can follow the open time".to_string());
        }
        let parts = self.form.parts(line)?;
        let ticks = self.unit.ticks(parts.time);
        match (parts.first, self.form) {
            ("open", _) => self.open_words = Some(zero_words(ticks?)?),
            ("", Form::Plain) => self.push(number, ticks?),
            (index, Form::Rows | Form::ClosedRows) if is_number(index) => self.push(number, ticks?),
            _ => return Err(format!("\"{}\" is not a time", line.escape_debug())),
        }
        parts.test_word()
    }

    /// Adds an interval and its line.
    fn push(&mut self, number: usize, ticks: u64) {
        self.ticks.push(ticks);
        self.lines.push(number);
    }

    /// How many words the times need, the open time among them.
    fn word_count(&self) -> u128 {
        let closed: u128 = self.ticks.iter().map(|ticks| u128::from(ticks / ZERO_WORD_TICKS) + 1).sum();
        closed + u128::from(self.open_words.unwrap_or(0))
    }
}

/// A plain line without the word that closed its time, and the number of that word, where it is said.
fn cut_word(line: &str) -> Option<(&str, &str)> {
    let (rest, number) = line.rsplit_once(char::is_whitespace)?;
    let (rest, name) = rest.trim_end().rsplit_once(char::is_whitespace)?;
    (name == "word").then_some((rest.trim_end(), number))
}

/// Whether an index or a word is a number.
fn is_number(text: &str) -> bool {
    whole_ticks(text).is_ok()
}

/// The zero words of an open time.
fn zero_words(ticks: u64) -> Result<u64, String> {
    match ticks % ZERO_WORD_TICKS {
        0 => Ok(ticks / ZERO_WORD_TICKS),
        _ => Err(format!("an open time of {ticks} ticks is no multiple of 65,536")),
    }
}
