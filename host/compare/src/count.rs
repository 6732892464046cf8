//! How often each number of refusal came up.

use std::collections::BTreeMap;
use std::fmt;

/// What is counted together.
#[derive(Debug)]
pub struct Kind {
    /// What all of them are called, and what one is.
    pub all: &'static str,
    pub one: &'static str,
    /// The numbers that are told, 0 for an answer.
    pub numbers: &'static [u32],
    /// Those among them that cannot come up.
    pub never: &'static [u32],
}

/// How many answers there were, by kind, by the number of their refusal.
#[derive(Clone, Debug)]
pub struct Count {
    tallies: Vec<Tally>,
}

#[derive(Clone, Debug)]
struct Tally {
    kind: &'static Kind,
    times: BTreeMap<u32, u64>,
}

impl Count {
    /// None of these kinds yet.
    pub fn new(kinds: &'static [Kind]) -> Count {
        let tally = |kind: &'static Kind| Tally { kind, times: kind.numbers.iter().map(|&number| (number, 0)).collect() };
        Count { tallies: kinds.iter().map(tally).collect() }
    }

    /// Counts an answer of a kind.
    pub fn note(&mut self, kind: usize, number: u32) {
        *self.tallies[kind].times.entry(number).or_default() += 1;
    }

    /// Counts what another one of the same kinds counts.
    pub fn add(&mut self, other: &Count) {
        for (mine, theirs) in self.tallies.iter_mut().zip(&other.tallies) {
            for (&number, times) in &theirs.times {
                *mine.times.entry(number).or_default() += times;
            }
        }
    }

    /// A line for each number that could and never did come up.
    pub fn missing(&self) -> Vec<String> {
        self.tallies.iter().flat_map(Tally::missing).collect()
    }

    /// A line for each number that cannot come up and did.
    pub fn wrong(&self) -> Vec<String> {
        self.tallies.iter().flat_map(Tally::wrong).collect()
    }
}

impl fmt::Display for Count {
    fn fmt(&self, f: &mut fmt::Formatter<'_>) -> fmt::Result {
        let lines: Vec<String> = self.tallies.iter().map(Tally::to_string).collect();
        write!(f, "{}", lines.join("\n"))
    }
}

impl Kind {
    /// Whether a number can come up.
    fn gives(&self, number: u32) -> bool {
        self.numbers.contains(&number) && !self.never.contains(&number)
    }
}

impl Tally {
    fn missing(&self) -> impl Iterator<Item = String> + '_ {
        let absent = self.times.iter().filter(|(&number, &times)| times == 0 && self.kind.gives(number));
        absent.map(|(number, _)| match number {
            0 => format!("no {} was answered", self.kind.one),
            _ => format!("no {} was refused with {number}", self.kind.one),
        })
    }

    fn wrong(&self) -> impl Iterator<Item = String> + '_ {
        let wrong = self.times.iter().filter(|(&number, &times)| times > 0 && !self.kind.gives(number));
        wrong.map(|(number, _)| format!("a {} was refused with {number}, which it never gives", self.kind.one))
    }
}

impl fmt::Display for Tally {
    fn fmt(&self, f: &mut fmt::Formatter<'_>) -> fmt::Result {
        let answered = self.times.get(&0).unwrap_or(&0);
        let refused = self.times.iter().filter(|(&number, _)| number != 0);
        let refused: Vec<String> = refused.map(|(number, times)| format!("{number}: {times}")).collect();
        let all: u64 = self.times.values().sum();
        write!(f, "{}: {all}, of them answered {answered}; refused with {}", self.kind.all, refused.join(", "))
    }
}

#[cfg(test)]
mod tests {
    use super::*;

    const KINDS: [Kind; 2] = [
        Kind { all: "calls", one: "call", numbers: &[0, 1, 2, 15], never: &[] },
        Kind { all: "rows (none is refused with 15)", one: "row", numbers: &[0, 1, 2, 15], never: &[15] },
    ];

    /// Each number that can come up once, in calls and in rows.
    fn all() -> Count {
        let mut count = Count::new(&KINDS);
        [0, 1, 2, 15].into_iter().for_each(|number| count.note(0, number));
        [0, 1, 2].into_iter().for_each(|number| count.note(1, number));
        count
    }

    #[test]
    fn a_number_that_never_came_up_is_named() {
        assert_eq!(all().missing(), [""; 0]);
        let mut count = Count::new(&KINDS);
        count.note(0, 0);
        count.note(1, 1);
        let calls = ["no call was refused with 1", "no call was refused with 2", "no call was refused with 15"];
        assert_eq!(count.missing(), [&calls[..], &["no row was answered", "no row was refused with 2"]].concat());
    }

    #[test]
    fn a_number_that_is_never_given_is_named() {
        assert_eq!(all().wrong(), [""; 0]);
        let mut count = all();
        count.note(0, 13);
        count.note(1, 15);
        let mut total = all();
        total.add(&count);
        assert_eq!(total.wrong(), ["a call was refused with 13, which it never gives", "a row was refused with 15, which it never gives"]);
        assert_eq!(total.missing(), [""; 0]);
    }

    #[test]
    fn every_number_is_printed() {
        let mut count = all();
        count.add(&all());
        let calls = "calls: 8, of them answered 2; refused with 1: 2, 2: 2, 15: 2";
        let rows = "rows (none is refused with 15): 6, of them answered 2; refused with 1: 2, 2: 2, 15: 0";
        assert_eq!(count.to_string(), format!("{calls}\n{rows}"));
    }
}
