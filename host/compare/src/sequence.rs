//! Sequences of calls, three ways: by the reader, by the library in one go, and by the library call by call.

use crate::difference::{after, same, same_code, same_list, Difference};
use crate::guarded::Guarded;
use crate::question::Agreed;
use scp::raw;
use scp_reader as reader;

/// Numbers of a call, and of an answer.
pub const CALL: usize = 7;
pub const ANSWER: usize = 16;

/// Which numbers of a call name its duration, the start and the length of its words, and its edition.
pub const DURATION: usize = 3;
pub const START: usize = 4;
pub const LENGTH: usize = 5;
pub const EDITION: usize = 6;

/// The kind of a call that rewrites.
pub const REWRITE: u64 = 8;

/// Calls, and their words.
pub type Calls = (Vec<u64>, Vec<u8>);

/// What stands in the places for answers before the call.
const NUMBER: u64 = 0xA1A2_A3A4_A5A6_A7A8;
const BYTE: u8 = 0x5B;

/// What a sequence comes to: the number of its refusal, 0 for none, a row of answers for each call where it is not refused, and the image.
pub struct Ran {
    pub number: u32,
    pub answers: Vec<u64>,
    pub image: Vec<u8>,
}

/// Runs the calls all three ways; gives the number of the refusal, and that of each row.
pub fn compare(bytes: &[u8], calls: &[u64], words: &[u8], places: usize) -> Result<Agreed, Difference> {
    let ran = run(bytes, calls, words, places)?;
    Ok(Agreed { number: ran.number, rows: numbers(&ran.answers) })
}

/// The number of the refusal of each row of answers, 0 for none.
pub fn numbers(answers: &[u64]) -> Vec<u32> {
    answers.chunks_exact(ANSWER).map(|row| row[0] as u32).collect()
}

/// Runs the calls all three ways, and compares codes, answers and images.
pub fn run(bytes: &[u8], calls: &[u64], words: &[u8], places: usize) -> Result<Ran, Difference> {
    let mut wanted = bytes.to_vec();
    let mut answers = vec![NUMBER; places];
    let expected = reader::replay(&mut wanted, calls, words, &mut answers);

    let mut image = Guarded::new(bytes, BYTE);
    let mut lent_answers = Guarded::new(&vec![NUMBER; places], NUMBER);
    let (lent_calls, lent_words) = (Guarded::new(calls, NUMBER), Guarded::new(words, BYTE));
    let got = raw::replay(image.lent(), lent_calls.contents(), lent_words.contents(), lent_answers.lent());
    let number = same_code(&expected, got)?;
    same("the image after replay", &image, &wanted)?;
    same("the answers of replay", &lent_answers, &answers)?;
    same("the calls", &lent_calls, calls)?;
    same("the words", &lent_words, words)?;

    let mut ran = Ran { number, answers: Vec::new(), image: wanted };
    if expected.is_ok() {
        let mut image = Guarded::new(bytes, BYTE);
        ran.answers.extend(calls.chunks_exact(CALL).flat_map(|call| one_by_one(image.lent(), call, words)));
        same("the image after single calls", &image, &ran.image)?;
        same_list("the answers of single calls", &after(NUMBER, places, &ran.answers), &answers)?;
    }
    Ok(ran)
}

/// Edition, track and revolution of a call. A number above 32 bits counts as the largest of them; as an edition both are 1.6.
pub fn arguments(call: &[u64]) -> [u32; 3] {
    [call[EDITION], call[1], call[2]].map(|number| number.min(u64::from(u32::MAX)) as u32)
}

/// The words of a call, as far as they are there.
pub fn words_of<'a>(call: &[u64], words: &'a [u8]) -> &'a [u8] {
    let start = call[START].min(words.len() as u64);
    let end = start + call[LENGTH].min(words.len() as u64 - start);
    &words[start as usize..end as usize]
}

/// The row that one call by itself answers.
fn one_by_one(image: &mut [u8], call: &[u64], words: &[u8]) -> [u64; ANSWER] {
    let [edition, track, revolution] = arguments(call);
    let mut values = [0; ANSWER - 2];
    let code = match call[0] {
        1 => raw::header(image, edition, &mut values[..9]),
        2 => raw::footer(image, edition, &mut values[..13]),
        3 => raw::track(image, edition, track, &mut values[..4]),
        4 => raw::revolution(image, edition, track, revolution, &mut values[..3]),
        5 => flux(image, arguments(call), &mut values),
        6 => floats::<2>(&mut values, |out| raw::speed(image, edition, track, revolution, out)),
        7 => floats::<3>(&mut values, |out| raw::track_speed(image, edition, track, out)),
        REWRITE => raw::rewrite(image, edition, track, revolution, call[DURATION] as u32, words_of(call, words)),
        _ => raw::validate(image, edition),
    };
    let mut row = [0; ANSWER];
    row[..2].copy_from_slice(&[code % 256, code / 256]);
    row[2..].copy_from_slice(&values);
    row
}

/// The flux of a revolution as its file offset, how many bytes and their sum.
fn flux(image: &[u8], of: [u32; 3], values: &mut [u64]) -> u64 {
    match held(image, of) {
        Ok(([_, _, offset], bytes)) => {
            let sum = bytes.iter().fold(0u32, |sum, &byte| sum.wrapping_add(byte.into()));
            values[..3].copy_from_slice(&[offset, bytes.len() as u64, sum.into()]);
            0
        }
        Err(code) => code,
    }
}

/// What a revolution holds: its duration, how many words, their file offset, and their bytes; or the code of the refusal.
pub fn held(image: &[u8], [edition, track, revolution]: [u32; 3]) -> Result<([u64; 3], Vec<u8>), u64> {
    let mut found = [0; 3];
    let code = raw::revolution(image, edition, track, revolution, &mut found);
    if code != 0 {
        return Err(code);
    }
    let mut bytes = vec![0; 2 * found[1] as usize];
    match raw::flux(image, edition, track, revolution, &mut bytes) {
        0 => Ok((found, bytes)),
        code => Err(code),
    }
}

/// Floats as 1 or 0, and bit patterns.
fn floats<const N: usize>(values: &mut [u64], call: impl FnOnce(&mut [f64]) -> u64) -> u64 {
    let mut out = [0.0; N];
    let code = call(&mut out);
    values[0] = u64::from(out[0] == 1.0);
    for (value, float) in values.iter_mut().zip(out).skip(1) {
        *value = float.to_bits();
    }
    code
}
