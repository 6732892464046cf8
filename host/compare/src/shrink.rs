//! A smaller input that still shows a difference.

use crate::ask::Ask;

/// How many smaller inputs are tried at most.
const TRIES: usize = 20_000;

/// Makes bytes and question smaller as long as the two still differ.
pub fn smallest<Q: Ask>(bytes: &[u8], question: &Q) -> (Vec<u8>, Q) {
    let mut found = Shrinking { bytes: bytes.to_vec(), question: question.clone(), left: TRIES };
    while found.left > 0 && (found.fewer_parts() | found.shorter() | found.plainer()) {}
    (found.bytes, found.question)
}

/// The smallest so far, and how many tries are left.
struct Shrinking<Q> {
    bytes: Vec<u8>,
    question: Q,
    left: usize,
}

impl<Q: Ask> Shrinking<Q> {
    /// Takes the candidate if the two differ on it, too.
    fn take(&mut self, bytes: Vec<u8>, question: Q) -> bool {
        if self.left == 0 {
            return false;
        }
        self.left -= 1;
        let differs = question.compare(&bytes).is_err();
        if differs {
            (self.bytes, self.question) = (bytes, question);
        }
        differs
    }

    /// Leaves out parts of the question.
    fn fewer_parts(&mut self) -> bool {
        let mut any = false;
        let mut part = 0;
        while let Some(question) = self.question.without(part) {
            if self.take(self.bytes.clone(), question) {
                any = true;
            } else {
                part += 1;
            }
        }
        any
    }

    /// Cuts bytes off the end.
    fn shorter(&mut self) -> bool {
        let mut any = false;
        let mut cut = self.bytes.len();
        while cut > 0 {
            let shorter = self.bytes[..self.bytes.len().saturating_sub(cut)].to_vec();
            if shorter.len() < self.bytes.len() && self.take(shorter, self.question.clone()) {
                any = true;
            } else {
                cut /= 2;
            }
        }
        any
    }

    /// Sets parts to zeros, long ones first.
    fn plainer(&mut self) -> bool {
        let mut any = false;
        let mut size = self.bytes.len();
        while size > 0 {
            for start in (0..self.bytes.len()).step_by(size) {
                let end = (start + size).min(self.bytes.len());
                if self.bytes[start..end].iter().any(|&byte| byte != 0) {
                    let mut plainer = self.bytes.clone();
                    plainer[start..end].fill(0);
                    any |= self.take(plainer, self.question.clone());
                }
            }
            size /= 2;
        }
        any
    }
}

/// Bytes as text: the length, then each line of 16 that is not all zeros.
pub fn dump(bytes: &[u8]) -> String {
    let mut text = format!("{} bytes, zeros but for:\n", bytes.len());
    for (row, line) in bytes.chunks(16).enumerate() {
        if line.iter().any(|&byte| byte != 0) {
            let digits: Vec<String> = line.iter().map(|byte| format!("{byte:02X}")).collect();
            text += &format!("  {:#06x}: {}\n", 16 * row, digits.join(" "));
        }
    }
    text
}
