//! Bytes as a hexadecimal dump.

use std::io::{self, Write};

/// How many bytes a line has.
const WIDTH: usize = 16;

/// A line for each 16 bytes: the offset of the first, their hexadecimal digits, and the letters of those that are printable ASCII.
pub fn say(bytes: &[u8], out: &mut dyn Write) -> io::Result<()> {
    for (offset, row) in (0..).step_by(WIDTH).zip(bytes.chunks(WIDTH)) {
        write!(out, "{offset:04X} ")?;
        for place in 0..WIDTH {
            let gap = if place == WIDTH / 2 { " " } else { "" };
            match row.get(place) {
                Some(byte) => write!(out, "{gap} {byte:02X}")?,
                None => write!(out, "{gap}   ")?,
            }
        }
        let letter = |&byte: &u8| if matches!(byte, b' '..=b'~') { char::from(byte) } else { '.' };
        writeln!(out, "  |{}|", row.iter().map(letter).collect::<String>())?;
    }
    Ok(())
}

#[cfg(test)]
mod tests {
    use super::say;

    #[test]
    fn rows_have_16_bytes() {
        let mut out = Vec::new();
        say(b"\0 Aa~\x7F\x80\xFF\r\n\x1B[31m|#", &mut out).expect("memory");
        let first = "0000  00 20 41 61 7E 7F 80 FF  0D 0A 1B 5B 33 31 6D 7C  |. Aa~......[31m||\n";
        let last = format!("0010  23{}  |#|\n", " ".repeat(46));
        assert_eq!(String::from_utf8(out).expect("ASCII"), first.to_string() + &last);
        let mut none = Vec::new();
        say(b"", &mut none).expect("memory");
        assert!(none.is_empty());
    }
}
