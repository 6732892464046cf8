//! Numbers as text: arguments, and ticks of 25 ns as exact decimals.

/// Ticks of 25 ns in a microsecond.
pub const TICKS_PER_MICROSECOND: u64 = 40;

/// Ticks of 25 ns in a millisecond.
pub const TICKS_PER_MILLISECOND: u64 = 40_000;

/// Ticks of 25 ns in a minute.
pub const TICKS_PER_MINUTE: f64 = 2_400_000_000.0;

/// A 32-bit number, decimal or hexadecimal after 0x.
pub fn number(text: &str) -> Result<u32, String> {
    let (digits, radix) = match text.strip_prefix("0x").or(text.strip_prefix("0X")) {
        Some(digits) => (digits, 16),
        None => (text, 10),
    };
    if digits.is_empty() || !digits.chars().all(|digit| digit.is_digit(radix)) {
        return Err(format!("\"{}\" is not a number (decimal, or hexadecimal after 0x)", text.escape_debug()));
    }
    u32::from_str_radix(digits, radix).map_err(|_| format!("{text} is above 4,294,967,295"))
}

/// A whole number of ticks.
pub fn whole_ticks(text: &str) -> Result<u64, String> {
    if text.is_empty() || !text.bytes().all(|byte| byte.is_ascii_digit()) {
        return Err(format!("\"{}\" is not a time", text.escape_debug()));
    }
    text.parse().map_err(|_| too_long(text))
}

/// The ticks of microseconds, which may have a decimal point.
pub fn ticks_of_microseconds(text: &str) -> Result<u64, String> {
    let (whole, part) = text.split_once('.').unwrap_or((text, "0"));
    if part.is_empty() || !part.bytes().all(|byte| byte.is_ascii_digit()) {
        return Err(format!("\"{}\" is not a time", text.escape_debug()));
    }
    let whole = whole_ticks(whole)?.checked_mul(TICKS_PER_MICROSECOND).ok_or_else(|| too_long(text))?;
    let part = part.trim_end_matches('0');
    match format!("{part:0<3}").parse::<u64>() {
        Ok(thousandths) if part.len() <= 3 && thousandths.is_multiple_of(25) => {
            whole.checked_add(thousandths / 25).ok_or_else(|| too_long(text))
        }
        _ => Err(format!("{text} microseconds are no whole number of ticks of 0.025")),
    }
}

/// What is said of a time that no 64-bit number holds.
fn too_long(text: &str) -> String {
    format!("{text} is too long a time")
}

/// Ticks as microseconds, exactly: always three decimals.
pub fn microseconds(ticks: u64) -> String {
    format!("{}.{:03}", ticks / TICKS_PER_MICROSECOND, ticks % TICKS_PER_MICROSECOND * 25)
}

/// Ticks as milliseconds, exactly: always six decimals.
pub fn milliseconds(ticks: u64) -> String {
    format!("{}.{:06}", ticks / TICKS_PER_MILLISECOND, ticks % TICKS_PER_MILLISECOND * 25)
}

/// A number with a comma between each three digits.
pub fn grouped(number: u64) -> String {
    let digits = number.to_string();
    let mut text = String::new();
    for (index, digit) in digits.chars().enumerate() {
        if index > 0 && (digits.len() - index).is_multiple_of(3) {
            text.push(',');
        }
        text.push(digit);
    }
    text
}

/// A number of things, in words.
pub fn counted(number: u64, thing: &str) -> String {
    format!("{} {thing}{}", grouped(number), if number == 1 { "" } else { "s" })
}

/// Bytes as pairs of hexadecimal digits.
pub fn hexadecimal(bytes: &[u8]) -> String {
    let pairs: Vec<String> = bytes.iter().map(|byte| format!("{byte:02X}")).collect();
    pairs.join(" ")
}

#[cfg(test)]
mod tests {
    use super::*;

    #[test]
    fn numbers_are_decimal_or_hexadecimal() {
        assert_eq!(number("0"), Ok(0));
        assert_eq!(number("4294967295"), Ok(u32::MAX));
        assert_eq!(number("0xA7"), Ok(167));
        assert_eq!(number("0XffffFFFF"), Ok(u32::MAX));
        for text in ["", "0x", "+1", "-1", "1 ", "1_0", "0x+1", "A7", "٣"] {
            assert!(number(text).is_err_and(|message| message.contains("is not a number")), "{text}");
        }
        for text in ["4294967296", "0x100000000", "99999999999999999999999999"] {
            assert!(number(text).is_err_and(|message| message.ends_with("is above 4,294,967,295")), "{text}");
        }
    }

    #[test]
    fn times_are_ticks_or_microseconds() {
        for (text, ticks) in [("4", 160), ("4.000", 160), ("4.0", 160), ("0.025", 1), ("1638.425", 65_537), ("0.10000", 4)] {
            assert_eq!(ticks_of_microseconds(text), Ok(ticks), "{text}");
        }
        assert_eq!(whole_ticks("18446744073709551615"), Ok(u64::MAX));
        assert_eq!(ticks_of_microseconds("461168601842738790.375"), Ok(u64::MAX));
        for text in ["", ".", "4.", ".5", "-1", "+1", "1e3", "0.01", "0.0251", "1.0.0", "1.+5", "461168601842738790.4"] {
            assert!(whole_ticks(text).is_err() && ticks_of_microseconds(text).is_err(), "{text}");
        }
        assert!(whole_ticks("18446744073709551616").is_err() && ticks_of_microseconds("18446744073709551615").is_err());
    }

    #[test]
    fn ticks_read_back_from_microseconds() {
        for ticks in (0..1000).chain([65_536, 65_537, 4_294_967_295, u64::MAX]) {
            assert_eq!(ticks_of_microseconds(&microseconds(ticks)), Ok(ticks));
        }
        assert_eq!(milliseconds(8_000_001), "200.000025");
    }

    #[test]
    fn digits_are_grouped_by_three() {
        assert_eq!([0, 999, 1000, 1_234_567].map(grouped), ["0", "999", "1,000", "1,234,567"]);
    }
}
