//! Text in UTF-8, read by decoding it as the Unicode Standard distributes the bits of a value over its bytes.

/// The rules, Q-7: how many bytes come before the place where the text stops being well-formed UTF-8; all of them where it does not.
pub fn valid_up_to(text: &[u8]) -> usize {
    let mut valid = 0;
    while let Some(length) = text.get(valid..).and_then(character) {
        valid += length;
    }
    valid
}

/// The Unicode Standard, UTF-8: how many bytes the first character takes; none where there is no character, or it is not well-formed.
fn character(text: &[u8]) -> Option<usize> {
    let (&first, rest) = text.split_first()?;
    let ones = first.leading_ones();
    let length = match ones {
        0 => 1,
        2..=4 => ones as usize,
        _ => return None,
    };
    let mut value = u32::from(first & (0xFF >> ones));
    for &byte in rest.get(..length - 1)? {
        if byte.leading_ones() != 1 {
            return None;
        }
        value = (value << 6) | u32::from(byte & 0x3F);
    }
    let surrogate = (0xD800..=0xDFFF).contains(&value);
    (value >= least(length) && value <= 0x10_FFFF && !surrogate).then_some(length)
}

/// The Unicode Standard, UTF-8: the least value of this length; 1, 2 and 3 bytes hold all values of 7, 11 and 16 bits.
fn least(length: usize) -> u32 {
    match length {
        2 => 1 << 7,
        3 => 1 << 11,
        4 => 1 << 16,
        _ => 0,
    }
}
