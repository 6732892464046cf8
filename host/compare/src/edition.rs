//! The numbers that name an edition across the boundary: 14 is revision 1.4, every other one 1.6.

use crate::random::Random;
use scp::Edition;
use scp_reader as reader;

/// The number of revision 1.4, and the one that stands for revision 1.6.
pub const V1_4: u32 = 14;
pub const V1_6: u32 = 16;

/// More numbers of revision 1.6: small ones, ones with the bits of 14 somewhere, and the largest.
const ALSO_1_6: [u32; 10] = [0, 1, 13, 15, 30, 14 + (1 << 8), 14 + (1 << 16), 14 << 24, 14 + (1 << 31), u32::MAX];

/// Such numbers that only a row has room for.
const ALSO_1_6_IN_ROWS: [u64; 5] = [14 + (1 << 32), 14 << 32, 14 + (1 << 63), u64::MAX - 1, u64::MAX];

/// The edition that the number of a single call names.
pub fn named(number: u32) -> reader::Edition {
    if is_1_4(number.into()) {
        reader::Edition::V1_4
    } else {
        reader::Edition::V1_6
    }
}

/// Whether the number, of a single call or of a row, names revision 1.4.
pub fn is_1_4(number: u64) -> bool {
    number == u64::from(V1_4)
}

/// The edition that the number of a row names.
pub fn of_row(number: u64) -> Edition {
    if is_1_4(number) {
        Edition::V1_4
    } else {
        Edition::V1_6
    }
}

/// Whether the image opens by an edition: none of 1 to 11 and 19 refuses it.
pub fn opens(image: &[u8], edition: Edition) -> bool {
    scp::header(image, edition).is_ok()
}

/// The editions that the image opens by.
pub fn opening(image: &[u8]) -> Vec<Edition> {
    Edition::ALL.into_iter().filter(|&edition| opens(image, edition)).collect()
}

/// A number that names the edition: of revision 1.4 the only one, of 1.6 now and then another than 16.
pub fn some_number(edition: Edition, random: &mut Random) -> u32 {
    match edition {
        Edition::V1_4 => V1_4,
        Edition::V1_6 if random.once_in(3) => random.pick(&ALSO_1_6),
        Edition::V1_6 => V1_6,
    }
}

/// The same for a row.
pub fn some_row_number(edition: Edition, random: &mut Random) -> u64 {
    match edition {
        Edition::V1_6 if random.once_in(4) => random.pick(&ALSO_1_6_IN_ROWS),
        _ => some_number(edition, random).into(),
    }
}

#[cfg(test)]
mod tests {
    use super::*;

    #[test]
    fn every_number_but_14_is_1_6() {
        assert_eq!(Edition::ALL.map(Edition::number), [V1_4, V1_6]);
        assert!(is_1_4(14) && named(14) == reader::Edition::V1_4);
        assert!(ALSO_1_6.into_iter().chain([V1_6]).all(|number| named(number) == reader::Edition::V1_6));
        assert!(!ALSO_1_6_IN_ROWS.into_iter().any(is_1_4));
    }

    #[test]
    fn a_number_by_chance_names_its_edition() {
        let mut random = Random::new(6);
        for _ in 0..1000 {
            for edition in Edition::ALL {
                let old = edition == Edition::V1_4;
                let row = some_row_number(edition, &mut random);
                assert_eq!((is_1_4(some_number(edition, &mut random).into()), is_1_4(row), of_row(row)), (old, old, edition));
            }
        }
    }
}
