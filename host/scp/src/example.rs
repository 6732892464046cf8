//! The images of the examples.

use crate::edition::Edition;

/// Image A of the rules: 712 bytes, one track of one revolution. It is valid by both editions.
///
/// ```
/// use scp::Edition;
///
/// let image = scp::example::image_a();
/// assert_eq!(image.len(), 712);
/// assert_eq!(Edition::ALL.map(|edition| scp::validate(&image, edition)), [Ok(()), Ok(())]);
/// ```
pub fn image_a() -> Vec<u8> {
    behind_table(Edition::V1_6, 980)
}

/// Image A as revision 1.4 lays it out: 704 bytes, the track at 0x2A8. It is valid by that edition alone.
///
/// ```
/// use scp::Edition;
///
/// let image = scp::example::image_a_1_4();
/// assert_eq!(image.len(), 704);
/// assert_eq!(Edition::ALL.map(|edition| scp::validate(&image, edition).is_ok()), [true, false]);
/// assert_eq!(scp::header(&image, Edition::V1_4)?.checksum, 972);
/// # Ok::<(), scp::Refusal>(())
/// ```
pub fn image_a_1_4() -> Vec<u8> {
    behind_table(Edition::V1_4, 972)
}

/// Image A with its track data header directly behind the table of an edition, and with the checksum that it then has.
fn behind_table(edition: Edition, checksum: u16) -> Vec<u8> {
    let table_end = edition.table_end();
    let mut image = vec![0; table_end];
    image[..9].copy_from_slice(b"SCP\x16\x00\x01\x00\x00\x01");
    image[0x0C..0x0E].copy_from_slice(&checksum.to_le_bytes());
    image[0x10..0x12].copy_from_slice(&(table_end as u16).to_le_bytes());
    image.extend_from_slice(b"TRK\x00");
    image.extend_from_slice(&[0x00, 0x12, 0x7A, 0x00, 0x04, 0x00, 0x00, 0x00, 0x10, 0x00, 0x00, 0x00]);
    image.extend_from_slice(&[0x00, 0xA0, 0x00, 0x00, 0x00, 0x01, 0x00, 0xF0]);
    image
}
