//! What the tests share: bytes set in an image, images of many revolutions, a refusal.

use scp_reader::Refusal;

/// Sets bytes of an image.
pub fn put(image: &mut [u8], place: usize, bytes: &[u8]) {
    image[place..place + bytes.len()].copy_from_slice(bytes);
}

/// Sets a revolution's duration, count and distance.
pub fn put_revolution(image: &mut [u8], place: usize, fields: [u32; 3]) {
    for (index, field) in fields.iter().enumerate() {
        put(image, place + 4 * index, &field.to_le_bytes());
    }
}

/// A read-only image of track 0 alone, whose revolution k has duration k and the one word k + 1.
/// Track data header at this place, 4 + 12R bytes; then the flux, 2 bytes for each revolution; the checksum is right.
pub fn revolutions_of_track_0(place: u32, count: u8) -> Vec<u8> {
    let length = 4 + 12 * u32::from(count);
    let start = place as usize;
    let mut image = vec![0; start + length as usize];
    put(&mut image, 0, &[b'S', b'C', b'P', 0x16, 0, count]);
    put(&mut image, 0x10, &place.to_le_bytes());
    put(&mut image, start, b"TRK\x00");
    for number in 0..count {
        let fields = [u32::from(number), 1, length + 2 * u32::from(number)];
        put_revolution(&mut image, start + 4 + 12 * usize::from(number), fields);
        image.extend([0, number + 1]);
    }
    let sum: u32 = image[0x10..].iter().map(|&byte| u32::from(byte)).sum();
    put(&mut image, 0x0C, &sum.to_le_bytes());
    image
}

/// A refusal.
pub fn refused<T>(number: u32, position: u64) -> Result<T, Refusal> {
    Err(Refusal { number, position })
}
