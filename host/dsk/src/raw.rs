//! The five functions of the archive, as `include/dsk.h` declares them: each returns 0, or a refusal's number + 256 x its position.
//!
//! This is the only module with `unsafe` code. Its functions are safe, since a slice's pointer and length are what the archive wants.

use crate::Layout;

mod archive {
    extern "C" {
        pub fn dsk_validate(image: *const u8, size: usize) -> u64;
        pub fn dsk_geometry(image: *const u8, size: usize, out: *mut u64, places: usize) -> u64;
        pub fn dsk_block(image: *const u8, size: usize, track: u32, side: u32, out: *mut u64, places: usize) -> u64;
        pub fn dsk_sector(image: *const u8, size: usize, track: u32, side: u32, index: u32, out: *mut u64, places: usize) -> u64;
        pub fn dsk_write(
            creator: *const u8,
            creator_size: usize,
            tracks: u32,
            sides: u32,
            sectors: u32,
            code: u32,
            gap: u32,
            filler: u32,
            data: *const u8,
            data_size: usize,
            image: *mut u8,
            size: usize,
            out: *mut u64,
            places: usize,
        ) -> u64;
    }
}

/// Refusals 30 to 35.
pub fn validate(image: &[u8]) -> u64 {
    // SAFETY: pointer and length are those of a slice, lent for the call.
    unsafe { archive::dsk_validate(image.as_ptr(), image.len()) }
}

/// Tracks, sides, track size: 3 numbers.
pub fn geometry(image: &[u8], out: &mut [u64]) -> u64 {
    // SAFETY: pointers and lengths are those of slices, lent for the call and apart from each other.
    unsafe { archive::dsk_geometry(image.as_ptr(), image.len(), out.as_mut_ptr(), out.len()) }
}

/// Sectors, size code, gap, filler: 4 numbers.
pub fn block(image: &[u8], track: u32, side: u32, out: &mut [u64]) -> u64 {
    // SAFETY: as in `geometry`.
    unsafe { archive::dsk_block(image.as_ptr(), image.len(), track, side, out.as_mut_ptr(), out.len()) }
}

/// C, H, R, N, ST1, ST2, file offset and length of the data: 8 numbers.
pub fn sector(image: &[u8], track: u32, side: u32, index: u32, out: &mut [u64]) -> u64 {
    // SAFETY: as in `geometry`.
    unsafe { archive::dsk_sector(image.as_ptr(), image.len(), track, side, index, out.as_mut_ptr(), out.len()) }
}

/// Writes an image to the start of `image`; its length to `out`: 1 number.
pub fn write(creator: &[u8], layout: Layout, data: &[u8], image: &mut [u8], out: &mut [u64]) -> u64 {
    let Layout { tracks, sides, sectors, size_code, gap, filler } = layout;
    // SAFETY: as in `geometry`.
    unsafe {
        archive::dsk_write(
            creator.as_ptr(),
            creator.len(),
            tracks,
            sides,
            sectors,
            size_code,
            gap,
            filler,
            data.as_ptr(),
            data.len(),
            image.as_mut_ptr(),
            image.len(),
            out.as_mut_ptr(),
            out.len(),
        )
    }
}
