//! Parts of a file, which may be too short for them.

/// The bytes from an offset on, where the file has so many.
pub fn part(file: &[u8], offset: u64, size: u64) -> Option<&[u8]> {
    let (start, end) = (usize::try_from(offset).ok()?, usize::try_from(offset.checked_add(size)?).ok()?);
    file.get(start..end)
}

/// As many bytes from an offset on, where the file has them.
pub fn array<const N: usize>(file: &[u8], offset: u64) -> Option<[u8; N]> {
    part(file, offset, N as u64)?.try_into().ok()
}
