//! The twenty-one functions of the archive, as `include/scp.h` declares them: each returns 0, or a refusal's number + 256 x its position.
//! An edition is a number: 14 is revision 1.4, every other one 1.6.
//!
//! This is the only module with `unsafe` code. Its functions are safe, since a slice's pointer and length are what the archive wants.

mod archive {
    extern "C" {
        pub fn scp_validate(image: *const u8, size: usize, edition: u32) -> u64;
        pub fn scp_header(image: *const u8, size: usize, edition: u32, out: *mut u64, places: usize) -> u64;
        pub fn scp_footer(image: *const u8, size: usize, edition: u32, out: *mut u64, places: usize) -> u64;
        pub fn scp_track(image: *const u8, size: usize, edition: u32, track: u32, out: *mut u64, places: usize) -> u64;
        pub fn scp_revolution(
            image: *const u8,
            size: usize,
            edition: u32,
            track: u32,
            revolution: u32,
            out: *mut u64,
            places: usize,
        ) -> u64;
        pub fn scp_flux(image: *const u8, size: usize, edition: u32, track: u32, revolution: u32, out: *mut u8, places: usize) -> u64;
        pub fn scp_flux_part(
            image: *const u8,
            size: usize,
            edition: u32,
            track: u32,
            revolution: u32,
            out: *mut u64,
            places: usize,
        ) -> u64;
        pub fn scp_speed(image: *const u8, size: usize, edition: u32, track: u32, revolution: u32, out: *mut f64, places: usize) -> u64;
        pub fn scp_track_speed(image: *const u8, size: usize, edition: u32, track: u32, out: *mut f64, places: usize) -> u64;
        pub fn scp_direct_track(image: *const u8, size: usize, edition: u32, track: u32, out: *mut u64, places: usize) -> u64;
        pub fn scp_direct_revolution(
            image: *const u8,
            size: usize,
            edition: u32,
            track: u32,
            revolution: u32,
            out: *mut u64,
            places: usize,
        ) -> u64;
        pub fn scp_direct_flux(
            image: *const u8,
            size: usize,
            edition: u32,
            track: u32,
            revolution: u32,
            out: *mut u8,
            places: usize,
        ) -> u64;
        pub fn scp_direct_flux_part(
            image: *const u8,
            size: usize,
            edition: u32,
            track: u32,
            revolution: u32,
            out: *mut u64,
            places: usize,
        ) -> u64;
        pub fn scp_valid_up_to(text: *const u8, size: usize, out: *mut u64, places: usize) -> u64;
        pub fn scp_step(flux: *const u8, size: usize, word: u64, out: *mut u64, places: usize) -> u64;
        pub fn scp_intervals(flux: *const u8, size: usize, times: *mut u64, count: usize, out: *mut u64, places: usize) -> u64;
        pub fn scp_closed_intervals(
            flux: *const u8,
            size: usize,
            times: *mut u64,
            count: usize,
            closings: *mut u64,
            closing_count: usize,
            out: *mut u64,
            places: usize,
        ) -> u64;
        pub fn scp_summary(flux: *const u8, size: usize, out: *mut u64, places: usize) -> u64;
        pub fn scp_words(times: *const u64, count: usize, words: *mut u8, size: usize, out: *mut u64, places: usize) -> u64;
        pub fn scp_rewrite(
            image: *mut u8,
            size: usize,
            edition: u32,
            track: u32,
            revolution: u32,
            duration: u32,
            words: *const u8,
            words_size: usize,
        ) -> u64;
        pub fn scp_replay(
            image: *mut u8,
            size: usize,
            calls: *const u64,
            call_numbers: usize,
            words: *const u8,
            words_size: usize,
            answers: *mut u64,
            places: usize,
        ) -> u64;
    }
}

/// Refusals 1 to 12 and 19.
pub fn validate(image: &[u8], edition: u32) -> u64 {
    // SAFETY: pointer and length are those of a slice, lent for the call.
    unsafe { archive::scp_validate(image.as_ptr(), image.len(), edition) }
}

/// Version, disk type, revolutions, start, end, flags, width, heads, checksum: 9 numbers.
pub fn header(image: &[u8], edition: u32, out: &mut [u64]) -> u64 {
    // SAFETY: pointers and lengths are those of slices, lent for the call and apart from each other.
    unsafe { archive::scp_header(image.as_ptr(), image.len(), edition, out.as_mut_ptr(), out.len()) }
}

/// 1 or 0 (present), six offsets, created, modified (two's complement), four version bytes: 13 numbers.
pub fn footer(image: &[u8], edition: u32, out: &mut [u64]) -> u64 {
    // SAFETY: as in `header`.
    unsafe { archive::scp_footer(image.as_ptr(), image.len(), edition, out.as_mut_ptr(), out.len()) }
}

/// Cylinder, head, file offset of the track data header, revolutions: 4 numbers.
pub fn track(image: &[u8], edition: u32, track: u32, out: &mut [u64]) -> u64 {
    // SAFETY: as in `header`.
    unsafe { archive::scp_track(image.as_ptr(), image.len(), edition, track, out.as_mut_ptr(), out.len()) }
}

/// Duration, words, file offset of the flux: 3 numbers.
pub fn revolution(image: &[u8], edition: u32, track: u32, revolution: u32, out: &mut [u64]) -> u64 {
    // SAFETY: as in `header`.
    unsafe { archive::scp_revolution(image.as_ptr(), image.len(), edition, track, revolution, out.as_mut_ptr(), out.len()) }
}

/// The flux bytes of a revolution.
pub fn flux(image: &[u8], edition: u32, track: u32, revolution: u32, out: &mut [u8]) -> u64 {
    // SAFETY: as in `header`.
    unsafe { archive::scp_flux(image.as_ptr(), image.len(), edition, track, revolution, out.as_mut_ptr(), out.len()) }
}

/// The file offset of a revolution's flux, and how many bytes it has: 2 numbers.
pub fn flux_part(image: &[u8], edition: u32, track: u32, revolution: u32, out: &mut [u64]) -> u64 {
    // SAFETY: as in `header`.
    unsafe { archive::scp_flux_part(image.as_ptr(), image.len(), edition, track, revolution, out.as_mut_ptr(), out.len()) }
}

/// 1.0 and the speed of a revolution, or two zeros.
pub fn speed(image: &[u8], edition: u32, track: u32, revolution: u32, out: &mut [f64]) -> u64 {
    // SAFETY: as in `header`.
    unsafe { archive::scp_speed(image.as_ptr(), image.len(), edition, track, revolution, out.as_mut_ptr(), out.len()) }
}

/// 1.0, the slowest and the fastest speed of a track, or three zeros.
pub fn track_speed(image: &[u8], edition: u32, track: u32, out: &mut [f64]) -> u64 {
    // SAFETY: as in `header`.
    unsafe { archive::scp_track_speed(image.as_ptr(), image.len(), edition, track, out.as_mut_ptr(), out.len()) }
}

/// As `track`, but that the footer, its strings and other tracks are not tested.
pub fn direct_track(image: &[u8], edition: u32, track: u32, out: &mut [u64]) -> u64 {
    // SAFETY: as in `header`.
    unsafe { archive::scp_direct_track(image.as_ptr(), image.len(), edition, track, out.as_mut_ptr(), out.len()) }
}

/// As `revolution`, but that the footer, its strings and other tracks are not tested.
pub fn direct_revolution(image: &[u8], edition: u32, track: u32, revolution: u32, out: &mut [u64]) -> u64 {
    // SAFETY: as in `header`.
    unsafe { archive::scp_direct_revolution(image.as_ptr(), image.len(), edition, track, revolution, out.as_mut_ptr(), out.len()) }
}

/// As `flux`, but that the footer, its strings and other tracks are not tested.
pub fn direct_flux(image: &[u8], edition: u32, track: u32, revolution: u32, out: &mut [u8]) -> u64 {
    // SAFETY: as in `header`.
    unsafe { archive::scp_direct_flux(image.as_ptr(), image.len(), edition, track, revolution, out.as_mut_ptr(), out.len()) }
}

/// As `flux_part`, but that the footer, its strings and other tracks are not tested.
pub fn direct_flux_part(image: &[u8], edition: u32, track: u32, revolution: u32, out: &mut [u64]) -> u64 {
    // SAFETY: as in `header`.
    unsafe { archive::scp_direct_flux_part(image.as_ptr(), image.len(), edition, track, revolution, out.as_mut_ptr(), out.len()) }
}

/// How many bytes come before the place where the text stops being well-formed UTF-8: 1 number.
pub fn valid_up_to(text: &[u8], out: &mut [u64]) -> u64 {
    // SAFETY: as in `header`.
    unsafe { archive::scp_valid_up_to(text.as_ptr(), text.len(), out.as_mut_ptr(), out.len()) }
}

/// Interval (0: none), open ticks, next word, closing word (0 where there is no interval): 4 numbers.
pub fn step(flux: &[u8], word: u64, out: &mut [u64]) -> u64 {
    // SAFETY: as in `header`.
    unsafe { archive::scp_step(flux.as_ptr(), flux.len(), word, out.as_mut_ptr(), out.len()) }
}

/// The intervals to `times`; their count and the open ticks to `out`.
pub fn intervals(flux: &[u8], times: &mut [u64], out: &mut [u64]) -> u64 {
    // SAFETY: as in `header`.
    unsafe { archive::scp_intervals(flux.as_ptr(), flux.len(), times.as_mut_ptr(), times.len(), out.as_mut_ptr(), out.len()) }
}

/// The intervals to `times`, the numbers of the words that close them to `closings`; their count and the open ticks to `out`.
pub fn closed_intervals(flux: &[u8], times: &mut [u64], closings: &mut [u64], out: &mut [u64]) -> u64 {
    // SAFETY: as in `header`.
    unsafe {
        archive::scp_closed_intervals(
            flux.as_ptr(),
            flux.len(),
            times.as_mut_ptr(),
            times.len(),
            closings.as_mut_ptr(),
            closings.len(),
            out.as_mut_ptr(),
            out.len(),
        )
    }
}

/// How many intervals, the open ticks and the total ticks of the flux: 3 numbers.
pub fn summary(flux: &[u8], out: &mut [u64]) -> u64 {
    // SAFETY: as in `header`.
    unsafe { archive::scp_summary(flux.as_ptr(), flux.len(), out.as_mut_ptr(), out.len()) }
}

/// The bytes of the times to `words`; their number to `out`.
pub fn words(times: &[u64], words: &mut [u8], out: &mut [u64]) -> u64 {
    // SAFETY: as in `header`.
    unsafe { archive::scp_words(times.as_ptr(), times.len(), words.as_mut_ptr(), words.len(), out.as_mut_ptr(), out.len()) }
}

/// Rewrites a revolution in the image.
pub fn rewrite(image: &mut [u8], edition: u32, track: u32, revolution: u32, duration: u32, words: &[u8]) -> u64 {
    // SAFETY: as in `header`.
    unsafe {
        let (size, words_size) = (image.len(), words.len());
        archive::scp_rewrite(image.as_mut_ptr(), size, edition, track, revolution, duration, words.as_ptr(), words_size)
    }
}

/// Runs a list of calls, 7 numbers each, the last of them the edition; 16 numbers a call to `answers`.
pub fn replay(image: &mut [u8], calls: &[u64], words: &[u8], answers: &mut [u64]) -> u64 {
    // SAFETY: as in `header`.
    unsafe {
        archive::scp_replay(
            image.as_mut_ptr(),
            image.len(),
            calls.as_ptr(),
            calls.len(),
            words.as_ptr(),
            words.len(),
            answers.as_mut_ptr(),
            answers.len(),
        )
    }
}
