//! The functions of the proved archive, as include/noferkash.h declares them,
//! behind safe ones. Nothing but the tests holds the declarations to the archive.
//!
//! Input is lent as bytes that could be written: behind a `&[u8]` the compiler
//! would take it for granted that they stay, and `compare` looks whether they do.

extern "C" {
    fn noferkash_check(file: *const u8, file_len: usize) -> u64;
    fn noferkash_file_to_text(
        file: *const u8,
        file_len: usize,
        out: *mut u8,
        out_len: usize,
    ) -> u64;
    fn noferkash_text_to_file(
        text: *const u8,
        text_len: usize,
        manner: u32,
        out: *mut u8,
        out_len: usize,
    ) -> u64;
    fn noferkash_tidy(file: *const u8, file_len: usize, out: *mut u8, out_len: usize) -> u64;
    fn noferkash_fold(file: *const u8, file_len: usize, out: *mut u8, out_len: usize) -> u64;
    fn noferkash_list_tracks(
        file: *const u8,
        file_len: usize,
        end_times: *mut u32,
        end_times_len: usize,
        event_counts: *mut u32,
        event_counts_len: usize,
        padding: *mut u32,
        padding_len: usize,
    ) -> u64;
    fn noferkash_file_to_sheet(
        file: *const u8,
        file_len: usize,
        out: *mut u8,
        out_len: usize,
    ) -> u64;
    fn noferkash_sheet_to_text(
        saved: *const u8,
        saved_len: usize,
        out: *mut u8,
        out_len: usize,
    ) -> u64;
}

/// The packed answer.
pub fn check(file: &mut [u8]) -> u64 {
    // Safe: a slice's pointer is not null and valid for the slice's length.
    unsafe { noferkash_check(file.as_mut_ptr(), file.len()) }
}

/// The packed answer; on success `room` begins with the text.
pub fn file_to_text(file: &mut [u8], room: &mut [u8]) -> u64 {
    // Safe as above; two slices lent to be written do not overlap.
    unsafe { noferkash_file_to_text(file.as_mut_ptr(), file.len(), room.as_mut_ptr(), room.len()) }
}

/// The packed answer; on success `room` begins with the file.
pub fn text_to_file(text: &mut [u8], manner: u32, room: &mut [u8]) -> u64 {
    let (out, out_len) = (room.as_mut_ptr(), room.len());
    // Safe as above.
    unsafe { noferkash_text_to_file(text.as_mut_ptr(), text.len(), manner, out, out_len) }
}

/// The packed answer; on success `room` begins with the tidied file.
pub fn tidy(file: &mut [u8], room: &mut [u8]) -> u64 {
    // Safe as above.
    unsafe { noferkash_tidy(file.as_mut_ptr(), file.len(), room.as_mut_ptr(), room.len()) }
}

/// The packed answer; on success `room` begins with the folded file.
pub fn fold(file: &mut [u8], room: &mut [u8]) -> u64 {
    // Safe as above.
    unsafe { noferkash_fold(file.as_mut_ptr(), file.len(), room.as_mut_ptr(), room.len()) }
}

/// The packed answer; on success each list begins with as many numbers as there are tracks:
/// End_track Times, event counts and padding.
pub fn list_tracks(file: &mut [u8], lists: [&mut [u32]; 3]) -> u64 {
    let [times, counts, padding] = lists;
    // Safe as above, of slices of numbers too.
    unsafe {
        noferkash_list_tracks(
            file.as_mut_ptr(),
            file.len(),
            times.as_mut_ptr(),
            times.len(),
            counts.as_mut_ptr(),
            counts.len(),
            padding.as_mut_ptr(),
            padding.len(),
        )
    }
}

/// The packed answer; on success `room` begins with the sheet.
pub fn file_to_sheet(file: &mut [u8], room: &mut [u8]) -> u64 {
    // Safe as above.
    unsafe { noferkash_file_to_sheet(file.as_mut_ptr(), file.len(), room.as_mut_ptr(), room.len()) }
}

/// The packed answer; on success `room` begins with the text of the table.
pub fn sheet_to_text(saved: &mut [u8], room: &mut [u8]) -> u64 {
    let (out, out_len) = (room.as_mut_ptr(), room.len());
    // Safe as above.
    unsafe { noferkash_sheet_to_text(saved.as_mut_ptr(), saved.len(), out, out_len) }
}
