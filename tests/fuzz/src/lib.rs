//! The second program's operations for C to call: the functions of
//! include/noferkash.h with `second` for `noferkash` in their names. A panic ends
//! the process, which the fuzzer takes for a fault, as it should.

use std::slice;

use second::fold;
use second::operations;
use second::sheet;
use second::table;

/// # Safety
/// `file` is valid for `file_len` bytes and not null.
#[no_mangle]
pub unsafe extern "C" fn second_check(file: *const u8, file_len: usize) -> u64 {
    operations::check(slice::from_raw_parts(file, file_len)).packed()
}

/// # Safety
/// Each pointer is valid for the length after it and not null, those to numbers aligned;
/// the slices do not overlap.
#[no_mangle]
pub unsafe extern "C" fn second_list_tracks(
    file: *const u8,
    file_len: usize,
    end_times: *mut u32,
    end_times_len: usize,
    event_counts: *mut u32,
    event_counts_len: usize,
    padding: *mut u32,
    padding_len: usize,
) -> u64 {
    let end_times = slice::from_raw_parts_mut(end_times, end_times_len);
    let event_counts = slice::from_raw_parts_mut(event_counts, event_counts_len);
    let padding = slice::from_raw_parts_mut(padding, padding_len);
    let file = slice::from_raw_parts(file, file_len);
    operations::list_tracks(file, end_times, event_counts, padding).packed()
}

/// An operation that takes input, whatever else is named, and room.
macro_rules! export {
    ($name:ident, $operation:path $(, $argument:ident: $type:ty)?) => {
        /// # Safety
        /// Each pointer is valid for the length after it and not null; the slices do
        /// not overlap.
        #[no_mangle]
        pub unsafe extern "C" fn $name(
            input: *const u8,
            input_len: usize,
            $($argument: $type,)?
            out: *mut u8,
            out_len: usize,
        ) -> u64 {
            let room = slice::from_raw_parts_mut(out, out_len);
            $operation(slice::from_raw_parts(input, input_len), $($argument,)? room).packed()
        }
    };
}

export!(second_file_to_text, operations::file_to_text);
export!(second_text_to_file, operations::text_to_file, manner: u32);
export!(second_tidy, operations::tidy);
export!(second_fold, fold::fold);
export!(second_file_to_sheet, sheet::file_to_sheet);
export!(second_sheet_to_text, table::sheet_to_text);
