//! The model behind the C interface: stands in for the proved library where that can't be
//! linked, since it is for x86-64 alone. Tests use it; nothing else does.

use model::assemble::assemble_into;
use model::load::load;
use model::packed::{packed_assembly, packed_load};
use std::slice;

/// # Safety
/// The buffers are as the header asks: no null pointer, no overlap.
#[no_mangle]
pub unsafe extern "C" fn mersclund_assemble(
    width: u32,
    source: *const u8,
    source_len: usize,
    work: *mut u8,
    work_len: usize,
    out: *mut u8,
    out_len: usize,
) -> u64 {
    let source = slice::from_raw_parts(source, source_len);
    let work = slice::from_raw_parts_mut(work, work_len);
    let out = slice::from_raw_parts_mut(out, out_len);
    packed_assembly(&assemble_into(width, source, work, out))
}

/// # Safety
/// The buffers are as the header asks: no null pointer, no overlap.
#[no_mangle]
pub unsafe extern "C" fn mersclund_load(
    book: *const u8,
    book_len: usize,
    displacement: u16,
    storage: *mut u8,
    storage_len: usize,
) -> u64 {
    let book = slice::from_raw_parts(book, book_len);
    let storage = slice::from_raw_parts_mut(storage, storage_len);
    packed_load(&load(book, displacement, storage))
}
