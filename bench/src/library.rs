//! The exported call, as include/mersclund.h declares it.

extern "C" {
    fn mersclund_assemble(
        width: u32,
        source: *const u8,
        source_len: usize,
        work: *mut u8,
        work_len: usize,
        out: *mut u8,
        out_len: usize,
    ) -> u64;
}

/// The packed answer; the work area and the output are changed as the header says.
pub fn assemble(width: u32, source: &[u8], work: &mut [u8], out: &mut [u8]) -> u64 {
    // The three slices do not overlap, and the call stays inside them.
    unsafe {
        mersclund_assemble(
            width,
            source.as_ptr(),
            source.len(),
            work.as_mut_ptr(),
            work.len(),
            out.as_mut_ptr(),
            out.len(),
        )
    }
}
