//! The proved judge, by its C entries: a slice passes as pointer, then length.

#[rustfmt::skip]
extern "C" {
    fn srf_judge(file: *const u8, file_size: usize, book: *const u8, book_size: usize, report: *mut u8, report_size: usize) -> u64;
    fn srf_judge_with(
        file: *const u8, file_size: usize, book: *const u8, book_size: usize, today: *const u8, today_size: usize,
        report: *mut u8, report_size: usize,
    ) -> u64;
}

/// 02 W4: no bytes of today are nothing lent.
pub fn judge(file: &[u8], book: &[u8], today: &[u8], report: &mut [u8]) -> u64 {
    // SAFETY: each pointer and length come from one slice; the entry reads the first three and writes the fourth, within their lengths.
    unsafe {
        srf_judge_with(
            file.as_ptr(),
            file.len(),
            book.as_ptr(),
            book.len(),
            today.as_ptr(),
            today.len(),
            report.as_mut_ptr(),
            report.len(),
        )
    }
}

/// By the entry that takes no day.
pub fn judge_unlent(file: &[u8], book: &[u8], report: &mut [u8]) -> u64 {
    // SAFETY: as above, with two slices read and the third written.
    unsafe {
        srf_judge(
            file.as_ptr(),
            file.len(),
            book.as_ptr(),
            book.len(),
            report.as_mut_ptr(),
            report.len(),
        )
    }
}
