//! The proved library, behind its C interface.

use crate::{Answer, Library};

/// The interface as it stands: each slice is a pointer and a length.
pub mod raw {
    use crate::Answer;

    unsafe extern "C" {
        pub fn nz_verify(
            plan: *const u8,
            plan_len: usize,
            table: *const u8,
            table_len: usize,
        ) -> Answer;

        pub fn nz_make(plan: *const u8, plan_len: usize, out: *mut u8, out_len: usize) -> Answer;

        pub fn nz_write(
            plan: *const u8,
            plan_len: usize,
            numbers: *const u32,
            numbers_len: usize,
            out: *mut u8,
            out_len: usize,
        ) -> Answer;

        pub fn nz_read(
            plan: *const u8,
            plan_len: usize,
            table: *const u8,
            table_len: usize,
            out: *mut u32,
            out_len: usize,
        ) -> Answer;

        pub fn nz_run(
            plan: *const u8,
            plan_len: usize,
            table: *const u8,
            table_len: usize,
            last: u32,
            words: *const u32,
            words_len: usize,
            out: *mut u32,
            out_len: usize,
        ) -> Answer;
    }
}

/// The linked library. Each slice gives a pointer that is aligned and not null, and its length, so
/// the calls are sound for every argument.
#[derive(Clone, Copy, Debug)]
pub struct Product;

impl Library for Product {
    fn verify(&self, plan: &[u8], table: &[u8]) -> Answer {
        unsafe { raw::nz_verify(plan.as_ptr(), plan.len(), table.as_ptr(), table.len()) }
    }

    fn make(&self, plan: &[u8], out: &mut [u8]) -> Answer {
        unsafe { raw::nz_make(plan.as_ptr(), plan.len(), out.as_mut_ptr(), out.len()) }
    }

    fn write(&self, plan: &[u8], numbers: &[u32], out: &mut [u8]) -> Answer {
        let (numbers, numbers_len) = (numbers.as_ptr(), numbers.len());
        unsafe {
            raw::nz_write(
                plan.as_ptr(),
                plan.len(),
                numbers,
                numbers_len,
                out.as_mut_ptr(),
                out.len(),
            )
        }
    }

    fn read(&self, plan: &[u8], table: &[u8], out: &mut [u32]) -> Answer {
        let (table, table_len) = (table.as_ptr(), table.len());
        unsafe {
            raw::nz_read(plan.as_ptr(), plan.len(), table, table_len, out.as_mut_ptr(), out.len())
        }
    }

    fn run(&self, plan: &[u8], table: &[u8], last: u32, words: &[u32], out: &mut [u32]) -> Answer {
        let (table, table_len) = (table.as_ptr(), table.len());
        let (words, words_len) = (words.as_ptr(), words.len());
        unsafe {
            raw::nz_run(
                plan.as_ptr(),
                plan.len(),
                table,
                table_len,
                last,
                words,
                words_len,
                out.as_mut_ptr(),
                out.len(),
            )
        }
    }
}
