//! The proved implementation, through its calls for C. A slice goes as a pointer and a length.
use crate::calls::{Answer, Calls, Run};

#[link(name = "pica", kind = "static")]
unsafe extern "C" {
    fn pica_check(file: *const u8, file_length: usize) -> u64;

    fn pica_report(
        file: *const u8,
        file_length: usize,
        executable: u32,
        out: *mut u32,
        out_length: usize,
    ) -> u64;

    fn pica_list(file: *const u8, file_length: usize, out: *mut u8, out_length: usize) -> u64;

    fn pica_summarize(file: *const u8, file_length: usize, out: *mut u8, out_length: usize) -> u64;

    fn pica_walk(
        file: *const u8,
        file_length: usize,
        executable: u32,
        bools: *const u8,
        bools_length: usize,
        ints: *const u8,
        ints_length: usize,
        truth: *const u8,
        truth_length: usize,
        fetched: *mut u16,
        fetched_length: usize,
    ) -> u64;

    fn pica_constant(
        file: *const u8,
        file_length: usize,
        executable: u32,
        n: u32,
        out: *mut u32,
        out_length: usize,
    ) -> u64;

    fn pica_decode(word: u32, out: *mut u32, out_length: usize) -> u64;

    fn pica_encode(format: u32, fields: *const u32, fields_length: usize) -> u64;
}

pub struct Proved;

// Safety of every call: its pointers and lengths are those of slices that it is lent while it runs.
impl Calls for Proved {
    fn check(&self, file: &[u8]) -> Answer {
        Answer(unsafe { pica_check(file.as_ptr(), file.len()) })
    }

    fn report(&self, file: &[u8], executable: u32, out: &mut [u32]) -> Answer {
        let (into, room) = (out.as_mut_ptr(), out.len());
        Answer(unsafe { pica_report(file.as_ptr(), file.len(), executable, into, room) })
    }

    fn list(&self, file: &[u8], out: &mut [u8]) -> Answer {
        Answer(unsafe { pica_list(file.as_ptr(), file.len(), out.as_mut_ptr(), out.len()) })
    }

    fn summarize(&self, file: &[u8], out: &mut [u8]) -> Answer {
        Answer(unsafe { pica_summarize(file.as_ptr(), file.len(), out.as_mut_ptr(), out.len()) })
    }

    fn walk(&self, file: &[u8], run: Run, fetched: &mut [u16]) -> Answer {
        Answer(unsafe {
            pica_walk(
                file.as_ptr(),
                file.len(),
                run.executable,
                run.bools.as_ptr(),
                run.bools.len(),
                run.ints.as_ptr(),
                run.ints.len(),
                run.truth.as_ptr(),
                run.truth.len(),
                fetched.as_mut_ptr(),
                fetched.len(),
            )
        })
    }

    fn constant(&self, file: &[u8], executable: u32, n: u32, out: &mut [u32]) -> Answer {
        let (into, room) = (out.as_mut_ptr(), out.len());
        Answer(unsafe { pica_constant(file.as_ptr(), file.len(), executable, n, into, room) })
    }

    fn decode(&self, word: u32, out: &mut [u32]) -> Answer {
        Answer(unsafe { pica_decode(word, out.as_mut_ptr(), out.len()) })
    }

    fn encode(&self, format: u32, fields: &[u32]) -> Answer {
        Answer(unsafe { pica_encode(format, fields.as_ptr(), fields.len()) })
    }
}
