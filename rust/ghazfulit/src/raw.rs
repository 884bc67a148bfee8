//! The functions of the archive. This is the only place where Rust has to be believed: that the words handed over are as many as
//! the functions ask for, and nobody else's while a call runs, which the types of the parameters say.

/// Words of a state.
pub const STATE: usize = 451;
/// Words of an answer.
pub const ANSWER: usize = 4;

/// An answer: its number and its values.
pub type Answer = [u32; ANSWER];

/// The functions as they are, for the functions below and for a test that makes calls as a C program does.
pub mod archive {
    extern "C" {
        pub fn ghazfulit_make(
            k: u32,
            n: u32,
            state: *mut u32,
            words: *mut u32,
            length: usize,
            answer: *mut u32,
        );
        pub fn ghazfulit_open(
            k: u32,
            n: u32,
            state: *mut u32,
            words: *const u32,
            length: usize,
            answer: *mut u32,
        );
        pub fn ghazfulit_begin(
            state: *mut u32,
            slot: u32,
            kind: u32,
            key: u32,
            information: u32,
            answer: *mut u32,
        );
        pub fn ghazfulit_step(
            state: *mut u32,
            words: *mut u32,
            length: usize,
            slot: u32,
            answer: *mut u32,
        );
        pub fn ghazfulit_report(state: *const u32, page: u32, answer: *mut u32);
        pub fn ghazfulit_version() -> u32;
    }
}

/// Makes a fresh pool.
pub fn make(k: u32, n: u32, state: &mut [u32; STATE], words: &mut [u32]) -> Answer {
    let mut answer = [0; ANSWER];
    // SAFETY: each pointer leads to as many words as the function asks for, no two of them overlap, and nobody else has them.
    unsafe {
        archive::ghazfulit_make(
            k,
            n,
            state.as_mut_ptr(),
            words.as_mut_ptr(),
            words.len(),
            answer.as_mut_ptr(),
        );
    }
    answer
}

/// Opens words as a pool.
pub fn open(k: u32, n: u32, state: &mut [u32; STATE], words: &[u32]) -> Answer {
    let mut answer = [0; ANSWER];
    // SAFETY: as in `make`; the words of the pool are only read.
    unsafe {
        archive::ghazfulit_open(
            k,
            n,
            state.as_mut_ptr(),
            words.as_ptr(),
            words.len(),
            answer.as_mut_ptr(),
        );
    }
    answer
}

/// Begins an operation.
pub fn begin(state: &mut [u32; STATE], slot: u32, kind: u32, key: u32, information: u32) -> Answer {
    let mut answer = [0; ANSWER];
    // SAFETY: as in `make`.
    unsafe {
        archive::ghazfulit_begin(
            state.as_mut_ptr(),
            slot,
            kind,
            key,
            information,
            answer.as_mut_ptr(),
        );
    }
    answer
}

/// Steps a slot.
pub fn step(state: &mut [u32; STATE], words: &mut [u32], slot: u32) -> Answer {
    let mut answer = [0; ANSWER];
    // SAFETY: as in `make`.
    unsafe {
        archive::ghazfulit_step(
            state.as_mut_ptr(),
            words.as_mut_ptr(),
            words.len(),
            slot,
            answer.as_mut_ptr(),
        );
    }
    answer
}

/// Reports the locks on a page.
pub fn report(state: &[u32; STATE], page: u32) -> Answer {
    let mut answer = [0; ANSWER];
    // SAFETY: as in `make`; the state is only read.
    unsafe {
        archive::ghazfulit_report(state.as_ptr(), page, answer.as_mut_ptr());
    }
    answer
}

/// The version of the archive.
pub fn version() -> u32 {
    // SAFETY: it is handed nothing.
    unsafe { archive::ghazfulit_version() }
}
