//! The two builds of the library. Their calls have the build's name in front; their numbers are those of
//! include/ghazfulit.h, as the crate `ghazfulit` has them.

use ghazfulit::numbers::{MADE, MOVED, SEARCH};
use ghazfulit::{ANSWER, STATE};

pub type Answer = [u32; ANSWER];

type Place = unsafe extern "C" fn(*const u32, usize, u32) -> usize;
type Make = unsafe extern "C" fn(u32, u32, *mut u32, *mut u32, usize, *mut u32);
type Begin = unsafe extern "C" fn(*mut u32, u32, u32, u32, u32, *mut u32);
type Step = unsafe extern "C" fn(*mut u32, *mut u32, usize, u32, *mut u32);

/// One build.
pub struct Way {
    place: Place,
    make: Make,
    begin: Begin,
    step: Step,
}

/// The build with a name.
macro_rules! way {
    ($name:literal) => {{
        extern "C" {
            #[link_name = concat!($name, "_place")]
            fn place(_: *const u32, _: usize, _: u32) -> usize;
            #[link_name = concat!($name, "_ghazfulit_make")]
            fn make(_: u32, _: u32, _: *mut u32, _: *mut u32, _: usize, _: *mut u32);
            #[link_name = concat!($name, "_ghazfulit_begin")]
            fn begin(_: *mut u32, _: u32, _: u32, _: u32, _: u32, _: *mut u32);
            #[link_name = concat!($name, "_ghazfulit_step")]
            fn step(_: *mut u32, _: *mut u32, _: usize, _: u32, _: *mut u32);
        }
        Way {
            place,
            make,
            begin,
            step,
        }
    }};
}

pub const SCAN: Way = way!("scan");
pub const HALVING: Way = way!("halving");

impl Way {
    /// Where a key stands in a page whose keys rise.
    pub fn place(&self, page: &[u32], key: u32) -> usize {
        // sound: as many words are there as the call is told
        unsafe { (self.place)(page.as_ptr(), page.len(), key) }
    }

    /// The state beside a fresh pool, which is written into the words.
    pub fn make(&self, k: u32, n: u32, words: &mut [u32]) -> [u32; STATE] {
        let (mut state, mut answer) = ([0; STATE], Answer::default());
        let (to_state, to_words) = (state.as_mut_ptr(), words.as_mut_ptr());
        // sound: as above
        unsafe { (self.make)(k, n, to_state, to_words, words.len(), answer.as_mut_ptr()) };
        assert_eq!(answer[0], MADE, "k and n are in range");
        state
    }

    /// A search in slot 0, from its beginning to its answer.
    pub fn search(&self, state: &mut [u32; STATE], words: &mut [u32], key: u32) -> Answer {
        let mut answer = Answer::default();
        let to_state = state.as_mut_ptr();
        // sound: as above
        unsafe { (self.begin)(to_state, 0, SEARCH, key, 0, answer.as_mut_ptr()) };
        loop {
            let to_answer = answer.as_mut_ptr();
            // sound: as above
            unsafe { (self.step)(to_state, words.as_mut_ptr(), words.len(), 0, to_answer) };
            if answer[0] != MOVED {
                return answer;
            }
        }
    }
}
