//! The numbers of `include/ghazfulit.h`, each under its name there without `GHAZFULIT_`. They are taken from the header when the
//! crate is built. Who stores answers, or sends them on, has them here by name.

include!(concat!(env!("OUT_DIR"), "/header.rs"));

/// Whether a step's answer, by its number, ends the operation and closes its slot: `GHAZFULIT_ENDS`.
pub const fn ends(number: u32) -> bool {
    matches!(number, FOUND..=NO_ROOM | NEXT_LOT..=REGRADED)
}

/// Whether an answer, by its number, is a refusal: `GHAZFULIT_REFUSES`.
pub const fn refuses(number: u32) -> bool {
    number < WAITING
}

const _: () = assert!(
    VERSION == 7,
    "the header is of another version than this crate"
);
const _: () = assert!(
    STATE as usize == crate::raw::STATE,
    "a state has another size"
);
const _: () = assert!(
    ANSWER as usize == crate::raw::ANSWER,
    "an answer has another size"
);
