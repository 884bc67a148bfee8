//! The kinds of lock: their numbers, which go together, and in which order a report looks for them.

use twin::Lock;

const ALL: [Lock; 5] = [
    Lock::None,
    Lock::Rho,
    Lock::Xi,
    Lock::UpdaterRho,
    Lock::Alpha,
];

#[test]
fn each_has_its_number() {
    assert_eq!(ALL.map(Lock::number), [0, 1, 2, 3, 4]);
    assert_eq!([0, 1, 2, 3, 4].map(Lock::of), ALL);
    for number in [5, 7, 65_536, u32::MAX] {
        assert_eq!(Lock::of(number), Lock::None, "{number} is no kind");
    }
}

/// "ρ goes with all but ξ; updater's ρ with both ρ only; α with ρ only; ξ with nothing."
#[test]
fn which_go_together() {
    let kinds = [Lock::Rho, Lock::UpdaterRho, Lock::Alpha, Lock::Xi];
    let table = ["+++.", "++..", "+...", "...."];
    for (held, row) in kinds.into_iter().zip(table) {
        for (wanted, cell) in kinds.into_iter().zip(row.chars()) {
            assert_eq!(held.clashes(wanted), cell == '.', "{held:?} {wanted:?}");
        }
    }
}

/// "the first that is there of ξ, α, updater's ρ, ρ"
#[test]
fn which_is_told_first() {
    assert_eq!(Lock::STRONGEST_FIRST.map(Lock::number), [2, 4, 3, 1]);
}
