//! The kinds of lock: by number, by which go together, and by which is told first.

/// A kind of lock.
#[derive(Clone, Copy, Debug, PartialEq, Eq)]
pub enum Lock {
    /// None at all: on a page that nobody holds, and the want of a closed slot.
    None,
    /// ρ, for reading.
    Rho,
    /// ξ, for changing.
    Xi,
    /// Updater's ρ, of one who reads his way down and may change the leaf.
    UpdaterRho,
    /// α, of one who may change the page and lets readers stay until then.
    Alpha,
}

impl Lock {
    /// The four kinds, in the order in which a report looks for them.
    pub const STRONGEST_FIRST: [Lock; 4] = [Lock::Xi, Lock::Alpha, Lock::UpdaterRho, Lock::Rho];

    /// The kind that a number names; one that names no kind stands for none.
    pub fn of(number: u32) -> Lock {
        let mut kinds = Lock::STRONGEST_FIRST.into_iter();
        kinds
            .find(|lock| lock.number() == number)
            .unwrap_or(Lock::None)
    }

    /// Its number, as a report and the state's words have it.
    pub fn number(self) -> u32 {
        match self {
            Lock::None => 0,
            Lock::Rho => 1,
            Lock::Xi => 2,
            Lock::UpdaterRho => 3,
            Lock::Alpha => 4,
        }
    }

    /// Whether two locks on a page clash.
    pub fn clashes(self, other: Lock) -> bool {
        !self.friends().contains(&other)
    }

    /// The kinds that it goes with: "ρ goes with all but ξ; updater's ρ with both ρ only; α with ρ only; ξ with nothing."
    fn friends(self) -> &'static [Lock] {
        match self {
            Lock::Rho => &[Lock::Rho, Lock::UpdaterRho, Lock::Alpha],
            Lock::UpdaterRho => &[Lock::Rho, Lock::UpdaterRho],
            Lock::Alpha => &[Lock::Rho],
            // none is no lock, and on no page
            Lock::Xi | Lock::None => &[],
        }
    }
}
