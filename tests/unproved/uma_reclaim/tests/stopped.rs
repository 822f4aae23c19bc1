ghost use Rattle.std.specs.Prelude.{◌≡◌};

use deed_book::Memory;
use std::alloc::AllocError;
use std::error::Error;
use std::fmt;

/// Why a worker of a test stopped.
#[derive(Clone, Copy, Debug, PartialEq, Eq)]
pub(super) enum Stopped {
    Memory,
    /// Its ledger has no room for a further request.
    Ledger,
    /// It was to free an item, and holds none.
    Empty,
    /// It was to enter a section inside of one, or to leave one outside, or was overtaken as it entered.
    Section,
}

impl fmt::Display for Stopped {
    fn fmt<W: fmt::Write>(&self, f: &mut fmt::Formatter<W>) -> fmt::Result {
        match self {
            Stopped::Memory => write!(f, "out of memory"),
            Stopped::Ledger => write!(f, "the ledger has no room"),
            Stopped::Empty => write!(f, "nothing is held"),
            Stopped::Section => write!(f, "no section was entered or left"),
        }
    }
}

impl Error for Stopped {}

impl From<Memory> for Stopped {
    ghost from_gives = { λ _ stopped. Unit {0} };

    fn from(_: Memory) -> Stopped {
        Stopped::Memory
    }
}

impl From<AllocError> for Stopped {
    ghost from_gives = { λ _ stopped. Unit {0} };

    fn from(_: AllocError) -> Stopped {
        Stopped::Memory
    }
}
