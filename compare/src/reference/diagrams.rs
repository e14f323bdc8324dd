//! "Diagrams": transmit, lock, error rate and receive, one step each.
use super::block::Kind;

/// "INIT, C, D, T, E are numbered 0 to 4", and the state that request 9/13 adds is 5.
#[derive(Clone, Copy, PartialEq, Eq, Debug)]
pub enum State {
    Init = 0,
    C = 1,
    D = 2,
    T = 3,
    E = 4,
    LI = 5,
}

/// The transmit diagram's next state. No block of the old edition is of kind LI, so its diagram is this one too.
pub fn transmit(state: State, kind: Kind) -> State {
    match state {
        // "after INIT, C or T, kind C goes to C, S to D, others to E"
        State::Init => match kind {
            Kind::C => State::C,
            Kind::S => State::D,
            _ => State::E,
        },
        // in the new edition LI to LI, after C or T
        State::C | State::T => match kind {
            Kind::C => State::C,
            Kind::S => State::D,
            Kind::LI => State::LI,
            _ => State::E,
        },
        // "After D: D to D, T to T, others to E"
        State::D => match kind {
            Kind::D => State::D,
            Kind::T => State::T,
            _ => State::E,
        },
        // "After E: C to C, D to D, T to T, E and S to E"; in the new edition LI to LI
        State::E => match kind {
            Kind::C => State::C,
            Kind::D => State::D,
            Kind::T => State::T,
            Kind::LI => State::LI,
            Kind::E | Kind::S => State::E,
        },
        // after LI: LI to LI, C to C, others to E, Start too
        State::LI => match kind {
            Kind::C => State::C,
            Kind::LI => State::LI,
            _ => State::E,
        },
    }
}

/// The receive diagram's next state, with the kind that the next block counts as. Its steps are those of the transmit diagram, but for
/// Terminate.
pub fn receive(state: State, kind: Kind, next: Kind) -> State {
    match transmit(state, kind) {
        // "T to T if the next block is S or C", in the new edition or LI, "others to E"
        State::T if !matches!(next, Kind::S | Kind::C | Kind::LI) => State::E,
        reached => reached,
    }
}

/// "Lock, fresh: two counts at zero, not locked".
#[derive(Clone, Copy, Default, Debug)]
pub struct Lock {
    pub tested: u32,
    pub invalid: u32,
    pub locked: bool,
}

impl Lock {
    /// Tests a header; true where it slips.
    pub fn test(&mut self, header: [bool; 2]) -> bool {
        let invalid = header[0] == header[1];
        self.tested += 1;
        if invalid {
            self.invalid += 1;
        }
        // "At 16 invalid, or any invalid while not locked: not locked, both counts zero, and one line bit [..] is skipped"
        if self.invalid == 16 || (invalid && !self.locked) {
            *self = Lock::default();
            return true;
        }
        // "Otherwise at 64 tested: locked if none was invalid (else lock stays as it was), and both counts to zero."
        if self.tested == 64 {
            self.locked = self.locked || self.invalid == 0;
            self.tested = 0;
            self.invalid = 0;
        }
        false
    }
}

/// "counts in windows of 19,531 tested blocks"
pub const WINDOW: u32 = 19_531;

#[derive(Clone, Copy, Default, Debug)]
pub struct ErrorRate {
    pub blocks: u32,
    pub invalid: u32,
    pub high: bool,
}

impl ErrorRate {
    /// Counts a tested block: was there lock before it, is there lock after it, is its header invalid?
    pub fn count(&mut self, locked_before: bool, locked: bool, invalid: bool) {
        // "Loss of lock clears all of this", and "the first [window begins] with the block after the one that gave lock".
        if !locked || !locked_before {
            *self = ErrorRate::default();
            return;
        }
        self.blocks += 1;
        if invalid {
            self.invalid += 1;
        }
        // "The 16th invalid header in a window sets `high` at once."
        if self.invalid >= 16 {
            self.high = true;
        }
        // "A window that ends with fewer clears it; one that ends with 16 or more keeps it."
        if self.blocks == WINDOW {
            if self.invalid < 16 {
                self.high = false;
            }
            self.blocks = 0;
            self.invalid = 0;
        }
    }
}
