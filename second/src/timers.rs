//! The timers, and the set of those that run.

#[derive(Clone, Copy, Debug, PartialEq, Eq)]
pub enum Timer {
    T1,
    T2,
    T3,
    T4,
    T7,
    T8,
    T20,
}

impl Timer {
    /// All timers by ascending number.
    pub const ALL: [Timer; 7] = [
        Timer::T1,
        Timer::T2,
        Timer::T3,
        Timer::T4,
        Timer::T7,
        Timer::T8,
        Timer::T20,
    ];

    pub fn number(self) -> u32 {
        match self {
            Timer::T1 => 1,
            Timer::T2 => 2,
            Timer::T3 => 3,
            Timer::T4 => 4,
            Timer::T7 => 7,
            Timer::T8 => 8,
            Timer::T20 => 20,
        }
    }

    pub fn numbered(number: u32) -> Option<Timer> {
        Timer::ALL
            .into_iter()
            .find(|timer| timer.number() == number)
    }
}

/// The timers that run: bit n is timer Tn.
#[derive(Clone, Copy, Debug, Default, PartialEq, Eq)]
pub struct Ticking(u32);

impl Ticking {
    pub const NONE: Ticking = Ticking(0);

    pub fn only(timers: &[Timer]) -> Ticking {
        timers
            .iter()
            .fold(Ticking::NONE, |running, &timer| running.and(timer))
    }

    pub fn and(self, timer: Timer) -> Ticking {
        Ticking(self.0 | 1 << timer.number())
    }

    pub fn without(self, timer: Timer) -> Ticking {
        Ticking(self.0 & !(1 << timer.number()))
    }

    pub fn has(self, timer: Timer) -> bool {
        self.0 & 1 << timer.number() != 0
    }

    /// Those that run, by ascending number.
    pub fn timers(self) -> impl Iterator<Item = Timer> {
        Timer::ALL.into_iter().filter(move |&timer| self.has(timer))
    }
}
