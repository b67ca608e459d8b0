//! The clock that rounds are given: milliseconds, 32 bits of them.

use std::time::Instant;

pub enum Clock {
    /// Milliseconds since the run began.
    Real(Instant),
    /// Round r, counted from 1, has r times so many milliseconds.
    Stepped(u32),
}

impl Clock {
    pub fn real() -> Clock {
        Clock::Real(Instant::now())
    }

    /// The reading for a round. It starts again at zero after 2 to the 32 milliseconds, as the box's counter does.
    pub fn reading(&self, round: u64) -> u32 {
        match self {
            Clock::Real(begun) => begun.elapsed().as_millis() as u32,
            Clock::Stepped(step) => (round as u32).wrapping_mul(*step),
        }
    }
}

#[cfg(test)]
mod tests {
    use super::Clock;

    #[test]
    fn a_stepped_clock_starts_again_at_zero() {
        let clock = Clock::Stepped(1 << 31);
        assert_eq!([1, 2, 3].map(|round| clock.reading(round)), [1 << 31, 0, 1 << 31]);
        assert_eq!(Clock::Stepped(100).reading((1 << 32) + 7), 700);
    }
}
