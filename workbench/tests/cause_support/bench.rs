//! A box in which a routine runs to its end.

use crate::field::record_at;
use kernel::sizes::{AREA_LEN, ROUND_OUTPUT};
use workbench::cause::{self, Cause};
use workbench::layout::{live_record, Record, ENDED, RECORD_LEN};

pub struct Bench {
    pub disc: Vec<u8>,
    pub area: Vec<u8>,
}

impl Bench {
    pub fn new(length: usize) -> Bench {
        let (mut disc, mut area) = (vec![0; length], vec![0; AREA_LEN]);
        assert_eq!(kernel::format(&mut disc, &mut area), 0);
        Bench { disc, area }
    }

    pub fn store(&mut self, name: &str, data: &[u8]) {
        assert_eq!(kernel::store(&mut self.disc, name.as_bytes(), data), 0, "{name}");
    }

    /// Stores and starts a program.
    pub fn start(&mut self, name: &str, code: &[u8]) -> usize {
        self.store(name, code);
        let id = kernel::run(&self.disc, &mut self.area, name.as_bytes());
        usize::try_from(id).expect("a new ID")
    }

    pub fn round(&mut self) {
        let printed = kernel::round(&mut self.disc, &mut self.area, 0, &mut [0; ROUND_OUTPUT]);
        assert!(printed >= 0);
    }

    /// A program of so many instructions runs, keeps its variables and has no more turns.
    pub fn neighbour(&mut self, name: &str, code: &[u8], rounds: usize) {
        let id = self.start(name, code);
        (0..rounds).for_each(|_| self.round());
        assert_eq!(kernel::suspend(&self.disc, &mut self.area, id as u32), 0, "{name} lives");
    }

    /// Runs a program until it ends by a fault, and gives what was explained before its last turn.
    pub fn ended(&mut self, name: &str, code: &[u8]) -> (usize, Cause) {
        let id = self.start(name, code);
        let slot = live_record(&self.area, id).expect("it lives").slot;
        for _ in 0..1000 {
            let explained = cause::of_turn(&self.disc, &self.area, slot);
            self.round();
            let record = Record::of(&self.area, slot);
            match explained {
                Some(cause) => {
                    assert_eq!((record.state(), record.fault()), (ENDED, cause.fault), "{cause:?}");
                    return (id, cause);
                }
                None => assert_ne!(record.state(), ENDED, "it ended by fault {}, and none was told", record.fault()),
            }
        }
        panic!("it does not end: {:?}", &self.area[record_at(slot)..][..RECORD_LEN]);
    }
}
