//! The Rust package, its answers turned back into the papers' numbers.

use crate::calls::{Calls, Opening};
use crate::library::Library;
use jobstore::raw::{Committed, Executed, Found, Preview, Value};
use jobstore::{Bounds, Refusal, Replica, PREVIEW_PLACES};

pub struct Face {
    replica: Replica,
}

impl From<Library> for Face {
    fn from(Library { record, bodies }: Library) -> Face {
        Face { replica: Replica::over(record, bodies) }
    }
}

impl Face {
    pub fn into_areas(self) -> Library {
        let (record, bodies) = self.replica.into_areas();
        Library { record, bodies }
    }
}

fn number(answer: Result<(), Refusal>) -> u32 {
    answer.map_or_else(Refusal::number, |()| 0)
}

pub fn committed(answer: Result<jobstore::Committed, Refusal>) -> Committed {
    match answer {
        Ok(jobstore::Committed { outcome, kept, stamp, stored, operations, .. }) => {
            Committed { number: 0, outcome: outcome.number(), kept: u32::from(kept), stamp, stored, operations }
        }
        Err(refusal) => Committed { number: refusal.number(), outcome: 0, kept: 0, stamp: 0, stored: 0, operations: 0 },
    }
}

/// Zeros beside a refusal: what the package does not give, and so cannot get wrong.
impl Calls for Face {
    /// The package counts the values itself: `n` is their number. It has a call of its own for the widest bounds.
    fn open(&mut self, opening: &Opening) -> u32 {
        let Opening { n, values, lower, upper, stamp } = opening;
        assert_eq!(*n as usize, values.len());
        number(if opening.is_plain() {
            self.replica.open(values, *stamp)
        } else {
            self.replica.open_with_bounds(values, Bounds { lower, upper }, *stamp)
        })
    }

    fn early(&mut self, client: u32, sequence: u32, body: &[u8]) -> u32 {
        number(self.replica.deliver_early((client, sequence), body))
    }

    fn work(&mut self, count: u32) -> Executed {
        match self.replica.work(count) {
            Ok(done) => Executed { number: 0, operations: done.operations, finished: done.finished },
            Err(refusal) => Executed { number: refusal.number(), operations: 0, finished: 0 },
        }
    }

    fn deliver_final(&mut self, client: u32, sequence: u32) -> Committed {
        committed(self.replica.deliver_final((client, sequence)))
    }

    fn open_reader(&mut self, reader: u32) -> u32 {
        number(self.replica.open_reader(reader))
    }

    fn read(&self, reader: u32, object: u32) -> Value {
        match self.replica.read(reader, object) {
            Ok(reading) => Value { number: 0, value: reading.value, stamp: reading.stamp },
            Err(refusal) => Value { number: refusal.number(), value: 0, stamp: 0 },
        }
    }

    fn close_reader(&mut self, reader: u32) -> u32 {
        number(self.replica.close_reader(reader))
    }

    fn find(&self, client: u32, sequence: u32) -> Found {
        match self.replica.find((client, sequence)) {
            Ok(found) => Found { number: 0, place: found.place as u32, length: found.length as u32 },
            Err(refusal) => Found { number: refusal.number(), place: 0, length: 0 },
        }
    }

    fn show_body(&self, client: u32, sequence: u32) -> &[u8] {
        self.replica.show_body((client, sequence)).unwrap_or_default()
    }

    fn dry_run(&self, client: u32, sequence: u32) -> Preview {
        match self.replica.dry_run((client, sequence)) {
            Ok(jobstore::Preview { outcome, kept, stamp, values, .. }) => {
                Preview { number: 0, outcome: outcome.number(), kept: u32::from(kept), stamp, values }
            }
            Err(refusal) => {
                Preview { number: refusal.number(), outcome: 0, kept: 0, stamp: 0, values: [0; PREVIEW_PLACES] }
            }
        }
    }
}
