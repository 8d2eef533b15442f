//! The proved library by its exports, in two areas of its own. A refusal's number and the zeros beside it are seen here
//! as C sees them; `face.rs` has the Rust package.

use crate::calls::{Calls, Opening};
use jobstore::raw::{self, Committed, Executed, Found, Preview, Value};
use jobstore::{BODIES_LENGTH, RECORD_LENGTH};

/// The two areas that each call is lent. They are public, so that tests can damage them.
#[derive(Clone, PartialEq, Eq)]
pub struct Library {
    pub record: Vec<u8>,
    pub bodies: Vec<u8>,
}

impl Library {
    /// Areas of the right lengths, all zeros: not opened yet.
    #[allow(clippy::new_without_default)]
    pub fn new() -> Library {
        Library { record: vec![0; RECORD_LENGTH], bodies: vec![0; BODIES_LENGTH] }
    }
}

// SAFETY, of each call: the areas and the lent slices are valid for the lengths given and overlap nowhere, and no call
// keeps a pointer. A call that takes `&self` writes nothing, by its contract.
impl Calls for Library {
    fn open(&mut self, opening: &Opening) -> u32 {
        let (record, bodies) = (&mut self.record, &mut self.bodies);
        let Opening { n, values, lower, upper, stamp } = opening;
        unsafe {
            raw::jobstore_open(
                record.as_mut_ptr(),
                record.len(),
                bodies.as_mut_ptr(),
                bodies.len(),
                *n,
                values.as_ptr(),
                values.len(),
                lower.as_ptr(),
                lower.len(),
                upper.as_ptr(),
                upper.len(),
                *stamp,
            )
        }
    }

    fn early(&mut self, client: u32, sequence: u32, body: &[u8]) -> u32 {
        let (record, bodies) = (&mut self.record, &mut self.bodies);
        let (body, length) = (body.as_ptr(), body.len());
        unsafe {
            raw::jobstore_early(
                record.as_mut_ptr(),
                record.len(),
                bodies.as_mut_ptr(),
                bodies.len(),
                client,
                sequence,
                body,
                length,
            )
        }
    }

    fn work(&mut self, count: u32) -> Executed {
        let (record, bodies) = (&mut self.record, &self.bodies);
        unsafe { raw::jobstore_work(record.as_mut_ptr(), record.len(), bodies.as_ptr(), bodies.len(), count) }
    }

    fn deliver_final(&mut self, client: u32, sequence: u32) -> Committed {
        let (record, bodies) = (&mut self.record, &mut self.bodies);
        unsafe {
            raw::jobstore_final(record.as_mut_ptr(), record.len(), bodies.as_mut_ptr(), bodies.len(), client, sequence)
        }
    }

    fn open_reader(&mut self, reader: u32) -> u32 {
        let (record, bodies) = (&mut self.record, &self.bodies);
        unsafe { raw::jobstore_open_reader(record.as_mut_ptr(), record.len(), bodies.as_ptr(), bodies.len(), reader) }
    }

    fn read(&self, reader: u32, object: u32) -> Value {
        let (record, bodies) = (&self.record, &self.bodies);
        unsafe { raw::jobstore_read(record.as_ptr(), record.len(), bodies.as_ptr(), bodies.len(), reader, object) }
    }

    fn close_reader(&mut self, reader: u32) -> u32 {
        let (record, bodies) = (&mut self.record, &self.bodies);
        unsafe { raw::jobstore_close_reader(record.as_mut_ptr(), record.len(), bodies.as_ptr(), bodies.len(), reader) }
    }

    fn find(&self, client: u32, sequence: u32) -> Found {
        let (record, bodies) = (&self.record, &self.bodies);
        unsafe { raw::jobstore_find(record.as_ptr(), record.len(), bodies.as_ptr(), bodies.len(), client, sequence) }
    }

    fn show_body(&self, client: u32, sequence: u32) -> &[u8] {
        let (record, bodies) = (&self.record, &self.bodies);
        let part = unsafe {
            raw::jobstore_show_body(record.as_ptr(), record.len(), bodies.as_ptr(), bodies.len(), client, sequence)
        };
        &bodies[part.start as usize..][..part.length as usize]
    }

    fn dry_run(&self, client: u32, sequence: u32) -> Preview {
        let (record, bodies) = (&self.record, &self.bodies);
        unsafe { raw::jobstore_dry_run(record.as_ptr(), record.len(), bodies.as_ptr(), bodies.len(), client, sequence) }
    }
}
