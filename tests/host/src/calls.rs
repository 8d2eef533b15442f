//! The ten calls: as methods, and with their answers as data, so that lists of calls can be kept, repeated and shortened.

use crate::body::decode;
use jobstore::raw::{Committed, Executed, Found, Preview, Value};
use jobstore::PREVIEW_PLACES;
use std::fmt;

/// What an opening is given. That there are n values and n of each bound is for the replica to ask.
#[derive(Clone, PartialEq, Eq)]
pub struct Opening {
    pub n: u32,
    pub values: Vec<i64>,
    pub lower: Vec<i64>,
    pub upper: Vec<i64>,
    pub stamp: u32,
}

impl Opening {
    /// The widest bounds.
    pub fn plain(values: &[i64], stamp: u32) -> Opening {
        let n = values.len();
        Opening { n: n as u32, values: values.to_vec(), lower: vec![i64::MIN; n], upper: vec![i64::MAX; n], stamp }
    }

    pub fn is_plain(&self) -> bool {
        *self == Opening::plain(&self.values, self.stamp)
    }
}

#[derive(Clone, PartialEq, Eq)]
pub enum Call {
    Open(Opening),
    Early { client: u32, sequence: u32, body: Vec<u8> },
    Work { count: u32 },
    Final { client: u32, sequence: u32 },
    OpenReader { reader: u32 },
    Read { reader: u32, object: u32 },
    CloseReader { reader: u32 },
    Find { client: u32, sequence: u32 },
    ShowBody { client: u32, sequence: u32 },
    DryRun { client: u32, sequence: u32 },
}

#[derive(Clone, PartialEq, Eq, Debug)]
pub enum Answer {
    Number(u32),
    Executed(Executed),
    Committed(Committed),
    Value(Value),
    Found(Found),
    Body(Vec<u8>),
    Preview(Box<Preview>),
}

/// What has the ten calls. Answers are the papers': a number, and what stands beside it.
pub trait Calls {
    fn open(&mut self, opening: &Opening) -> u32;
    fn early(&mut self, client: u32, sequence: u32, body: &[u8]) -> u32;
    fn work(&mut self, count: u32) -> Executed;
    fn deliver_final(&mut self, client: u32, sequence: u32) -> Committed;
    fn open_reader(&mut self, reader: u32) -> u32;
    fn read(&self, reader: u32, object: u32) -> Value;
    fn close_reader(&mut self, reader: u32) -> u32;
    fn find(&self, client: u32, sequence: u32) -> Found;
    /// Empty exactly when `find` refuses.
    fn show_body(&self, client: u32, sequence: u32) -> &[u8];
    /// As [`previewed`] has it from the final delivery.
    fn dry_run(&self, client: u32, sequence: u32) -> Preview;

    fn perform(&mut self, call: &Call) -> Answer {
        match *call {
            Call::Open(ref opening) => Answer::Number(self.open(opening)),
            Call::Early { client, sequence, ref body } => Answer::Number(self.early(client, sequence, body)),
            Call::Work { count } => Answer::Executed(self.work(count)),
            Call::Final { client, sequence } => Answer::Committed(self.deliver_final(client, sequence)),
            Call::OpenReader { reader } => Answer::Number(self.open_reader(reader)),
            Call::Read { reader, object } => Answer::Value(self.read(reader, object)),
            Call::CloseReader { reader } => Answer::Number(self.close_reader(reader)),
            Call::Find { client, sequence } => Answer::Found(self.find(client, sequence)),
            Call::ShowBody { client, sequence } => Answer::Body(self.show_body(client, sequence).to_vec()),
            Call::DryRun { client, sequence } => Answer::Preview(Box::new(self.dry_run(client, sequence))),
        }
    }
}

impl Call {
    /// The paper's name.
    pub fn name(&self) -> &'static str {
        match self {
            Call::Open(_) => "open",
            Call::Early { .. } => "early",
            Call::Work { .. } => "work",
            Call::Final { .. } => "final",
            Call::OpenReader { .. } => "open reader",
            Call::Read { .. } => "read",
            Call::CloseReader { .. } => "close",
            Call::Find { .. } => "find",
            Call::ShowBody { .. } => "show body",
            Call::DryRun { .. } => "dry run",
        }
    }
}

impl Answer {
    /// The number in front, where there is one.
    pub fn number(&self) -> Option<u32> {
        match self {
            Answer::Number(number) => Some(*number),
            Answer::Executed(executed) => Some(executed.number),
            Answer::Committed(committed) => Some(committed.number),
            Answer::Value(value) => Some(value.number),
            Answer::Found(found) => Some(found.number),
            Answer::Body(_) => None,
            Answer::Preview(preview) => Some(preview.number),
        }
    }

    pub fn refused(&self) -> bool {
        self.number().map_or(*self == Answer::Body(Vec::new()), |number| number != 0)
    }

    /// What the plain table's answer has to equal.
    pub fn seen(&self) -> Answer {
        match *self {
            Answer::Executed(Executed { number, .. }) => {
                Answer::Executed(Executed { number, operations: 0, finished: 0 })
            }
            Answer::Committed(committed) => Answer::Committed(seen(committed)),
            Answer::Preview(ref preview) => Answer::Preview(Box::new(Preview { kept: 0, ..**preview })),
            ref other => other.clone(),
        }
    }
}

/// What the plain table's final delivery has to equal: it keeps nothing, and counts no operations.
pub fn seen(committed: Committed) -> Committed {
    Committed { kept: 0, operations: 0, ..committed }
}

/// What a dry run yields, from the final delivery done on a copy and the values there after it: 128 places whatever the
/// limits, zeros past the last object, and beside a refusal nothing but zeros.
pub fn previewed(committed: Committed, after: impl IntoIterator<Item = i64>) -> Preview {
    let Committed { number, outcome, kept, stamp, .. } = committed;
    let mut values = [0; PREVIEW_PLACES];
    if number == 0 {
        values.iter_mut().zip(after).for_each(|(place, value)| *place = value);
    }
    Preview { number, outcome, kept, stamp, values }
}

impl fmt::Debug for Opening {
    fn fmt(&self, out: &mut fmt::Formatter) -> fmt::Result {
        write!(out, "open {} {:?} {}", self.n, self.values, self.stamp)?;
        if self.is_plain() {
            Ok(())
        } else {
            write!(out, " lower {:?} upper {:?}", self.lower, self.upper)
        }
    }
}

impl fmt::Debug for Call {
    fn fmt(&self, out: &mut fmt::Formatter) -> fmt::Result {
        match self {
            Call::Open(opening) => write!(out, "{opening:?}"),
            Call::Early { client, sequence, body } => match decode(body, 16, 128) {
                Ok(operations) => write!(out, "early ({client}, {sequence}) {operations:?}"),
                Err(flaw) => write!(out, "early ({client}, {sequence}) {body:?} ({flaw})"),
            },
            Call::Work { count } => write!(out, "work {count}"),
            Call::Final { client, sequence } => write!(out, "final ({client}, {sequence})"),
            Call::OpenReader { reader } => write!(out, "open reader {reader}"),
            Call::Read { reader, object } => write!(out, "read {reader} {object}"),
            Call::CloseReader { reader } => write!(out, "close {reader}"),
            Call::Find { client, sequence } => write!(out, "find ({client}, {sequence})"),
            Call::ShowBody { client, sequence } => write!(out, "show body ({client}, {sequence})"),
            Call::DryRun { client, sequence } => write!(out, "dry run ({client}, {sequence})"),
        }
    }
}
