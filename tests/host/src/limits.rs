//! The limits of a replica of one kind, and those of every kind. Bounds are an object's.

#[derive(Clone, Copy, PartialEq, Eq, Debug)]
pub struct Limits {
    pub objects: usize,
    pub pending: usize,
    pub readers: usize,
    pub operations: usize,
}

pub const STANDARD: Limits = Limits { objects: 128, pending: 32, readers: 7, operations: 16 };
pub const SMALL: Limits = Limits { objects: 16, pending: 8, readers: 2, operations: 8 };

pub const CLIENTS: usize = 16;
pub const REGISTERS: usize = 4;
pub const LARGEST_BUDGET: u32 = 4096;
