//! What the proved library is tested and measured with: the papers once more in Rust, random lists of calls, damaged
//! areas, three replicas, neighbours that change places, and the benchmark's workload.

pub mod agreement;
pub mod bodies;
pub mod body;
pub mod bounds_damage;
pub mod calls;
pub mod comparison;
pub mod coverage;
pub mod damage;
pub mod each_field;
pub mod exchange;
pub mod face;
pub mod fields;
pub mod independent;
pub mod layout;
pub mod library;
pub mod limits;
pub mod lists;
pub mod observation;
pub mod openings;
pub mod random;
pub mod serial;
pub mod settings;
pub mod specimens;
pub mod workload;
