//! Fuzzing of the C calls: what an input is, what is asked of it, and how inputs
//! are changed. plain.rs and libfuzzer.rs are the two drivers.

pub mod change;
pub mod entries;
pub mod given;
pub mod input;
mod required;
pub mod target;

// Shared with the comparison; not all of it is used here.
#[allow(dead_code)]
#[path = "../compare/bench.rs"]
mod bench;
#[allow(dead_code)]
#[path = "../compare/digest.rs"]
mod digest;
#[path = "../compare/fence.rs"]
mod fence;
#[allow(dead_code)]
#[path = "../compare/maker.rs"]
mod maker;
#[allow(dead_code)]
#[path = "../compare/questions.rs"]
mod questions;
#[path = "../compare/quoted.rs"]
#[allow(dead_code)]
mod quoted;
#[allow(dead_code)]
#[path = "../compare/random.rs"]
pub mod random;
#[allow(dead_code)]
#[path = "../compare/shapes.rs"]
mod shapes;

#[path = "../compare/reading"]
mod reading {
    #[allow(dead_code)]
    pub mod demand3;
    #[allow(dead_code)]
    pub mod desk;
}

#[allow(dead_code)]
#[path = "../compare/versions"]
mod versions {
    pub mod desk;
    pub mod texts;
}

#[allow(dead_code)]
#[path = "../compare/writing"]
mod writing {
    pub mod desk;
    pub mod lists;
    pub mod round_trip;
}
