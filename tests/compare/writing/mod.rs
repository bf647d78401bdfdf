//! `station_write` against the reference.

pub mod desk;
mod families;
pub mod lists;
mod repeats;
mod round_trip;
mod wrong;

use crate::bench::Bench;
use crate::random::Random;
use desk::{Desk, Memory};
pub use wrong::REASONS;

pub fn all(bench: &mut Bench) {
    let memory = &mut Memory::new();
    let mut desk = Desk { bench, memory };
    for (seed, (name, family)) in families::ALL.iter().enumerate() {
        if desk.bench.begins(name) {
            family(&mut desk, &mut Random::new(200 + seed as u64));
        }
    }
}

/// Shows both writings of what a report's file has.
pub fn show(file: &[u8], room: usize) {
    desk::show(&lists::Lent::of_file(file), room);
}
