//! `station_read` against the reference, each case at every edition.

mod accepted;
mod books;
mod damage;
mod demand3;
mod desk;
mod digests;
mod families;
mod gaps;
mod locales;
mod lots;
mod repeats;
mod written;

use std::path::Path;

use crate::bench::Bench;
use crate::random::Random;
pub use desk::show;
use desk::Desk;

pub fn all(bench: &mut Bench, data: &Path) {
    demand3::try_out();
    let mut desk = Desk::new(bench);
    for (seed, (name, family)) in families::ALL.iter().enumerate() {
        if desk.bench.begins(name) {
            family(&mut desk, &mut Random::new(100 + seed as u64));
        }
    }
    if desk.bench.begins("reading packages of other writers") {
        families::other_writers(&mut desk, &mut Random::new(199), data);
    }
    if desk.bench.all_families() {
        editions_compared(&desk);
    }
}

/// How often two editions had to do with each other in each way; each must have come up.
fn editions_compared(desk: &Desk) {
    for of in demand3::cases() {
        let count = desk.cases.get(&of).unwrap_or(&0);
        let (earlier, later, case) = of;
        println!("compare: editions {earlier} and {later}, {case}: {count}");
        assert!(*count > 0, "it never came up");
    }
}
