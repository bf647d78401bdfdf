//! Times per call, in nanoseconds: batches of all sides of a case in turn.
//! Time is the processor's time for this thread, so that other programs' turns don't count.

use std::hint::black_box;

use crate::cases::{Buffer, Case, Side};
use crate::{library, librpm, openssl};

/// How long a batch takes at least.
const BATCH: f64 = 1_500_000.0;
/// How many batches each side has.
const ROUNDS: usize = 101;

extern "C" {
    // libc, on Linux.
    fn sched_getcpu() -> i32;
    fn sched_setaffinity(process: i32, size: usize, mask: *const u64) -> i32;
    fn clock_gettime(clock: i32, time: *mut [i64; 2]) -> i32;
}

const CLOCK_THREAD_CPUTIME_ID: i32 = 3;

fn now() -> f64 {
    let mut time = [0; 2];
    let failed = unsafe { clock_gettime(CLOCK_THREAD_CPUTIME_ID, &mut time) };
    assert!(failed == 0, "no clock for a thread's time");
    time[0] as f64 * 1e9 + time[1] as f64
}

/// Stays on the processor it is on, if the system lets it.
fn pin() -> bool {
    let processor = unsafe { sched_getcpu() };
    if !(0..1024).contains(&processor) {
        return false;
    }
    let mut mask = [0u64; 16];
    mask[processor as usize / 64] = 1 << (processor % 64);
    unsafe { sched_setaffinity(0, size_of_val(&mask), mask.as_ptr()) == 0 }
}

/// The time of so many calls.
fn batch(case: &Case, side: Side, calls: usize, buffer: &mut Buffer) -> f64 {
    let begun = now();
    for _ in 0..calls {
        black_box(case.run(side, buffer));
    }
    now() - begun
}

/// How many calls fill a batch.
fn calls(case: &Case, side: Side, buffer: &mut Buffer) -> usize {
    let mut calls = 1;
    loop {
        let time = batch(case, side, calls, buffer);
        if time >= BATCH {
            return calls;
        }
        let factor = (1.2 * BATCH / time.max(1.0)).clamp(1.2, 100.0);
        calls = (calls as f64 * factor).ceil() as usize;
    }
}

/// The first quartile, the median, the third quartile.
fn quartiles(mut list: Vec<f64>) -> [f64; 3] {
    list.sort_by(f64::total_cmp);
    [0.25, 0.5, 0.75].map(|part| list[((list.len() - 1) as f64 * part).round() as usize])
}

/// The quartiles of one side's times over another's of the same round.
fn ratio(times: &[f64], others: &[f64]) -> [f64; 3] {
    quartiles(times.iter().zip(others).map(|(a, b)| a / b).collect())
}

/// A column.
fn words(quartiles: [f64; 3]) -> String {
    quartiles.map(|number| format!("{number:.4}")).join(" ")
}

/// A line for each case: group, name, bytes, records of signature and header, answer's
/// number and place; quartiles of the library's times, the reference's, and those of each
/// round's ratio; then the times of the peer, librpm or openssl, and its ratio to the library,
/// or a word twice; then the same of the older library.
pub fn all(cases: &[Case]) {
    println!("pinned\t{}", if pin() { "yes" } else { "no" });
    println!("batches\t{ROUNDS}");
    println!("milliseconds\t{}", BATCH / 1e6);
    println!("librpm\t{}", librpm::version());
    println!("openssl\t{}", openssl::version());
    println!("before\t{}", if library::BEFORE { "yes" } else { "no" });
    let mut buffer = Buffer::new();
    let mut measured: Vec<Measured> = cases
        .iter()
        .map(|case| Measured::new(case, &mut buffer))
        .collect();
    // All cases in each round, so that a slow while of the machine falls on all.
    for round in 0..ROUNDS {
        for one in &mut measured {
            one.round(round, &mut buffer);
        }
    }
    for one in measured {
        one.print();
    }
}

/// A side with the calls of its batch and the times of one call.
struct Timed {
    side: Side,
    calls: usize,
    times: Vec<f64>,
}

struct Measured<'a> {
    case: &'a Case,
    answer: u64,
    sides: Vec<Timed>,
}

impl<'a> Measured<'a> {
    fn new(case: &'a Case, buffer: &mut Buffer) -> Measured<'a> {
        let timed = |side| Timed {
            side,
            calls: calls(case, side, buffer),
            times: Vec::new(),
        };
        Measured {
            case,
            answer: case.answer(),
            sides: case.sides().into_iter().map(timed).collect(),
        }
    }

    /// A batch of each side; another one goes first in each round.
    fn round(&mut self, round: usize, buffer: &mut Buffer) {
        let sides = self.sides.len();
        for turn in 0..sides {
            let timed = &mut self.sides[(round + turn) % sides];
            let time = batch(self.case, timed.side, timed.calls, buffer);
            timed.times.push(time / timed.calls as f64);
        }
    }

    fn times(&self, side: Side) -> &[f64] {
        let timed = self.sides.iter().find(|timed| timed.side == side);
        &timed.unwrap().times
    }

    fn quartiles(&self, side: Side) -> String {
        words(quartiles(self.times(side).to_vec()))
    }

    fn ratio(&self, side: Side, other: Side) -> String {
        words(ratio(self.times(side), self.times(other)))
    }

    /// The times of a side and its ratio to the library, or why it takes no part.
    fn beside(&self, side: Result<Side, &'static str>) -> [String; 2] {
        match side {
            Ok(side) => [self.quartiles(side), self.ratio(side, Side::Library)],
            Err(word) => [word.to_string(), word.to_string()],
        }
    }

    fn print(self) {
        let case = self.case;
        let ours = [
            self.quartiles(Side::Library),
            self.quartiles(Side::Reference),
            self.ratio(Side::Library, Side::Reference),
        ];
        let beside = [case.peer(), case.before()].map(|side| self.beside(side));
        let (group, name, bytes) = (case.group, &case.name, case.package.len());
        let [signature, header] = case.records();
        let (number, place) = (self.answer >> 32, self.answer as u32);
        print!("{group}\t{name}\t{bytes}\t{signature}\t{header}\t");
        let columns = [&ours[..], &beside.concat()].concat().join("\t");
        println!("{number}\t{place}\t{columns}");
    }
}
