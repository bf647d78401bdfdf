//! One call of each side on each case, to be counted by callgrind: with
//! `--zero-before=counted_call --dump-after=counted_call` it writes a file per call. A line
//! for each case: group, name, and the sides in the order of their calls.

use std::hint::black_box;

use crate::cases::{Buffer, Case, Side};

#[no_mangle]
#[inline(never)]
fn counted_call(case: &Case, side: Side, buffer: &mut Buffer) -> u64 {
    black_box(case.run(side, buffer))
}

pub fn all(cases: &[Case]) {
    let mut buffer = Buffer::new();
    for case in cases {
        // Each side runs once before it is counted.
        case.answer();
        let sides = case.sides();
        for &side in &sides {
            counted_call(case, black_box(side), &mut buffer);
        }
        let sides: Vec<String> = sides.iter().map(|side| format!("{side:?}")).collect();
        println!("{}\t{}\t{}", case.group, case.name, sides.join(" "));
    }
}
