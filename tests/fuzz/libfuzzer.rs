//! The target and its changes for libFuzzer. New sorts of answer count as coverage,
//! beside that of the reference.

use std::path::PathBuf;
use std::ptr::{addr_of_mut, null_mut};
use std::slice::{from_raw_parts, from_raw_parts_mut};
use std::sync::atomic::{AtomicPtr, Ordering};

use fuzz::change::{change, cross, put_digest};
use fuzz::random::Random;
use fuzz::target::{Target, SORTS};

extern "C" {
    // libFuzzer's own changes, which know what the reference compared with.
    fn LLVMFuzzerMutate(data: *mut u8, size: usize, most: usize) -> usize;
    // libc
    fn atexit(call: extern "C" fn()) -> i32;
}

/// libFuzzer takes what stands in this section for coverage.
#[link_section = "__libfuzzer_extra_counters"]
static mut COUNTERS: [u8; SORTS] = [0; SORTS];

static TARGET: AtomicPtr<Target> = AtomicPtr::new(null_mut());

extern "C" fn summary() {
    let target = unsafe { &*TARGET.load(Ordering::SeqCst) };
    eprintln!("fuzz: {} answers agree", target.comparisons());
    eprint!("{}", target.summary());
}

#[no_mangle]
pub extern "C" fn LLVMFuzzerInitialize(_: *mut i32, _: *mut *mut *mut u8) -> i32 {
    let report = std::env::var("FUZZ_REPORT").unwrap_or("difference.rpm".to_string());
    let target = Target::new(PathBuf::from(report), "libFuzzer".to_string());
    TARGET.store(Box::leak(Box::new(target)), Ordering::SeqCst);
    unsafe { atexit(summary) }
}

/// # Safety
/// libFuzzer lends `size` bytes.
#[no_mangle]
pub unsafe extern "C" fn LLVMFuzzerTestOneInput(data: *const u8, size: usize) -> i32 {
    let input = match size {
        0 => &[],
        _ => from_raw_parts(data, size),
    };
    let target = &mut *TARGET.load(Ordering::SeqCst);
    target.run(input);
    for &sort in &target.sorts {
        addr_of_mut!(COUNTERS[sort]).write_volatile(1);
    }
    0
}

/// # Safety
/// libFuzzer lends `most` bytes, of which `size` are the input.
#[no_mangle]
pub unsafe extern "C" fn LLVMFuzzerCustomMutator(
    data: *mut u8,
    size: usize,
    most: usize,
    seed: u32,
) -> usize {
    let mut random = Random::new(seed.into());
    if random.one_in(6) {
        let size = LLVMFuzzerMutate(data, size, most);
        if !random.one_in(4) {
            put_digest(from_raw_parts_mut(data, size));
        }
        return size;
    }
    let mut input = from_raw_parts(data, size).to_vec();
    change(&mut input, &mut random, most);
    from_raw_parts_mut(data, input.len()).copy_from_slice(&input);
    input.len()
}

/// # Safety
/// libFuzzer lends two inputs, and room for a third.
#[no_mangle]
pub unsafe extern "C" fn LLVMFuzzerCustomCrossOver(
    one: *const u8,
    one_size: usize,
    two: *const u8,
    two_size: usize,
    out: *mut u8,
    most: usize,
    seed: u32,
) -> usize {
    let mut random = Random::new(seed.into());
    let mut input = from_raw_parts(one, one_size).to_vec();
    cross(&mut input, from_raw_parts(two, two_size), &mut random, most);
    from_raw_parts_mut(out, input.len()).copy_from_slice(&input);
    input.len()
}
