//! The reference behind the C calls: a stand-in for the library, to plant faults in.

#![allow(dead_code)]

// run.py puts a copy of the reference beside this file.
#[path = "lib.rs"]
mod reference;

use std::slice::{from_raw_parts, from_raw_parts_mut};

#[no_mangle]
pub unsafe extern "C" fn station_find(
    package: *const u8,
    package_len: usize,
    structure: u32,
    tag: u32,
    ty: u32,
) -> u64 {
    let package = from_raw_parts(package, package_len);
    reference::answer(&reference::find(package, structure, tag, ty))
}

#[no_mangle]
pub unsafe extern "C" fn station_find_element(
    package: *const u8,
    package_len: usize,
    structure: u32,
    tag: u32,
    ty: u32,
    element: u32,
) -> u64 {
    let package = from_raw_parts(package, package_len);
    reference::answer(&reference::find_element(package, structure, tag, ty, element))
}

#[no_mangle]
pub unsafe extern "C" fn station_read(
    edition: u32,
    package: *const u8,
    package_len: usize,
    doses: *mut u8,
    doses_len: usize,
) -> u64 {
    let package = from_raw_parts(package, package_len);
    let doses = from_raw_parts_mut(doses, doses_len);
    reference::reading::read_for_c(edition, package, doses)
}

#[no_mangle]
pub unsafe extern "C" fn station_write(
    name: *const u8,
    name_len: usize,
    signature: *const u8,
    signature_len: usize,
    signature_data: *const u8,
    signature_data_len: usize,
    header: *const u8,
    header_len: usize,
    header_data: *const u8,
    header_data_len: usize,
    package: *mut u8,
    package_len: usize,
) -> u64 {
    let name = from_raw_parts(name, name_len);
    let signature = reference::writer::List {
        entries: from_raw_parts(signature, signature_len),
        data: from_raw_parts(signature_data, signature_data_len),
    };
    let header = reference::writer::List {
        entries: from_raw_parts(header, header_len),
        data: from_raw_parts(header_data, header_data_len),
    };
    let package = from_raw_parts_mut(package, package_len);
    reference::writer::write_for_c(name, signature, header, package)
}

#[no_mangle]
pub unsafe extern "C" fn station_digest(
    bytes: *const u8,
    bytes_len: usize,
    digest: *mut u8,
    digest_len: usize,
) -> u64 {
    let bytes = from_raw_parts(bytes, bytes_len);
    let digest = from_raw_parts_mut(digest, digest_len);
    reference::digest::digest_for_c(bytes, digest)
}

#[no_mangle]
pub unsafe extern "C" fn station_compare(
    left: *const u8,
    left_len: usize,
    right: *const u8,
    right_len: usize,
) -> u32 {
    let left = from_raw_parts(left, left_len);
    let right = from_raw_parts(right, right_len);
    reference::version::compare_for_c(left, right)
}

#[no_mangle]
pub unsafe extern "C" fn station_meets(
    package: *const u8,
    package_len: usize,
    name: *const u8,
    name_len: usize,
    version: *const u8,
    version_len: usize,
) -> u64 {
    let package = from_raw_parts(package, package_len);
    let name = from_raw_parts(name, name_len);
    let version = from_raw_parts(version, version_len);
    reference::requirement::meets_for_c(package, name, version)
}
