//! The C calls: those of the library, and those of an older one where BEFORE_LIB names it. bench.sh then puts
//! `before_` to the front of its names, and builds with `--cfg before`.

macro_rules! calls {
    ($library:ident: $read:ident $find:ident $find_element:ident $write:ident $digest:ident
        $compare:ident $meets:ident) => {
        mod $library {
            use std::hint::black_box;

            use crate::cases::{Buffer, Call, Case, DOSES};
            use crate::lists::Lists;
            use crate::openssl;

            extern "C" {
                fn $read(
                    edition: u32,
                    package: *const u8,
                    len: usize,
                    doses: *mut u8,
                    room: usize,
                ) -> u64;
                fn $find(package: *const u8, len: usize, structure: u32, tag: u32, ty: u32) -> u64;
                fn $find_element(
                    package: *const u8,
                    len: usize,
                    structure: u32,
                    tag: u32,
                    ty: u32,
                    element: u32,
                ) -> u64;
                fn $write(
                    name: *const u8,
                    name_len: usize,
                    signature: *const u8,
                    signature_len: usize,
                    signature_data: *const u8,
                    signature_data_len: usize,
                    header: *const u8,
                    header_len: usize,
                    header_data: *const u8,
                    header_data_len: usize,
                    package: *mut u8,
                    package_len: usize,
                ) -> u64;
                fn $digest(
                    bytes: *const u8,
                    bytes_len: usize,
                    digest: *mut u8,
                    digest_len: usize,
                ) -> u64;
                fn $compare(
                    left: *const u8,
                    left_len: usize,
                    right: *const u8,
                    right_len: usize,
                ) -> u32;
                fn $meets(
                    package: *const u8,
                    package_len: usize,
                    name: *const u8,
                    name_len: usize,
                    version: *const u8,
                    version_len: usize,
                ) -> u64;
            }

            #[inline(never)]
            pub fn run(case: &Case, Buffer(buffer): &mut Buffer) -> u64 {
                let package = black_box(&case.package[..]);
                let (at, len) = (package.as_ptr(), package.len());
                match black_box(case.call) {
                    Call::Read(edition) => unsafe {
                        $read(edition, at, len, buffer.as_mut_ptr(), DOSES)
                    },
                    Call::Find(structure, tag, ty) => unsafe { $find(at, len, structure, tag, ty) },
                    Call::Element(structure, tag, ty, element) => unsafe {
                        $find_element(at, len, structure, tag, ty, element)
                    },
                    Call::Write => write(&case.lists, buffer),
                    Call::Digest => unsafe {
                        $digest(at, len, buffer.as_mut_ptr(), openssl::DIGEST)
                    },
                    Call::Compare => {
                        let right = &black_box(&case.texts)[0];
                        u64::from(unsafe { $compare(at, len, right.as_ptr(), right.len()) })
                    }
                    Call::Meets => {
                        let texts = black_box(&case.texts);
                        let [name, version] = [&texts[0], &texts[1]];
                        unsafe {
                            $meets(
                                at,
                                len,
                                name.as_ptr(),
                                name.len(),
                                version.as_ptr(),
                                version.len(),
                            )
                        }
                    }
                }
            }

            fn write(lists: &Lists, buffer: &mut [u8]) -> u64 {
                let Lists {
                    name,
                    signature: [signature, signature_data],
                    header: [header, header_data],
                } = black_box(lists);
                unsafe {
                    $write(
                        name.as_ptr(),
                        name.len(),
                        signature.as_ptr(),
                        signature.len(),
                        signature_data.as_ptr(),
                        signature_data.len(),
                        header.as_ptr(),
                        header.len(),
                        header_data.as_ptr(),
                        header_data.len(),
                        buffer.as_mut_ptr(),
                        buffer.len(),
                    )
                }
            }
        }
    };
}

calls!(now: station_read station_find station_find_element station_write station_digest
    station_compare station_meets);

// An older one may lack the calls on versions; it is not asked for them, and the library's stand there.
#[cfg(before)]
calls!(before: before_station_read before_station_find before_station_find_element before_station_write
    before_station_digest station_compare station_meets);

#[cfg(not(before))]
mod before {
    use crate::cases::{Buffer, Case};

    pub fn run(_: &Case, _: &mut Buffer) -> u64 {
        0
    }
}

/// One call of the older library.
pub use before::run as run_before;
/// One call of the library.
pub use now::run;

/// Whether there is an older library.
pub const BEFORE: bool = cfg!(before);
