//! librpm on the same bytes, where it is installed; bench.sh then builds with `--cfg librpm`.
//!
//! What librpm does with both headers when it opens a package: it copies a header, checks
//! it and imports it (its `headerImport`). Reading a file, the lead's other fields, digests,
//! the payload, and what the entries say are left out. A look-up does the same, and gets a tag
//! of one header (its `headerGet`) without a copy.

#[cfg(librpm)]
mod linked {
    use std::ffi::{c_char, c_int, c_uint, c_void, CStr};
    use std::ops::Range;

    /// Of `headerImport`.
    const COPY: u32 = 1;
    /// Of `headerGet`: no copy.
    const MINMEM: u32 = 1;

    /// Room for a `struct rpmtd_s`, which has 40 bytes.
    type Data = [u64; 8];

    #[link(name = "rpm")]
    extern "C" {
        static RPMVERSION: *const c_char;
        fn headerImport(blob: *mut c_void, size: c_uint, flags: u32) -> *mut c_void;
        fn headerFree(header: *mut c_void) -> *mut c_void;
        fn headerGet(header: *mut c_void, tag: i32, data: *mut Data, flags: u32) -> c_int;
        fn rpmtdFreeData(data: *mut Data);
    }

    #[link(name = "rpmio")]
    extern "C" {
        fn rpmlogSetMask(mask: c_int) -> c_int;
    }

    pub fn version() -> String {
        let text = unsafe { CStr::from_ptr(RPMVERSION) };
        text.to_string_lossy().into_owned()
    }

    fn number(package: &[u8], at: usize) -> Option<usize> {
        let bytes = package.get(at..at + 4)?;
        Some(u32::from_be_bytes(bytes.try_into().unwrap()) as usize)
    }

    /// The bytes librpm imports: from the two lengths behind the magic to the store's end.
    fn blob(package: &[u8], start: usize) -> Option<Range<usize>> {
        if number(package, start)? != 0x8EAD_E801 {
            return None;
        }
        let size = 8 + 16 * number(package, start + 8)? + number(package, start + 12)?;
        let blob = start + 8..start + 8 + size;
        (blob.end <= package.len()).then_some(blob)
    }

    /// Whether it imports a header, and finds the tag in it if one is asked for.
    fn import(package: &[u8], blob: Range<usize>, tag: Option<u32>) -> bool {
        let blob = &package[blob];
        unsafe {
            // With COPY the bytes are only read.
            let header = headerImport(blob.as_ptr() as *mut c_void, blob.len() as c_uint, COPY);
            let found = match tag {
                Some(tag) if !header.is_null() => get(header, tag),
                _ => true,
            };
            headerFree(header);
            !header.is_null() && found
        }
    }

    unsafe fn get(header: *mut c_void, tag: u32) -> bool {
        let mut data: Data = [0; 8];
        let found = headerGet(header, tag as i32, &mut data, MINMEM);
        rpmtdFreeData(&mut data);
        found == 1
    }

    /// Imports both headers; tags may be asked for in each.
    fn both(package: &[u8], tags: [Option<u32>; 2]) -> Option<bool> {
        if number(package, 0)? != 0xEDAB_EEDB {
            return None;
        }
        let signature = blob(package, 96)?;
        let header = blob(package, signature.end.next_multiple_of(8))?;
        Some(import(package, signature, tags[0]) && import(package, header, tags[1]))
    }

    pub fn open(package: &[u8]) -> bool {
        both(package, [None; 2]).unwrap_or(false)
    }

    pub fn find(package: &[u8], structure: u32, tag: u32) -> bool {
        let tags = match structure {
            0 => [Some(tag), None],
            _ => [None, Some(tag)],
        };
        both(package, tags).unwrap_or(false)
    }

    /// No messages where it refuses.
    pub fn silence() {
        unsafe { rpmlogSetMask(0) };
    }
}

#[cfg(not(librpm))]
mod linked {
    pub fn version() -> String {
        "missing".to_string()
    }

    pub fn open(_: &[u8]) -> bool {
        false
    }

    pub fn find(_: &[u8], _: u32, _: u32) -> bool {
        false
    }

    pub fn silence() {}
}

/// Whether librpm imports both headers, and finds a tag in the header (in the signature: 0).
pub use linked::find;
/// Whether librpm imports both headers.
pub use linked::open;
pub use linked::silence;
/// `missing` where librpm is not there.
pub use linked::version;

pub const LINKED: bool = cfg!(librpm);
