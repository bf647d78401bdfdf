//! openssl's MD5 on the same bytes, where it is installed; bench.sh then builds with `--cfg openssl`.

pub const DIGEST: usize = 16;

#[cfg(openssl)]
mod linked {
    use std::ffi::{c_char, c_int, CStr};

    use super::DIGEST;

    #[link(name = "crypto")]
    extern "C" {
        fn MD5(bytes: *const u8, size: usize, digest: *mut u8) -> *mut u8;
        fn OpenSSL_version(what: c_int) -> *const c_char;
    }

    pub fn version() -> String {
        let text = unsafe { CStr::from_ptr(OpenSSL_version(0)) };
        let text = text.to_string_lossy();
        text.split(' ').nth(1).unwrap_or(&text).to_string()
    }

    pub fn digest(bytes: &[u8], room: &mut [u8; DIGEST]) {
        unsafe { MD5(bytes.as_ptr(), bytes.len(), room.as_mut_ptr()) };
    }
}

#[cfg(not(openssl))]
mod linked {
    pub fn version() -> String {
        "missing".to_string()
    }

    pub fn digest(_: &[u8], _: &mut [u8; super::DIGEST]) {}
}

pub use linked::digest;
/// `missing` where openssl is not there.
pub use linked::version;

pub const LINKED: bool = cfg!(openssl);
