//! SHA384 of the machine's OpenSSL, found at run time.

use std::os::raw::{c_char, c_int, c_void};

type Sha384 = unsafe extern "C" fn(*const u8, usize, *mut u8) -> *mut u8;

extern "C" {
    fn dlopen(name: *const c_char, flags: c_int) -> *mut c_void;
    fn dlsym(library: *mut c_void, name: *const c_char) -> *mut c_void;
}

const RTLD_NOW: c_int = 2;

/// The function, if the machine has libcrypto.so.3.
pub fn sha384() -> Option<impl Fn(&[u8], &mut [u8; 48])> {
    let found = find()?;
    // SAFETY: the slice is valid for its length and the digest has 48 bytes.
    Some(move |message: &[u8], digest: &mut [u8; 48]| unsafe {
        found(message.as_ptr(), message.len(), digest.as_mut_ptr());
    })
}

fn find() -> Option<Sha384> {
    // SAFETY: the symbol has that type in every OpenSSL 3.
    unsafe {
        let library = dlopen(c"libcrypto.so.3".as_ptr(), RTLD_NOW);
        if library.is_null() {
            return None;
        }
        let symbol = dlsym(library, c"SHA384".as_ptr());
        if symbol.is_null() {
            return None;
        }
        Some(std::mem::transmute::<*mut c_void, Sha384>(symbol))
    }
}
