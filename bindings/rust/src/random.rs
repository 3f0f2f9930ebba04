//! The system's source of random numbers.

use std::ffi::{c_uint, c_void};
use std::io;

unsafe extern "C" {
    fn getrandom(room: *mut c_void, len: usize, flags: c_uint) -> isize;
}

/// So many random bytes of the system's source. A call that a signal broke off is made again.
///
/// # Errors
/// The system's.
pub fn bytes<const N: usize>() -> io::Result<[u8; N]> {
    let mut made = [0; N];
    let mut rest = &mut made[..];
    while !rest.is_empty() {
        // SAFETY: it writes at most so many bytes, to room of that length which nothing else
        // reaches.
        let count = unsafe { getrandom(rest.as_mut_ptr().cast(), rest.len(), 0) };
        match usize::try_from(count) {
            Ok(count) => rest = rest.get_mut(count..).unwrap_or_default(),
            Err(_) => {
                let error = io::Error::last_os_error();
                if error.kind() != io::ErrorKind::Interrupted {
                    return Err(error);
                }
            }
        }
    }
    Ok(made)
}
