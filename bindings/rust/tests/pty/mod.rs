//! A pseudo-terminal by the C library's functions, which every Rust program for Linux is linked with.

use std::ffi::{c_char, c_int, c_void, CStr};
use std::fs::{File, OpenOptions};
use std::os::fd::{AsRawFd, FromRawFd};
use std::os::unix::fs::OpenOptionsExt;

extern "C" {
    fn posix_openpt(flags: c_int) -> c_int;
    fn grantpt(fd: c_int) -> c_int;
    fn unlockpt(fd: c_int) -> c_int;
    fn ptsname_r(fd: c_int, name: *mut c_char, len: usize) -> c_int;
    fn tcgetattr(fd: c_int, settings: *mut c_void) -> c_int;
    fn cfmakeraw(settings: *mut c_void);
    fn tcsetattr(fd: c_int, when: c_int, settings: *const c_void) -> c_int;
}

const O_RDWR: c_int = 2;
const O_NOCTTY: c_int = 0o400;
// Else a program that a test starts would keep the modem's end open, and never hear it hang up.
const O_CLOEXEC: c_int = 0o2000000;

/// Both ends of a pseudo-terminal that changes no byte, the modem's and the host's, and the name of the host's.
pub fn pseudo_terminal() -> (File, File, String) {
    // SAFETY: the calls get a descriptor that they gave, a name's memory with its length, and memory for the terminal's
    // settings that is larger than any system's.
    unsafe {
        let fd = posix_openpt(O_RDWR | O_NOCTTY | O_CLOEXEC);
        assert!(fd >= 0, "no pseudo-terminal: {}", std::io::Error::last_os_error());
        let modem = File::from_raw_fd(fd);
        assert_eq!((grantpt(fd), unlockpt(fd)), (0, 0));
        let mut name: [c_char; 128] = [0; 128];
        assert_eq!(ptsname_r(fd, name.as_mut_ptr(), name.len()), 0);
        let path = CStr::from_ptr(name.as_ptr()).to_str().unwrap();
        let host = OpenOptions::new().read(true).write(true).custom_flags(O_NOCTTY).open(path).unwrap();
        let mut settings = [0u64; 64];
        let settings = settings.as_mut_ptr().cast::<c_void>();
        assert_eq!(tcgetattr(host.as_raw_fd(), settings), 0);
        cfmakeraw(settings);
        assert_eq!(tcsetattr(host.as_raw_fd(), 0, settings), 0);
        (modem, host, path.to_owned())
    }
}
