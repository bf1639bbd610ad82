//! A process that gets no more memory.

use std::os::raw::{c_int, c_ulong};

use texting_robots_verified::{Error, Robot};

const RLIMIT_AS: c_int = 9;

extern "C" {
    fn getrlimit(resource: c_int, limits: *mut [c_ulong; 2]) -> c_int;
    fn setrlimit(resource: c_int, limits: *const [c_ulong; 2]) -> c_int;
}

#[test]
fn without_memory_nothing_is_allowed() {
    let robot = Robot::new("FerrisBot", b"User-agent: *\nAllow: /").unwrap();
    let url = "/\u{f6}".repeat(12_000_000); // escaped, it has 84 MB, and the heap of a thread at most 64
    let mut limits = [0; 2];
    // SAFETY: each call reads or writes two numbers, as `struct rlimit` has.
    let (verdict, allowed) = unsafe {
        assert_eq!(getrlimit(RLIMIT_AS, &mut limits), 0);
        assert_eq!(setrlimit(RLIMIT_AS, &[0, limits[1]]), 0);
        let results = (robot.verdict(&url), robot.allowed(&url));
        assert_eq!(setrlimit(RLIMIT_AS, &limits), 0);
        results
    };
    assert_eq!((verdict, allowed), (Err(Error::OutOfMemory), false));
    assert!(robot.allowed("/\u{f6}"));
}
