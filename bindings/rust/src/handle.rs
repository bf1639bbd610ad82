//! All unsafe code: the calls of the C library, on robots and sites that it opened.

use std::os::raw::c_char;
use std::ptr::{self, NonNull};

use texting_robots_verified_sys as sys;

use crate::error::{check, Error};

/// A robot that is open until this value is dropped.
pub(crate) struct Robot(Handle<sys::robots_robot>);

/// A site that is open until this value is dropped.
pub(crate) struct Site(Handle<sys::robots_site>);

/// A handle of the C library.
struct Handle<T>(NonNull<T>);

// SAFETY: a handle belongs to no thread, and any number of calls that only read what is open may run at the same time, as robots.h says.
unsafe impl<T> Send for Handle<T> {}
unsafe impl<T> Sync for Handle<T> {}

impl<T> Handle<T> {
    fn new(opened: *mut T) -> Handle<T> {
        Handle(NonNull::new(opened).expect("robots.h: what is open isn't NULL"))
    }

    fn as_ptr(&self) -> *mut T {
        self.0.as_ptr()
    }
}

// SAFETY, of each call below: each text is a slice, so its pointer is valid for its length; what is written is a variable or a buffer of
// this module, which overlaps nothing; and what is open is borrowed, so that nobody closes it during the call.

impl Site {
    pub(crate) fn open(txt: &[u8]) -> Result<Site, Error> {
        let mut site = ptr::null_mut();
        check(unsafe { sys::robots_site_open(txt.as_ptr().cast(), txt.len(), &mut site) }, 0)?;
        Ok(Site(Handle::new(site)))
    }

    /// As RFC 9309 reads it.
    pub(crate) fn open_rfc9309(txt: &[u8]) -> Result<Site, Error> {
        let mut site = ptr::null_mut();
        check(unsafe { sys::robots_site_open_rfc9309(txt.as_ptr().cast(), txt.len(), &mut site) }, 0)?;
        Ok(Site(Handle::new(site)))
    }

    pub(crate) fn robot(&self, agent: &str) -> Result<Robot, Error> {
        let (mut robot, mut line) = (ptr::null_mut(), 0);
        let status = unsafe {
            sys::robots_site_robot(self.0.as_ptr(), agent.as_ptr().cast(), agent.len(), &mut robot, &mut line)
        };
        check(status, line)?;
        Ok(Robot(Handle::new(robot)))
    }

    /// The verdicts for texts with a line feed between one item and the next.
    pub(crate) fn matrix(&self, agents: &str, urls: &str, verdicts: &mut [i64]) -> Result<(), Error> {
        let status = unsafe {
            let (agents, agents_len, urls, urls_len) =
                (agents.as_ptr().cast(), agents.len(), urls.as_ptr().cast(), urls.len());
            sys::robots_site_matrix(
                self.0.as_ptr(),
                agents,
                agents_len,
                urls,
                urls_len,
                verdicts.as_mut_ptr(),
                verdicts.len(),
            )
        };
        check(status, 0)
    }

    pub(crate) fn delay(&self, agent: &str) -> Option<u64> {
        let mut delay = 0;
        let status = unsafe { sys::robots_site_delay(self.0.as_ptr(), agent.as_ptr().cast(), agent.len(), &mut delay) };
        (status == sys::ROBOTS_OK).then_some(delay)
    }

    pub(crate) fn memory(&self) -> usize {
        unsafe { sys::robots_site_memory(self.0.as_ptr()) }
    }

    pub(crate) fn is_named(&self, agent: &str) -> bool {
        unsafe { sys::robots_site_is_named(self.0.as_ptr(), agent.as_ptr().cast(), agent.len()) == 1 }
    }

    /// The length of the file is enough room, so one call suffices.
    pub(crate) fn sitemaps(&self, room: usize) -> Result<Vec<String>, Error> {
        Ok(lines(&written(room, |out, room, len| unsafe {
            sys::robots_site_sitemaps(self.0.as_ptr(), out, room, len)
        })?))
    }

    pub(crate) fn agents(&self) -> Result<Vec<String>, Error> {
        Ok(lines(&written(1024, |out, room, len| unsafe { sys::robots_site_agents(self.0.as_ptr(), out, room, len) })?))
    }
}

impl Drop for Site {
    fn drop(&mut self) {
        unsafe { sys::robots_site_close(self.0.as_ptr()) }
    }
}

impl Robot {
    /// 0, the line that allows the URL, or minus the line that denies it.
    pub(crate) fn verdict(&self, url: &str) -> Result<i64, Error> {
        let mut verdict = 0;
        check(unsafe { sys::robots_verdict(self.0.as_ptr(), url.as_ptr().cast(), url.len(), &mut verdict) }, 0)?;
        Ok(verdict)
    }

    pub(crate) fn verdict_within(&self, url: &str, budget: u64) -> Result<i64, Error> {
        let mut verdict = 0;
        let status = unsafe {
            sys::robots_verdict_within(self.0.as_ptr(), url.as_ptr().cast(), url.len(), budget, &mut verdict)
        };
        check(status, 0)?;
        Ok(verdict)
    }

    pub(crate) fn cost(&self, len: usize) -> u64 {
        unsafe { sys::robots_cost(self.0.as_ptr(), len) }
    }

    pub(crate) fn memory(&self) -> usize {
        unsafe { sys::robots_memory(self.0.as_ptr()) }
    }

    /// In microseconds.
    pub(crate) fn delay(&self) -> Option<u64> {
        let mut delay = 0;
        (unsafe { sys::robots_delay(self.0.as_ptr(), &mut delay) } == sys::ROBOTS_OK).then_some(delay)
    }
}

impl Drop for Robot {
    fn drop(&mut self) {
        unsafe { sys::robots_close(self.0.as_ptr()) }
    }
}

/// A number of `robots_meaning`.
pub(crate) fn meaning(status: u32, redirects: u32, has_location: bool, is_complete: bool) -> i32 {
    unsafe { sys::robots_response_meaning(status, redirects, has_location, is_complete) }
}

pub(crate) fn robots_url(url: &str) -> Result<String, Error> {
    written(256, |out, room, len| unsafe { sys::robots_url(url.as_ptr().cast(), url.len(), out, room, len) })
}

/// What a call writes into a buffer with this room, which grows to the length that the call then needs.
fn written(room: usize, call: impl Fn(*mut c_char, usize, &mut usize) -> i32) -> Result<String, Error> {
    let mut text: Vec<u8> = Vec::with_capacity(room);
    let mut len = 0;
    loop {
        let status = call(text.as_mut_ptr().cast(), text.capacity(), &mut len);
        if status != sys::ROBOTS_BUFFER_TOO_SMALL {
            check(status, 0)?;
            // SAFETY: the call has written so many bytes
            unsafe { text.set_len(len) };
            return Ok(String::from_utf8(text).expect("robots.h: what is written is UTF-8"));
        }
        text = Vec::with_capacity(len);
    }
}

fn lines(text: &str) -> Vec<String> {
    text.split_terminator('\n').map(str::to_owned).collect()
}
