//! The calls of the C library `robots_c`. Its header `robots.h`, which is `c/robots.h` in a release, explains each of them.
#![allow(non_camel_case_types)]

use std::marker::{PhantomData, PhantomPinned};
use std::os::raw::{c_char, c_void};

pub const ROBOTS_VERSION: u32 = 10_000;
pub const ROBOTS_FILE_LIMIT: usize = 512_000;

pub const ROBOTS_OK: i32 = 0;
pub const ROBOTS_NOT_UTF8: i32 = -1;
pub const ROBOTS_OUT_OF_MEMORY: i32 = -2;
pub const ROBOTS_BUFFER_TOO_SMALL: i32 = -3;
pub const ROBOTS_NO_DELAY: i32 = -4;
pub const ROBOTS_NO_ROBOTS_URL: i32 = -5;
pub const ROBOTS_OVERLONG_RULE: i32 = -6;
pub const ROBOTS_INVALID_ENDS: i32 = -7;
pub const ROBOTS_TOO_COSTLY: i32 = -8;

pub const ROBOTS_PARSE: i32 = 0;
pub const ROBOTS_FOLLOW: i32 = 1;
pub const ROBOTS_ALLOW_ALL: i32 = 2;
pub const ROBOTS_DENY_ALL: i32 = 3;
pub const ROBOTS_DENY_ALL_FILE: &str = "User-agent: *\nDisallow: *\n";
pub const ROBOTS_REDIRECT_LIMIT: u32 = 5;
pub const ROBOTS_LIFETIME: u64 = 86400;

pub const ROBOTS_NO_VERDICT: i64 = i64::MIN;

/// A file as one crawler reads it: its rules and delay.
#[repr(C)]
pub struct robots_robot {
    _private: [u8; 0],
    _marker: PhantomData<(*mut u8, PhantomPinned)>,
}

/// A file that is read once for all crawlers.
#[repr(C)]
pub struct robots_site {
    _private: [u8; 0],
    _marker: PhantomData<(*mut u8, PhantomPinned)>,
}

#[rustfmt::skip] // as in the header
extern "C" {
    pub fn robots_version() -> u32;

    pub fn robots_open(agent: *const c_char, agent_len: usize, file: *const c_void, file_len: usize,
                       robot: *mut *mut robots_robot, line: *mut usize) -> i32;
    pub fn robots_verdict(robot: *const robots_robot, url: *const c_char, url_len: usize, verdict: *mut i64) -> i32;
    pub fn robots_verdict_within(robot: *const robots_robot, url: *const c_char, url_len: usize, budget: u64,
                                 verdict: *mut i64) -> i32;
    pub fn robots_cost(robot: *const robots_robot, length: usize) -> u64;
    pub fn robots_memory(robot: *const robots_robot) -> usize;
    pub fn robots_verdicts(robot: *const robots_robot, urls: *const c_char, urls_len: usize,
                           verdicts: *mut i64, verdicts_len: usize) -> i32;
    pub fn robots_verdicts_batch(robot: *const robots_robot, urls: *const c_void, urls_len: usize, ends: *const usize, n: usize,
                                 verdicts: *mut i64) -> i32;
    pub fn robots_delay(robot: *const robots_robot, microseconds: *mut u64) -> i32;
    pub fn robots_close(robot: *mut robots_robot);

    pub fn robots_verdicts_of_file(agent: *const c_char, agent_len: usize, file: *const c_void, file_len: usize,
                                   urls: *const c_char, urls_len: usize, verdicts: *mut i64, verdicts_len: usize, line: *mut usize) -> i32;

    pub fn robots_site_open(file: *const c_void, file_len: usize, site: *mut *mut robots_site) -> i32;
    pub fn robots_site_open_rfc9309(file: *const c_void, file_len: usize, site: *mut *mut robots_site) -> i32;
    pub fn robots_site_robot(site: *const robots_site, agent: *const c_char, agent_len: usize,
                             robot: *mut *mut robots_robot, line: *mut usize) -> i32;
    pub fn robots_site_matrix(site: *const robots_site, agents: *const c_char, agents_len: usize,
                              urls: *const c_char, urls_len: usize, verdicts: *mut i64, verdicts_len: usize) -> i32;
    pub fn robots_site_delay(site: *const robots_site, agent: *const c_char, agent_len: usize,
                             microseconds: *mut u64) -> i32;
    pub fn robots_site_memory(site: *const robots_site) -> usize;
    pub fn robots_site_sitemaps(site: *const robots_site, out: *mut c_char, out_len: usize, len: *mut usize) -> i32;
    pub fn robots_site_agents(site: *const robots_site, out: *mut c_char, out_len: usize, len: *mut usize) -> i32;
    pub fn robots_site_is_named(site: *const robots_site, agent: *const c_char, agent_len: usize) -> i32;
    pub fn robots_site_close(site: *mut robots_site);

    pub fn robots_url(url: *const c_char, url_len: usize, out: *mut c_char, out_len: usize, len: *mut usize) -> i32;

    pub fn robots_response_meaning(status: u32, redirects: u32, has_location: bool, is_complete: bool) -> i32;

    pub fn robots_may_fetch(verdict: i64) -> i32;
    pub fn robots_verdict_line(verdict: i64) -> i64;
    pub fn robots_status_text(status: i32) -> *const c_char;
}
