//! What a response to a request for a robots.txt file means, by RFC 9309, 2.3.1.

use std::time::Duration;

use texting_robots_verified_sys as sys;

use crate::handle;

/// How many redirects in a row are followed, to any host.
pub const REDIRECT_LIMIT: u32 = sys::ROBOTS_REDIRECT_LIMIT;

/// How long a file is used, unless the next can't be reached.
pub const LIFETIME: Duration = Duration::from_secs(sys::ROBOTS_LIFETIME);

/// What came of a request for a robots.txt file. [`Response::new`] makes one, whose fields can then be changed.
#[derive(Debug, Clone, Copy, PartialEq, Eq, Hash)]
#[non_exhaustive]
pub struct Response {
    /// The final status, or `None` if there was no answer.
    pub status: Option<u16>,
    /// How many redirects in a row led to this request: 0 for the site's own address.
    pub redirects: u32,
    /// Whether it has a `Location` that can be asked.
    pub has_location: bool,
    /// Whether the body came to its end, or had [`FILE_LIMIT`](crate::FILE_LIMIT) bytes.
    pub is_complete: bool,
}

/// What a crawler does after a response.
#[derive(Debug, Clone, Copy, PartialEq, Eq, Hash)]
pub enum Meaning {
    /// The body is the site's file.
    Parse,
    /// The file is at the address in `Location`. It counts for the site that was asked first.
    Follow,
    /// There is no file: see [`Site::allow_all`](crate::Site::allow_all).
    AllowAll,
    /// The file can't be reached: keep an earlier one, or see [`Site::deny_all`](crate::Site::deny_all).
    DenyAll,
}

impl Response {
    /// A complete response with this status, without a `Location` and before any redirect.
    #[must_use]
    pub fn new(status: Option<u16>) -> Response {
        Response { status, redirects: 0, has_location: false, is_complete: true }
    }

    /// What the response means. 429 and whatever the standard doesn't name, as 206, 304 and a redirect without `Location`, means that the
    /// file can't be reached.
    #[must_use]
    pub fn meaning(self) -> Meaning {
        let status = self.status.map_or(0, u32::from);
        match handle::meaning(status, self.redirects, self.has_location, self.is_complete) {
            sys::ROBOTS_PARSE => Meaning::Parse,
            sys::ROBOTS_FOLLOW => Meaning::Follow,
            sys::ROBOTS_ALLOW_ALL => Meaning::AllowAll,
            _ => Meaning::DenyAll,
        }
    }
}
