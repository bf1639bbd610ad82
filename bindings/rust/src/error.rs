use std::fmt;

use texting_robots_verified_sys as sys;

/// Why a call has no result.
#[derive(Debug, Clone, Copy, PartialEq, Eq, Hash)]
#[non_exhaustive]
pub enum Error {
    /// A rule for this crawler contains `$` and has more than 4,096 bytes when escaped, each run of stars counted as
    /// one, so the file can't be used for it. What that means is the crawler's policy.
    OverlongRule {
        /// The number of the first line with such a rule, counted from 1.
        line: usize,
    },
    /// A call gave up, since the verdict might have cost more than its budget.
    TooCostly,
    /// An allocation failed, or a URL, escaped, has 4 GiB or more.
    OutOfMemory,
    /// The text isn't a URL of http or https with a host, so it has no robots.txt file.
    NoRobotsUrl,
}

impl fmt::Display for Error {
    fn fmt(&self, f: &mut fmt::Formatter<'_>) -> fmt::Result {
        match self {
            Error::OverlongRule { line } => {
                write!(f, "the rule in line {line} is too long: the file can't be used for this crawler")
            }
            Error::TooCostly => f.write_str("the verdict is too costly for its budget"),
            Error::OutOfMemory => f.write_str("out of memory"),
            Error::NoRobotsUrl => f.write_str("the URL has no robots.txt file"),
        }
    }
}

impl std::error::Error for Error {}

/// The meaning of a status; `line` counts only for a rule that is too long.
pub(crate) fn check(status: i32, line: usize) -> Result<(), Error> {
    match status {
        sys::ROBOTS_OK => Ok(()),
        sys::ROBOTS_OVERLONG_RULE => Err(Error::OverlongRule { line }),
        sys::ROBOTS_TOO_COSTLY => Err(Error::TooCostly),
        sys::ROBOTS_OUT_OF_MEMORY => Err(Error::OutOfMemory),
        sys::ROBOTS_NO_ROBOTS_URL => Err(Error::NoRobotsUrl),
        other => unreachable!("robots.h: status {other}"),
    }
}
