//! The API of `texting_robots` 0.2.2, also the types of its errors, over `texting_robots_verified`. A program that uses that crate changes one
//! line of `Cargo.toml`:
//!
//! ```toml
//! texting_robots = { package = "texting_robots_verified-compat", version = "1.0.0" }
//! ```
//!
//! ```
//! # use texting_robots_verified_compat as texting_robots;
//! use texting_robots::{get_robots_url, Robot};
//!
//! let robot = Robot::new("FerrisBot", b"User-agent: *\nDisallow: /search\nCrawl-delay: 2.5\nSitemap: https://example.com/s.xml").unwrap();
//! assert!(!robot.allowed("https://example.com/search"));
//! assert_eq!(robot.delay, Some(2.5));
//! assert_eq!(robot.sitemaps, vec!["https://example.com/s.xml"]);
//! assert_eq!(get_robots_url("https://example.com/a").unwrap(), "https://example.com/robots.txt");
//! ```
#![deny(missing_docs)]
#![forbid(unsafe_code)]

use std::fmt;

use texting_robots_verified as verified;
use url::{ParseError, Url};

/// The root cause of an error of [`Robot::new`], unless an allocation failed.
#[derive(Debug, Clone, Copy, PartialEq, Eq, Hash)]
pub enum Error {
    /// The file can't be used for the crawler.
    InvalidRobots,
}

impl fmt::Display for Error {
    fn fmt(&self, f: &mut fmt::Formatter<'_>) -> fmt::Result {
        f.write_str("the robots.txt file can't be used for this crawler")
    }
}

impl std::error::Error for Error {}

/// A robots.txt file as one crawler reads it.
#[derive(Debug)]
pub struct Robot {
    /// How many seconds the crawler waits between two requests, if the file specifies that.
    pub delay: Option<f32>,
    /// The sitemaps that the file lists.
    pub sitemaps: Vec<String>,
    robot: verified::Robot,
}

impl Robot {
    /// Reads a file, which may be any bytes, for the crawler with this product token: `FerrisBot`, not `FerrisBot/1.0`.
    ///
    /// # Errors
    ///
    /// [`Error::InvalidRobots`] in the context of what says the line, if a rule for the crawler is too long; and another error if an
    /// allocation failed.
    pub fn new(agent: &str, txt: &[u8]) -> Result<Robot, anyhow::Error> {
        let robot = verified::Robot::new(agent, txt).map_err(|why| match why {
            verified::Error::OverlongRule { .. } => anyhow::Error::new(Error::InvalidRobots).context(why),
            _ => why.into(),
        })?;
        Ok(Robot { delay: robot.delay.map(|delay| delay.as_secs_f32()), sitemaps: robot.sitemaps.to_vec(), robot })
    }

    /// Whether the crawler may fetch this: an absolute URL or a path. If an allocation fails, it may not.
    #[must_use]
    pub fn allowed(&self, url: &str) -> bool {
        self.robot.allowed(url)
    }
}

/// The address of the robots.txt file for a URL of http or https.
///
/// # Errors
///
/// That of the crate `url`, or [`ParseError::EmptyHost`] for a URL of another kind, or [`ParseError::Overflow`] if an allocation failed.
pub fn get_robots_url(url: &str) -> Result<String, ParseError> {
    verified::robots_url(url).map_err(|why| match why {
        verified::Error::NoRobotsUrl => Url::parse(url).err().unwrap_or(ParseError::EmptyHost),
        _ => ParseError::Overflow,
    })
}
