//! The calls of `texting_robots` 0.2.2 with its types, for code that moves from it:
//!
//! ```
//! use texting_robots_verified::compat::{get_robots_url, Robot};
//!
//! let robot = Robot::new("FerrisBot", b"User-agent: *\nDisallow: /search\nCrawl-delay: 2.5\nSitemap: https://example.com/s.xml").unwrap();
//! assert!(!robot.allowed("https://example.com/search"));
//! assert_eq!(robot.delay, Some(2.5));
//! assert_eq!(robot.sitemaps, vec!["https://example.com/s.xml"]);
//! assert_eq!(get_robots_url("https://example.com/a").unwrap(), "https://example.com/robots.txt");
//! ```

pub use crate::{get_robots_url, Error};

/// A robots.txt file as one crawler reads it.
#[derive(Debug)]
pub struct Robot {
    /// How many seconds the crawler waits between two requests, if the file specifies that.
    pub delay: Option<f32>,
    /// The sitemaps that the file lists.
    pub sitemaps: Vec<String>,
    robot: crate::Robot,
}

impl Robot {
    /// As [`crate::Robot::new`], whose errors can be converted to those of `anyhow`.
    ///
    /// # Errors
    ///
    /// [`Error::OverlongRule`] and [`Error::OutOfMemory`].
    pub fn new(agent: &str, txt: &[u8]) -> Result<Robot, Error> {
        let robot = crate::Robot::new(agent, txt)?;
        let delay = robot.delay.map(|delay| delay.as_secs_f32());
        Ok(Robot { delay, sitemaps: robot.sitemaps.to_vec(), robot })
    }

    /// As [`crate::Robot::allowed`].
    #[must_use]
    pub fn allowed(&self, url: &str) -> bool {
        self.robot.allowed(url)
    }
}
