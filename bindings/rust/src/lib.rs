#![doc = include_str!("../README.md")]
#![deny(missing_docs, unsafe_op_in_unsafe_fn)]

use std::fmt;
use std::sync::Arc;
use std::time::Duration;

pub mod compat;
mod error;
mod handle;
mod response;

pub use error::Error;
pub use response::{Meaning, Response, LIFETIME, REDIRECT_LIMIT};
/// The name of this call in `texting_robots`.
pub use robots_url as get_robots_url;

/// How many bytes of a file count: no more need be fetched. For a lower limit, pass a shorter slice. There is no higher one, since it is a
/// constant of the C library.
pub const FILE_LIMIT: usize = texting_robots_verified_sys::ROBOTS_FILE_LIMIT;

/// Whether a crawler may fetch a URL, and the line of the file that decides.
#[derive(Debug, Clone, Copy, PartialEq, Eq, Hash)]
#[non_exhaustive]
pub struct Verdict {
    /// Whether the crawler may fetch it.
    pub allowed: bool,
    /// The number of the deciding line, counted from 1 among all lines of the file. It is `None` if no rule matches, and for
    /// `/robots.txt`, which is always allowed.
    pub line: Option<usize>,
}

impl Verdict {
    fn of(number: i64) -> Verdict {
        let line = number.unsigned_abs() as usize;
        Verdict { allowed: number >= 0, line: (line != 0).then_some(line) }
    }
}

/// A robots.txt file as one crawler reads it.
///
/// Threads can share it, and none waits for another. A clone has the same rules and sitemaps, not copies.
#[derive(Clone)]
pub struct Robot {
    /// How long the crawler waits between two requests, if the file specifies that. It may be half a million years, so limit it before
    /// you add it to a time.
    pub delay: Option<Duration>,
    /// The sitemaps that the file lists, in its order: also empty ones, but none that isn't UTF-8. They are the same for every crawler,
    /// and all robots of a site share them.
    pub sitemaps: Arc<[String]>,
    rules: Arc<handle::Robot>,
}

impl Robot {
    /// Reads the first [`FILE_LIMIT`] bytes of a file, which may be any bytes, for the crawler with this product token: `FerrisBot`, not
    /// `FerrisBot/1.0`. It is compared in full with the file's names, and ASCII letters match in any case.
    ///
    /// # Errors
    ///
    /// [`Error::OverlongRule`] and [`Error::OutOfMemory`].
    pub fn new(agent: &str, txt: &[u8]) -> Result<Robot, Error> {
        Site::new(txt)?.robot(agent)
    }

    /// As [`Robot::new`], but the verdicts are those of RFC 9309: see [`Site::rfc9309`].
    ///
    /// # Errors
    ///
    /// [`Error::OverlongRule`] and [`Error::OutOfMemory`].
    pub fn rfc9309(agent: &str, txt: &[u8]) -> Result<Robot, Error> {
        Site::rfc9309(txt)?.robot(agent)
    }

    fn of(rules: handle::Robot, sitemaps: Arc<[String]>) -> Robot {
        Robot { delay: rules.delay().map(Duration::from_micros), sitemaps, rules: Arc::new(rules) }
    }

    /// Whether the crawler may fetch this: an absolute URL or a path. Any other text, such as `example.com/a`, is compared with the rules
    /// too, and by default usually allowed. If an allocation fails, it may not, and [`Robot::verdict`] returns an error.
    #[must_use]
    pub fn allowed(&self, url: &str) -> bool {
        matches!(self.rules.verdict(url), Ok(verdict) if verdict >= 0)
    }

    /// As [`Robot::allowed`], with the line that decides.
    ///
    /// # Errors
    ///
    /// [`Error::OutOfMemory`].
    pub fn verdict(&self, url: &str) -> Result<Verdict, Error> {
        self.rules.verdict(url).map(Verdict::of)
    }

    /// As [`Robot::verdict`], for a file that may be hostile. Each rule that is tried costs one, and each comparison of a byte of the URL
    /// one. Before a rule that might cost more than is left of the budget, it gives up.
    ///
    /// # Errors
    ///
    /// [`Error::TooCostly`] and [`Error::OutOfMemory`].
    pub fn verdict_within(&self, url: &str, budget: u64) -> Result<Verdict, Error> {
        self.rules.verdict_within(url, budget).map(Verdict::of)
    }

    /// With so much as a budget, [`Robot::verdict_within`] doesn't give up for any URL whose path, query and fragment, escaped, have this
    /// length. It is at most `u64::MAX`.
    #[must_use]
    pub fn cost(&self, len: usize) -> u64 {
        self.rules.cost(len)
    }

    /// How many bytes of memory it takes, without this value and [`Robot::sitemaps`].
    #[must_use]
    pub fn memory(&self) -> usize {
        self.rules.memory()
    }

    /// [`Robot::verdict`] for each URL, in their order.
    ///
    /// # Errors
    ///
    /// [`Error::OutOfMemory`].
    pub fn verdicts<U: AsRef<str>>(&self, urls: impl IntoIterator<Item = U>) -> Result<Vec<Verdict>, Error> {
        // robots_verdicts wants one text with all URLs, which takes longer to make than a call for each takes
        urls.into_iter().map(|url| self.verdict(url.as_ref())).collect()
    }
}

impl fmt::Debug for Robot {
    fn fmt(&self, f: &mut fmt::Formatter<'_>) -> fmt::Result {
        f.debug_struct("Robot").field("delay", &self.delay).field("sitemaps", &self.sitemaps).finish_non_exhaustive()
    }
}

/// A robots.txt file that is read once for many crawlers.
///
/// Threads can share it, and none waits for another. A clone has the same file and sitemaps, not copies.
#[derive(Clone)]
pub struct Site {
    /// The sitemaps that the file lists, in its order: also empty ones, but none that isn't UTF-8.
    pub sitemaps: Arc<[String]>,
    lines: Arc<handle::Site>,
}

impl Site {
    /// Reads the first [`FILE_LIMIT`] bytes of a file, which may be any bytes.
    ///
    /// # Errors
    ///
    /// [`Error::OutOfMemory`].
    pub fn new(txt: &[u8]) -> Result<Site, Error> {
        Site::of(handle::Site::open(txt)?, txt)
    }

    /// Reads a file as [`Site::new`] does, but the verdicts of its robots and of [`Site::matrix`] are those of RFC 9309: a
    /// `Crawl-delay` ends no list of names, an empty `Disallow` is no rule, only the last byte of a pattern can be a `$` that is special,
    /// rules above the first user-agent line don't count, and escapes such as `%62` are the same as what they stand for. URLs are compared
    /// as they are written, so trim and parse them before you ask. The delays, [`Site::sitemaps`] and the names are as for [`Site::new`].
    ///
    /// # Errors
    ///
    /// [`Error::OutOfMemory`].
    pub fn rfc9309(txt: &[u8]) -> Result<Site, Error> {
        Site::of(handle::Site::open_rfc9309(txt)?, txt)
    }

    fn of(lines: handle::Site, txt: &[u8]) -> Result<Site, Error> {
        Ok(Site { sitemaps: lines.sitemaps(txt.len().min(FILE_LIMIT))?.into(), lines: Arc::new(lines) })
    }

    /// A file that allows everything to every crawler.
    ///
    /// # Errors
    ///
    /// [`Error::OutOfMemory`].
    pub fn allow_all() -> Result<Site, Error> {
        Site::new(b"")
    }

    /// A file that denies everything but `/robots.txt` to every crawler.
    ///
    /// # Errors
    ///
    /// [`Error::OutOfMemory`].
    pub fn deny_all() -> Result<Site, Error> {
        Site::new(texting_robots_verified_sys::ROBOTS_DENY_ALL_FILE.as_bytes())
    }

    /// What [`Robot::new`] returns for this file. The robot doesn't need the site any more.
    ///
    /// # Errors
    ///
    /// [`Error::OverlongRule`] and [`Error::OutOfMemory`].
    pub fn robot(&self, agent: &str) -> Result<Robot, Error> {
        Ok(Robot::of(self.lines.robot(agent)?, self.sitemaps.clone()))
    }

    /// A row for each crawler, and in it the verdict for each URL, or `None`, which doesn't allow either, if the file can't be used for
    /// the crawler ([`Error::OverlongRule`]). Crawlers that the file doesn't name cost little.
    ///
    /// # Errors
    ///
    /// [`Error::OutOfMemory`].
    pub fn matrix(
        &self,
        agents: &[impl AsRef<str>],
        urls: &[impl AsRef<str>],
    ) -> Result<Vec<Vec<Option<Verdict>>>, Error> {
        let (agents_text, urls_text) = match (joined(agents), joined(urls)) {
            (Some(agents_text), Some(urls_text)) => (agents_text, urls_text),
            _ => return agents.iter().map(|agent| self.row(agent.as_ref(), urls)).collect(),
        };
        let mut numbers = vec![0; agents.len() * urls.len()];
        self.lines.matrix(&agents_text, &urls_text, &mut numbers)?;
        let verdict = |&number| (number != texting_robots_verified_sys::ROBOTS_NO_VERDICT).then(|| Verdict::of(number));
        Ok(numbers.chunks(urls.len()).map(|row| row.iter().map(verdict).collect()).collect())
    }

    fn row(&self, agent: &str, urls: &[impl AsRef<str>]) -> Result<Vec<Option<Verdict>>, Error> {
        match self.robot(agent) {
            Ok(robot) => Ok(robot.verdicts(urls)?.into_iter().map(Some).collect()),
            Err(Error::OverlongRule { .. }) => Ok(vec![None; urls.len()]),
            Err(error) => Err(error),
        }
    }

    /// [`Robot::delay`] for this crawler, also where a rule is too long.
    #[must_use]
    pub fn delay(&self, agent: &str) -> Option<Duration> {
        self.lines.delay(agent).map(Duration::from_micros)
    }

    /// The names in the file's user-agent lines, `*` too, in its order; of names that differ only in the case of ASCII letters the first.
    ///
    /// # Errors
    ///
    /// [`Error::OutOfMemory`].
    pub fn agents(&self) -> Result<Vec<String>, Error> {
        self.lines.agents()
    }

    /// How many bytes of memory it takes, without this value and [`Site::sitemaps`].
    #[must_use]
    pub fn memory(&self) -> usize {
        self.lines.memory()
    }

    /// Whether a user-agent line names this crawler. All that none names have the same robot, so they can share it.
    #[must_use]
    pub fn is_named(&self, agent: &str) -> bool {
        self.lines.is_named(agent)
    }
}

impl fmt::Debug for Site {
    fn fmt(&self, f: &mut fmt::Formatter<'_>) -> fmt::Result {
        f.debug_struct("Site").field("sitemaps", &self.sitemaps).finish_non_exhaustive()
    }
}

/// The texts with a line feed between one and the next, or `None` if there is none, or one contains a line feed.
fn joined(texts: &[impl AsRef<str>]) -> Option<String> {
    let texts: Vec<&str> = texts.iter().map(AsRef::as_ref).collect();
    let can_be_joined = !texts.is_empty() && texts.iter().all(|text| !text.contains('\n'));
    can_be_joined.then(|| texts.join("\n"))
}

/// The address of the robots.txt file for a URL of http or https.
///
/// # Errors
///
/// [`Error::NoRobotsUrl`] for any other text, and [`Error::OutOfMemory`].
pub fn robots_url(url: &str) -> Result<String, Error> {
    handle::robots_url(url)
}
