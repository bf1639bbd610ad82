//! ask AGENT [URL..] < robots.txt: what the file says to the crawler AGENT, as examples/ask.c of the C library does.
//!
//! The status is 0 if every URL is allowed, 1 if one is denied, and 2 after an error.

use std::io::{self, Read};
use std::process::exit;
use std::{env, error};

use texting_robots_verified::{robots_url, Error, Robot, FILE_LIMIT};

fn main() {
    match ask() {
        Ok(denied) => exit(denied.into()),
        Err(error) => {
            eprintln!("ask: {error}");
            exit(2)
        }
    }
}

/// Whether a URL is denied.
fn ask() -> Result<bool, Box<dyn error::Error>> {
    let mut words = env::args_os().skip(1).map(|word| word.into_string().map_err(|_| "the agent or a URL isn't UTF-8"));
    let agent = words.next().ok_or("usage: ask AGENT [URL..] < robots.txt")??;
    let urls: Vec<_> = words.collect();
    let mut file = Vec::new();
    io::stdin().take(FILE_LIMIT as u64).read_to_end(&mut file)?;

    if let Some(Ok(url)) = urls.first() {
        match robots_url(url) {
            Ok(address) => println!("robots {address}"),
            Err(Error::NoRobotsUrl) => {}
            Err(error) => return Err(error.into()),
        }
    }
    let robot = Robot::new(&agent, &file)?;
    match robot.delay {
        Some(delay) => println!("delay {}", delay.as_micros()),
        None => println!("delay none"),
    }
    for sitemap in robot.sitemaps.iter() {
        println!("sitemap {sitemap}");
    }
    let mut denied = false;
    for url in urls {
        let url = url?;
        let verdict = robot.verdict(&url)?;
        let line = verdict.line.map_or_else(|| "-".to_owned(), |line| line.to_string());
        println!("{} {line} {url}", if verdict.allowed { "allow" } else { "deny" });
        denied |= !verdict.allowed;
    }
    Ok(denied)
}
