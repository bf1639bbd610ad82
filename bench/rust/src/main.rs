//! Times this library and the crate `texting_robots` on the files of a folder, and prints for each file a line: its number, the results of
//! both, and the nanoseconds of both from the bytes to the first result and for a later one, separated by tabs.
use std::error::Error;
use std::hint::black_box;
use std::time::Instant;

/// The least time of one call, in nanoseconds, over seven rounds of at least five milliseconds.
fn least(mut call: impl FnMut()) -> f64 {
    let mut repeats = 1;
    loop {
        let begun = Instant::now();
        (0..repeats).for_each(|_| call());
        if begun.elapsed().as_millis() >= 5 {
            break;
        }
        repeats *= 2;
    }
    let round = |_| {
        let begun = Instant::now();
        (0..repeats).for_each(|_| call());
        begun.elapsed().as_nanos() as f64 / repeats as f64
    };
    (0..7).map(round).fold(f64::INFINITY, f64::min)
}

/// The nanoseconds from the bytes to the first result.
fn first<E>(file: &[u8], result: impl Fn(&[u8]) -> Result<bool, E>) -> f64 {
    least(|| drop(black_box(result(black_box(file)))))
}

/// The nanoseconds for a later result, on average over these URLs.
fn later(urls: &[&str], allowed: impl Fn(&str) -> bool) -> f64 {
    let all = least(|| {
        urls.iter().for_each(|url| {
            black_box(allowed(black_box(url)));
        })
    });
    all / urls.len() as f64
}

/// The results as text: `1` for each URL that is allowed, `0` for the others.
fn results(urls: &[&str], allowed: impl Fn(&str) -> bool) -> String {
    urls.iter().map(|url| if allowed(url) { '1' } else { '0' }).collect()
}

/// Compares the results for a file, and times the URLs with the same one.
fn compare(number: &str, agent: &str, file: &[u8], urls: &[&str]) -> Result<(), Box<dyn Error>> {
    let (ours, theirs) = (texting_robots_verified::Robot::new(agent, file)?, texting_robots::Robot::new(agent, file)?);
    let (our, their) = (results(urls, |url| ours.allowed(url)), results(urls, |url| theirs.allowed(url)));
    let both = our.bytes().zip(their.bytes());
    let same: Vec<&str> = urls.iter().zip(both).filter(|(_, (a, b))| a == b).map(|(url, _)| *url).collect();
    let &url = same.first().ok_or("no result is the same")?;
    println!(
        "{number}\t{our}\t{their}\t{:.1}\t{:.1}\t{:.1}\t{:.1}",
        first(file, |file| texting_robots_verified::Robot::new(agent, file).map(|robot| robot.allowed(url))),
        first(file, |file| texting_robots::Robot::new(agent, file).map(|robot| robot.allowed(url))),
        later(&same, |url| ours.allowed(url)),
        later(&same, |url| theirs.allowed(url)),
    );
    Ok(())
}

fn main() -> Result<(), Box<dyn Error>> {
    let folder = std::env::args().nth(1).ok_or("usage: compare FOLDER")?;
    for line in std::fs::read_to_string(format!("{folder}/index.tsv"))?.lines() {
        let mut parts = line.split('\t');
        let (number, agent) = (parts.next().ok_or("number")?, parts.next().ok_or("crawler")?);
        let file = std::fs::read(format!("{folder}/{number}.robots.txt"))?;
        let urls = std::fs::read_to_string(format!("{folder}/{number}.urls.txt"))?;
        compare(number, agent, &file, &urls.lines().collect::<Vec<_>>())?;
    }
    Ok(())
}
