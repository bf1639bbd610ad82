//! Each call: its results, its errors, and files of any bytes.

use std::sync::Arc;
use std::time::Duration;

use texting_robots_verified::{
    get_robots_url, robots_url, Error, Meaning, Response, Robot, Site, Verdict, FILE_LIMIT, LIFETIME,
};
use texting_robots_verified_sys as sys;

const SHOP: &str = "\
User-agent: *
Disallow: /search
Allow: /search/help
Crawl-delay: 2.5

User-agent: SlowBot
Disallow: /
Crawl-delay: 1e300
Sitemap: https://example.com/one.xml
Sitemap: https://example.com/zwölf.xml
";

/// A verdict as [`values`] has it.
type Values = (bool, Option<usize>);

const ALLOWED: Values = (true, None);

fn allowed(line: usize) -> Values {
    (true, Some(line))
}

fn denied(line: usize) -> Values {
    (false, Some(line))
}

fn values(verdict: Verdict) -> Values {
    (verdict.allowed, verdict.line)
}

fn all(verdicts: Result<Vec<Verdict>, Error>) -> Result<Vec<Values>, Error> {
    Ok(verdicts?.into_iter().map(values).collect())
}

fn rows_of(matrix: Result<Vec<Vec<Option<Verdict>>>, Error>) -> Result<Vec<Vec<Option<Values>>>, Error> {
    Ok(matrix?.into_iter().map(|row| row.into_iter().map(|verdict| verdict.map(values)).collect()).collect())
}

/// A file whose lines 2 and 5 are rules that are too long for every crawler but Other.
fn overlong() -> Vec<u8> {
    let rule = format!("/${}", "a".repeat(4096));
    format!(
        "User-agent: *\nDisallow: {rule}\nCrawl-delay: 1\nSitemap: x\nAllow: {rule}\nUser-agent: Other\nDisallow: /\n"
    )
    .into_bytes()
}

fn robot(agent: &str, file: impl AsRef<[u8]>) -> Robot {
    Robot::new(agent, file.as_ref()).unwrap()
}

#[test]
fn verdicts() {
    let ferris = robot("FerrisBot", SHOP);
    assert_eq!(ferris.verdict("https://example.com/search/tea").map(values), Ok(denied(2)));
    assert_eq!(ferris.verdict("/search/help").map(values), Ok(allowed(3)));
    assert_eq!(ferris.verdict("/").map(values), Ok(ALLOWED));
    assert_eq!(ferris.verdict("").map(values), Ok(ALLOWED));
    assert_eq!(robot("SLOWBOT", SHOP).verdict("/robots.txt").map(values), Ok(ALLOWED));
    assert_eq!(robot("SLOWBOT", SHOP).verdict("/").map(values), Ok(denied(7)));
    assert!(!ferris.allowed("/search") && ferris.allowed("/search/help") && robot("FerrisBot", "").allowed("/"));
}

#[test]
fn verdicts_within_a_budget() {
    let ferris = robot("FerrisBot", SHOP);
    // the longer rule is tried first, and no byte is compared if it is longer than the URL's path
    for (url, least, verdict) in [("/search/tea", 9, denied(2)), ("/search/help", 13, allowed(3)), ("", 2, ALLOWED)] {
        assert_eq!(ferris.verdict_within(url, least).map(values), Ok(verdict));
        assert_eq!(ferris.verdict_within(url, least - 1), Err(Error::TooCostly));
    }
    let private = robot("FerrisBot", "Disallow: /private");
    let within = |budget| private.verdict_within("/", budget).map(values);
    assert_eq!([0, 1].map(within), [Err(Error::TooCostly), Ok(ALLOWED)]);
    assert_eq!([0, 6, 7, 12, usize::MAX].map(|len| ferris.cost(len)), [2, 2, 9, 21, 21]);
    assert_eq!(robot("FerrisBot", "Disallow: *\nDisallow: /*a").cost(usize::MAX), u64::MAX);
}

#[test]
fn bytes_of_memory() {
    let file = ["User-agent: *\n", &"Disallow: /a\n".repeat(60), &"Sitemap: /s\n".repeat(99)].concat();
    // a rule takes 74 bytes, and the bytes of a file are kept once
    let (site, robot) = (Site::new(file.as_bytes()).unwrap(), robot("FerrisBot", &file));
    assert!(
        (60 * 74..60 * 74 + 400).contains(&robot.memory())
            && robot.memory() == site.robot("FerrisBot").unwrap().memory()
    );
    let comment = "#".repeat(1000);
    assert_eq!(Site::new(comment.as_bytes()).unwrap().memory(), Site::allow_all().unwrap().memory() + 1000);
}

#[test]
fn delays() {
    assert_eq!(robot("FerrisBot", SHOP).delay, Some(Duration::from_micros(2_500_000)));
    assert_eq!(robot("SlowBot", SHOP).delay, Some(Duration::from_micros(u64::MAX)));
    assert_eq!(robot("FerrisBot", "").delay, None);
    assert_eq!(robot("FerrisBot", "User-agent: *\nCrawl-delay: 0").delay, Some(Duration::ZERO));
}

#[test]
fn sitemaps_and_agents() {
    let sitemaps = ["https://example.com/one.xml", "https://example.com/zwölf.xml"];
    assert_eq!(*robot("FerrisBot", SHOP).sitemaps, sitemaps);
    let site =
        Site::new(&[SHOP.as_bytes(), b"User-agent: SLOWBOT\nUser-agent: b\xC3\xB6tbot\nUser-agent: \xFF"].concat())
            .unwrap();
    assert_eq!(*site.sitemaps, sitemaps);
    assert!(Arc::ptr_eq(&site.sitemaps, &site.robot("x").unwrap().clone().sitemaps));
    assert_eq!(site.agents().unwrap(), ["*", "SlowBot", "bötbot"]);
    let (named, many): (String, Vec<String>) =
        (0..1000).map(|n| (format!("User-agent: {n}\nSitemap: {n}\n"), n.to_string())).unzip();
    let site = Site::new(named.as_bytes()).unwrap();
    assert_eq!((&*site.sitemaps, site.agents().unwrap()), (&*many, many.clone()));
    assert_eq!(*robot("x", "Sitemap:\nSitemap: a b\nSitemap:").sitemaps, ["", "a b", ""]);
    assert_eq!(Site::new(b"User-agent:\nUser-agent: a b").unwrap().agents().unwrap(), ["", "a b"]);
    assert!(site.is_named("999") && !site.is_named("1000") && !site.is_named(""));
    assert!(Site::new(b"").unwrap().sitemaps.is_empty() && Site::new(b"").unwrap().agents().unwrap().is_empty());
}

#[test]
fn verdicts_for_many_urls() {
    let ferris = robot("FerrisBot", SHOP);
    let urls: Vec<String> = (0..1000).map(|n| format!("https://example.com/search/{n}")).collect();
    assert_eq!(all(ferris.verdicts(&urls)), Ok(vec![denied(2); 1000]));
    assert_eq!(all(ferris.verdicts(["/search/tea", "/search/help", "/"])), Ok(vec![denied(2), allowed(3), ALLOWED]));
    assert_eq!(all(ferris.verdicts("/search\n/search/help".lines())), Ok(vec![denied(2), allowed(3)]));
    assert_eq!(all(ferris.verdicts(["/search\n/", ""])), Ok(vec![denied(2), ALLOWED]));
    assert_eq!(all(ferris.verdicts(&[] as &[String])), Ok(vec![]));
}

#[test]
fn a_site_has_the_verdicts_of_its_robots() {
    let site = Site::new(SHOP.as_bytes()).unwrap();
    for urls in [&["/search/tea", "/search/help", "", "/é"][..], &["/a\nb", "/search"], &["/"], &[]] {
        for agents in [&["FerrisBot", "SlowBot", "*", ""][..], &["a\nb", "SlowBot"], &[]] {
            let row =
                |agent: &&str| urls.iter().map(|url| Some(values(robot(agent, SHOP).verdict(url).unwrap()))).collect();
            let rows: Vec<Vec<_>> = agents.iter().map(row).collect();
            assert_eq!(rows_of(site.matrix(agents, urls)), Ok(rows.clone()));
            let owned: Vec<String> = urls.iter().map(|url| url.to_string()).collect();
            assert_eq!(rows_of(site.matrix(agents, &owned)), Ok(rows));
        }
    }
    assert_eq!(
        (site.delay("x"), site.delay("slowbot")),
        (Some(Duration::from_millis(2500)), Some(Duration::from_micros(u64::MAX)))
    );
    let ferris = site.robot("FerrisBot").unwrap();
    drop(site);
    assert_eq!(ferris.verdict("/search").map(values), Ok(denied(2)));
}

#[test]
fn a_rule_that_is_too_long() {
    let error = Robot::new("FerrisBot", &overlong()).unwrap_err();
    assert_eq!(error, Error::OverlongRule { line: 2 });
    assert_eq!(error.to_string(), "the rule in line 2 is too long: the file can't be used for this crawler");
    let site = Site::new(&overlong()).unwrap();
    assert_eq!(site.robot("FerrisBot").unwrap_err(), error);
    assert_eq!(site.delay("FerrisBot"), Some(Duration::from_secs(1)));
    assert_eq!(rows_of(site.matrix(&["FerrisBot", "Other"], &["/a"])), Ok(vec![vec![None], vec![Some(denied(7))]]));
    assert_eq!(rows_of(site.matrix(&["FerrisBot", "Other"], &["/\n"])), Ok(vec![vec![None], vec![Some(denied(7))]]));
    assert_eq!(*site.sitemaps, ["x"]);
}

#[test]
fn robots_urls() {
    assert_eq!(
        robots_url("HTTPS://Bücher.example:443/ä?b#c").as_deref(),
        Ok("https://xn--bcher-kva.example/robots.txt")
    );
    for text in ["", "/a", "example.com/a", "mailto:a@example.com", "ftp://example.com/", "https://"] {
        assert_eq!(robots_url(text), Err(Error::NoRobotsUrl), "{text}");
    }
    let long = format!("https://{}example", "a.".repeat(1000));
    assert_eq!(get_robots_url(&format!("{long}/b")), Ok(format!("{long}/robots.txt")));
}

#[test]
fn any_bytes() {
    for file in [
        &b"\xEF\xBB\xBFUser-agent: a # \xFF\rDisallow: /a"[..],
        b"User-agent: a\0Disallow: /a\0",
        b"User-agent: a\nDisallow: /a\xFF\nDisallow: /a",
    ] {
        let line = file.split(|byte| b"\r\0\n".contains(byte)).position(|line| line == b"Disallow: /a").unwrap() + 1;
        assert_eq!(robot("a", file).verdict("https://example.com/a").map(values), Ok(denied(line)));
    }
    let past_the_limit = [vec![b'#'; FILE_LIMIT], b"\nUser-agent: a\nDisallow: /\n".to_vec()].concat();
    assert!(robot("a", past_the_limit).allowed("/"));
    assert_eq!(
        robot("é", "User-agent: é\nDisallow: /é").verdict("https://example.com/%C3%A9").map(values),
        Ok(denied(2))
    );
}

/// By RFC 9309, 2.3.1.
#[test]
fn responses() {
    let meaning = |status, redirects, is_complete| {
        let mut response = Response::new(status);
        response.redirects = redirects;
        response.has_location = redirects > 0;
        response.is_complete = is_complete;
        response.meaning()
    };
    assert_eq!(
        [204, 404, 429].map(|status| meaning(Some(status), 0, true)),
        [Meaning::Parse, Meaning::AllowAll, Meaning::DenyAll]
    );
    assert_eq!(
        [1, 4, 5].map(|redirects| meaning(Some(301), redirects, true)),
        [Meaning::Follow, Meaning::Follow, Meaning::AllowAll]
    );
    assert_eq!(
        [meaning(Some(200), 0, false), meaning(None, 0, true), meaning(Some(301), 0, true)],
        [Meaning::DenyAll; 3]
    );
    assert_eq!(LIFETIME.as_secs(), 24 * 60 * 60);
    for (site, allowed) in [(Site::allow_all().unwrap(), true), (Site::deny_all().unwrap(), false)] {
        let robot = site.robot("FerrisBot").unwrap();
        assert_eq!(["/", "example.com", "/robots.txt"].map(|url| robot.allowed(url)), [allowed, allowed, true]);
    }
}

#[test]
fn debug_and_errors_of_the_standard_library() {
    let (robot, site) = (robot("a", "Sitemap: b\nCrawl-delay: 1"), Site::new(b"Sitemap: c").unwrap());
    for (robot, site) in [(&robot.clone(), &site.clone()), (&robot, &site)] {
        let shown = r#"Robot { delay: Some(1s), sitemaps: ["b"], .. } Site { sitemaps: ["c"], .. }"#;
        assert_eq!(format!("{robot:?} {site:?}"), shown);
    }
    let errors: [Box<dyn std::error::Error + Send + Sync>; 3] =
        [Error::OutOfMemory.into(), Error::NoRobotsUrl.into(), Error::TooCostly.into()];
    let texts = ["out of memory", "the URL has no robots.txt file", "the verdict is too costly for its budget"];
    assert_eq!(errors.map(|error| error.to_string()), texts);
}

#[test]
fn the_library_is_that_of_the_header() {
    assert_eq!(unsafe { sys::robots_version() }, sys::ROBOTS_VERSION);
}

#[test]
fn the_reading_of_rfc_9309() {
    let file = "# only these\nUser-agent: Googlebot\nUser-agent: Bingbot\nCrawl-delay: 5\n\nUser-agent: *\nDisallow: /\nSitemap: a";
    let (site, default) = (Site::rfc9309(file.as_bytes()).unwrap(), Site::new(file.as_bytes()).unwrap());
    for agent in ["Googlebot", "Bingbot"] {
        assert_eq!(site.robot(agent).unwrap().verdict("https://example.com/").map(values), Ok(denied(7)));
        assert_eq!(default.robot(agent).unwrap().verdict("https://example.com/").map(values), Ok(ALLOWED));
        let delays = [site.delay(agent), default.delay(agent), Robot::rfc9309(agent, file.as_bytes()).unwrap().delay];
        assert_eq!(delays, [Some(Duration::from_secs(5)); 3]);
    }
    assert_eq!(rows_of(site.matrix(&["Googlebot", "Other"], &["/"])), Ok(vec![vec![Some(denied(7))]; 2]));
    assert_eq!((site.sitemaps.to_vec(), site.agents()), (default.sitemaps.to_vec(), default.agents()));
}

#[test]
fn rules_as_rfc_9309_reads_them() {
    // a file, a URL, and its verdict by default and by the standard
    let cases = [
        ("User-agent: *\nDisallow: /%62", "https://example.com/b", ALLOWED, denied(2)),
        ("User-agent: *\nDisallow: /b", "/%62", ALLOWED, denied(2)),
        ("User-agent: *\nDisallow:\nDisallow: /", "/", allowed(2), denied(3)),
        ("User-agent: *\nDisallow: /$a", "/$a", ALLOWED, denied(2)),
        ("Disallow: /", "/", denied(1), ALLOWED),
    ];
    for (file, url, by_default, by_standard) in cases {
        assert_eq!(robot("Bot", file).verdict(url).map(values), Ok(by_default), "{file}");
        assert_eq!(Robot::rfc9309("Bot", file.as_bytes()).unwrap().verdict(url).map(values), Ok(by_standard), "{file}");
    }
    let long = format!("User-agent: *\nAllow: /\nDisallow: /{}$", "{".repeat(1400));
    assert_eq!(robot("Bot", &long).verdict("/").map(values), Ok(allowed(2)));
    assert_eq!(Robot::rfc9309("Bot", long.as_bytes()).unwrap_err(), Error::OverlongRule { line: 3 });
    assert_eq!(Site::rfc9309(long.as_bytes()).unwrap().matrix(&["Bot"], &["/"]).unwrap(), [[None]]);
}

#[test]
fn a_full_file_is_read_to_its_end_by_the_standard() {
    let (last, line) = ("Disallow: /last", format!("Disallow: /{}\n", "{".repeat(988)));
    let mut file = format!("User-agent: *\n{}", line.repeat((FILE_LIMIT - 100) / line.len()));
    file += &format!("{}\n{last}", "#".repeat(FILE_LIMIT - file.len() - last.len() - 1));
    assert_eq!(file.len(), FILE_LIMIT);
    let number = file.matches('\n').count() + 1;
    assert_eq!(Robot::rfc9309("Bot", file.as_bytes()).unwrap().verdict("/last").map(values), Ok(denied(number)));
}
