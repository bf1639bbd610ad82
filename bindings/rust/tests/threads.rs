//! Robots and sites go from thread to thread, and threads share them.

use std::sync::atomic::{AtomicUsize, Ordering};
use std::thread;

use texting_robots_verified::{Robot, Site};

const FILE: &[u8] =
    b"User-agent: *\nDisallow: /a\nAllow: /a*b\nCrawl-delay: 3\nSitemap: s\nUser-agent: own\nDisallow: /o\n";

fn is_right(robot: &Robot, site: &Site, own: bool) -> bool {
    let agent = if own { "own" } else { "other" };
    let rows = site.matrix(&["other", "own"], &["/a", "/o"]).unwrap();
    let of_site = site.robot(agent).unwrap();
    [robot, &of_site].iter().all(|it| it.allowed("/a") == own && it.allowed("/o") != own && *it.sitemaps == ["s"])
        && rows.iter().flatten().map(|it| it.unwrap().line).eq([Some(2), None, None, Some(7)])
        && site.delay("other").map(|delay| delay.as_secs()) == Some(3)
        && (site.is_named("own"), site.agents().unwrap().len()) == (true, 2)
}

#[test]
fn threads_share_robots_and_a_site() {
    let (site, other, own) =
        (Site::new(FILE).unwrap(), Robot::new("other", FILE).unwrap(), Robot::new("own", FILE).unwrap());
    let right = AtomicUsize::new(0);
    thread::scope(|scope| {
        for _ in 0..16 {
            scope.spawn(|| {
                for _ in 0..250 {
                    let both = is_right(&other, &site, false) && is_right(&own, &site, true);
                    right.fetch_add(both.into(), Ordering::Relaxed);
                }
            });
        }
    });
    assert_eq!(right.into_inner(), 4000);
}

#[test]
fn each_thread_has_a_clone_and_they_are_closed_in_any_order() {
    let robots = [Robot::new("other", FILE).unwrap(), Robot::new("own", FILE).unwrap()];
    let site = Site::new(FILE).unwrap();
    let threads: Vec<_> = (0..16)
        .map(|number| {
            let (site, own) = (site.clone(), number % 2 == 1);
            let robot = robots[usize::from(own)].clone();
            thread::spawn(move || (0..100 + number).all(|_| is_right(&robot.clone(), &site, own)))
        })
        .collect();
    drop((robots, site));
    assert!(threads.into_iter().all(|it| it.join().unwrap()));
}

#[test]
fn they_go_to_another_thread_and_are_closed_there() {
    for _ in 0..50 {
        let (site, robot) = (Site::new(FILE).unwrap(), Robot::new("own", FILE).unwrap());
        let site = thread::spawn(move || is_right(&robot, &site, true).then_some(site)).join().unwrap();
        assert!(site.unwrap().robot("other").is_ok());
    }
}
