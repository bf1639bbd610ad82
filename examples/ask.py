"""ask.py AGENT [URL..] < robots.txt: what the file says to the crawler AGENT, as ask.c does."""

import sys

import robots


def main(agent, *urls):
    file = sys.stdin.buffer.read()
    if urls:
        try:
            print("robots", robots.robots_url(urls[0]))
        except robots.RobotsError:
            pass
    denied = False
    with robots.Robot(agent, file) as robot:
        delay = robot.delay()
        print("delay", "none" if delay is None else delay)
        for sitemap in robots.sitemaps(file):
            print("sitemap", sitemap)
        for url in urls:
            verdict = robot.verdict(url)
            denied |= verdict < 0
            print("deny" if verdict < 0 else "allow", abs(verdict) or "-", url)
    return 1 if denied else 0


if __name__ == "__main__":
    if len(sys.argv) < 2:
        print("usage: ask.py AGENT [URL..] < robots.txt", file=sys.stderr)
        sys.exit(2)
    try:
        sys.exit(main(*sys.argv[1:]))
    except (robots.RobotsError, MemoryError, OSError) as error:
        print(f"ask: {error or 'out of memory'}", file=sys.stderr)
        sys.exit(2)
