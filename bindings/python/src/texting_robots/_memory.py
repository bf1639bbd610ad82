"""The sites that are in memory, within a budget."""

from __future__ import annotations

import zlib
from collections import OrderedDict
from collections.abc import Callable

from ._calls import Reading
from ._rules import Rules
from ._sites import KnownSite


class Memory:
    """Sites by the addresses of their files. The one that wasn't used for the longest time goes first. Parsed files take at most a quarter
    of the budget, as parsing one again takes microseconds. The last one of each kind stays."""

    def __init__(self, budget: int, cost_limit: int, reading: Reading, count: Callable[[str], object]) -> None:
        self._budget, self._cost_limit, self._reading, self._count = budget, cost_limit, reading, count
        self.sites: OrderedDict[str, KnownSite] = OrderedDict()  # the one that was used last is at the end, in both
        self.parsed: OrderedDict[str, KnownSite] = OrderedDict()
        self._sites_memory = self._parsed_memory = 0

    @property
    def taken(self) -> int:
        """How many bytes of memory the sites take."""
        return self._sites_memory + self._parsed_memory

    def get(self, address: str) -> KnownSite | None:
        """The site with this address."""
        site = self.sites.get(address)
        if site is not None:
            self.sites.move_to_end(address)
        return site

    def rules(self, site: KnownSite) -> Rules:
        """The site's file, parsed."""
        rules = site.rules
        if rules is None:
            rules = self.parse(site.packed)
            self._count("parsed")
            if self.sites.get(site.robots_url) is site:
                self._keep_rules(site, rules)
        elif site.robots_url in self.parsed:
            self.parsed.move_to_end(site.robots_url)
        return rules

    def parse(self, packed: bytes) -> Rules:
        """The rules of a compressed file."""
        return Rules(zlib.decompress(packed), self._cost_limit, self._reading)

    def keep(self, site: KnownSite) -> None:
        """Keeps a site in place of what was known of it."""
        self._forget(site.robots_url)
        self.sites[site.robots_url] = site
        self._sites_memory += site.memory
        if site.rules:
            self._keep_rules(site, site.rules)
        self._make_room()

    def _keep_rules(self, site: KnownSite, rules: Rules) -> None:
        site.rules, site.rules_memory = rules, rules.memory
        self.parsed[site.robots_url] = site
        self._parsed_memory += site.rules_memory
        self._make_room()

    def measure(self, site: KnownSite) -> None:
        """Notes how much memory the rules take now."""
        if site.rules and self.parsed.get(site.robots_url) is site:
            self._parsed_memory -= site.rules_memory
            site.rules_memory = site.rules.memory
            self._parsed_memory += site.rules_memory
            self._make_room()

    def _forget(self, address: str) -> None:
        site = self.sites.pop(address, None)
        if site:
            self._sites_memory -= site.memory
        parsed = self.parsed.pop(address, None)
        if parsed:
            self._parsed_memory -= parsed.rules_memory

    def _make_room(self) -> None:
        while len(self.parsed) > 1 and self._parsed_memory > self._budget // 4:
            _, site = self.parsed.popitem(last=False)
            self._parsed_memory -= site.rules_memory
            site.rules, site.rules_memory = None, 0
        while len(self.sites) > 1 and self.taken > self._budget:
            self._count("evicted")
            self._forget(next(iter(self.sites)))
