"""Delays of sites in Scrapy's downloader, whose slots wait between two requests."""

from __future__ import annotations

import time
from typing import Any, Final
from urllib.parse import urlsplit

_SHARED_SLOT: Final = "texting_robots_slot"  # in the meta: the slot that a request was taken out of, or None


class _Stay:
    """A site's requests in a slot: how many are in it, and when one left it."""

    __slots__ = ("active", "left")

    def __init__(self) -> None:
        self.active, self.left = 0, 0.0


class Pace:
    """The delay that a site asks for, and the slots that its requests were put into.

    Two requests to the site are at least the delay apart, whichever slots they are in, and so are two requests of one slot, whichever of
    its sites they go to, as long as it has one to this site, or the delay after it isn't over. A slot still waits longer if Scrapy's
    settings say so.
    """

    __slots__ = ("__weakref__", "_delay", "_stays")

    def __init__(self) -> None:
        self._delay = 0.0
        self._stays: dict[Any, _Stay] = {}

    def keep(self, delay: float) -> None:
        """From now on, the delay is this one."""
        self._delay = delay
        for slot in self._stays:
            self._hold(slot)

    def enter(self, slot: Any) -> None:
        """A request to the site is put into this slot. Slots that no longer matter are forgotten."""
        now = time.time()
        self._stays = {it: stay for it, stay in self._stays.items() if it is slot or not self._is_over(it, now)}
        self._stays.setdefault(slot, _Stay()).active += 1
        self._hold(slot)

    def leave(self, slot: Any) -> None:
        """A request to the site has left this slot."""
        stay = self._stays.get(slot)
        if stay:
            stay.active, stay.left = max(0, stay.active - 1), time.time()

    def _hold(self, slot: Any) -> None:
        """Lets the slot keep this pace, too, as long as it matters there."""
        if not self._delay:
            return
        if not hasattr(slot, "robots_paces"):
            usual, slot.robots_paces = slot.download_delay, set()
            slot.download_delay = lambda: max([usual(), *(pace._wait(slot) for pace in _paces(slot))])
        slot.robots_paces = _paces(slot) | {self}

    def _is_over(self, slot: Any, now: float) -> bool:
        """Whether no request to the site is in the slot, and none was for so long that the delay is over."""
        stay = self._stays.get(slot)
        return stay is None or not (stay.active and slot.active) and (stay.left or slot.lastseen) + self._delay <= now

    def _wait(self, slot: Any) -> float:
        """How long after its last request the slot may send the next one."""
        return self._delay and self._delay + max(it.lastseen - slot.lastseen for it in [slot, *self._stays])


def _paces(slot: Any) -> set[Pace]:
    """The paces that still matter in a slot."""
    now = time.time()
    over = {pace for pace in slot.robots_paces if pace._is_over(slot, now)}
    if over:
        slot.robots_paces -= over
    paces: set[Pace] = slot.robots_paces
    return paces


def return_to_slot(request: Any) -> None:
    """Puts a request that was given a slot of its own, and comes again, into the slot that it was meant for."""
    meta = request.meta
    if _SHARED_SLOT in meta:
        slot = meta.pop(_SHARED_SLOT)
        meta.pop("download_slot", None)
        if slot is not None:
            meta["download_slot"] = slot
    # a redirected request would stay in the slot of the site that it comes from, and so keep the delays of both
    urls = meta.get("redirect_urls")
    if urls and meta.get("download_slot") == urlsplit(urls[-1]).hostname:
        del meta["download_slot"]


def leave_shared_slot(request: Any, address: str, is_by_ip: bool, configured: frozenset[str]) -> None:
    """Gives a request to a site with a delay a slot of its own, if its slot may have other hosts, which then needn't wait as long: one that
    the spider names, or one of an IP address. A slot whose delay is in the settings isn't left."""
    slot = request.meta.get("download_slot")
    is_shared = is_by_ip if slot is None else slot != urlsplit(request.url).hostname
    if is_shared and slot not in configured:
        request.meta[_SHARED_SLOT] = slot
        request.meta["download_slot"] = f"{slot or ''} {address}".strip()
