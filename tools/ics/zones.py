"""Time zones: which of the server's a TZID means (RFC 5545 section 3.2.19), by its name or by the rule of its VTIMEZONE, and the VTIMEZONE of a zone."""

import re
from datetime import datetime, timedelta, timezone
from functools import lru_cache
from pathlib import Path
from zoneinfo import TZPATH, ZoneInfo, available_timezones

from icalendar import Timezone
from icalendar.windows_to_olson import WINDOWS_TO_OLSON

from lines import Component
from values import DAY, UTC

NAMES_OF_UTC = {"UTC", "GMT", "Z", "Etc/UTC", "Etc/GMT", "Etc/Zulu", "UCT"}
# Between two changes of a clock there are more hours than these.
SAMPLED = timedelta(hours=6)
# Changes that no rule of iCalendar tells are written out until then.
LAST_YEAR = 2099
DAYS = ("SU", "MO", "TU", "WE", "TH", "FR", "SA")


@lru_cache(None)
def zone(name):
    return ZoneInfo(name)


def is_zone(name):
    return name in all_names()


@lru_cache(None)
def all_names():
    return frozenset(available_timezones())


def names_in(tzid, component):
    """The names of zones that a TZID may mean: itself, its end behind a vendor's prefix, the one that its VTIMEZONE tells, and that of Windows' name."""
    yield tzid
    parts = tzid.strip("/").split("/")
    yield from ("/".join(parts[place:]) for place in range(1, len(parts)))
    if component:
        yield from (it.value for it in component.lines if it.name in ("X-LIC-LOCATION", "TZID-ALIAS-OF"))
    yield WINDOWS_TO_OLSON.get(tzid.strip('"'), "")


class Zones:
    """The zones of a file's TZIDs. `known` gives those of some names that the server knows."""

    def __init__(self, components, known):
        self.components = {text: it for it in components if (text := it.value("TZID"))}
        self.known = known
        self.found = {}
        self.all_known = None

    def named(self, tzid, year):
        """The name of the server's zone that a TZID means in a year, and None where there is none."""
        key = tzid, year if tzid in self.components else None
        if key not in self.found:
            self.found[key] = self.look(tzid, year)
        return self.found[key]

    def look(self, tzid, year):
        if tzid in NAMES_OF_UTC:
            return UTC
        component = self.components.get(tzid)
        names = [it for it in names_in(tzid, component) if is_zone(it)]
        known = self.known(names)
        named = next((it for it in names if it in known), None)
        return named or self.fitting(component, year)

    def fitting(self, component, year):
        """A zone that the server knows, whose clock shows in a year and the next what the VTIMEZONE tells."""
        clock = clock_of(component) if component else None
        if clock is None:
            return None
        if self.all_known is None:
            self.all_known = sorted(self.known(sorted(all_names())))
        return next((it for it in self.all_known if shows_same(clock, zone(it), year)), None)

    def clock(self, tzid):
        """What tells the offsets of a TZID that the server doesn't know, or None."""
        component = self.components.get(tzid)
        name = next((it for it in names_in(tzid, component) if is_zone(it)), None)
        return zone(name) if name else clock_of(component) if component else None


@lru_cache(None)
def clock_by(text):
    try:
        return Timezone.from_ical(text).to_tz()
    except (ValueError, KeyError, IndexError, AttributeError, AssertionError, TypeError):
        return None


def clock_of(component):
    """The clock of a VTIMEZONE, or None where it has no sense."""
    return clock_by(component.written())


def shows_same(clock, other, year):
    moment, end = datetime(year, 1, 1, tzinfo=timezone.utc), datetime(year + 2, 1, 1, tzinfo=timezone.utc)
    while moment < end:
        if moment.astimezone(clock).utcoffset() != moment.astimezone(other).utcoffset():
            return False
        moment += SAMPLED
    return True


def to_zone(moment, clock, other):
    """A local time of a clock as that of another; of the two that a clock shows twice the first (RFC 5545 section 3.3.5)."""
    aware = clock.localize(moment, is_dst=True) if hasattr(clock, "localize") else moment.replace(tzinfo=clock)
    return aware.astimezone(other).replace(tzinfo=None)


def rule_text(name):
    """The POSIX rule by which a zone's clock goes on, as its file tells it in the last line (RFC 8536 section 3.3)."""
    for folder in TZPATH:
        file = Path(folder, name)
        if file.is_file():
            return file.read_bytes().rstrip(b"\n").rpartition(b"\n")[2].decode()
    return None


RULE = re.compile(r"(<[^>]+>|[A-Za-z]+)([-+]?[\d:]+)(?:(<[^>]+>|[A-Za-z]+)([-+]?[\d:]+)?,M(\d+)\.(\d)\.(\d)(?:/([-+]?[\d:]+))?,M(\d+)\.(\d)\.(\d)(?:/([-+]?[\d:]+))?)?")


def seconds_in(text):
    sign = -1 if text.startswith("-") else 1
    parts = [int(it) for it in text.lstrip("+-").split(":")]
    return sign * sum(part * unit for part, unit in zip(parts, (3600, 60, 1)))


def offset_text(seconds):
    hours, rest = divmod(abs(seconds), 3600)
    return f"{'-' if seconds < 0 else '+'}{hours:02}{rest // 60:02}" + (f"{rest % 60:02}" if rest % 60 else "")


def day_in(year, month, week, day):
    """The day of the week in a month's week, of which 5 is the last."""
    first = datetime(year, month, 1)
    found = first + timedelta(days=(day - (first.weekday() + 1)) % 7 + 7 * (week - 1))
    return found if found.month == month else found - timedelta(days=7)


def change(name, label, before, after, month, week, day, time):
    """The part of a VTIMEZONE for a change each year, in a month's week on a day, at a time of the clock before it."""
    part = Component(name)
    part.add("DTSTART", (day_in(1970, month, week, day) + timedelta(seconds=time)).strftime("%Y%m%dT%H%M%S"))
    part.add("TZOFFSETFROM", offset_text(before))
    part.add("TZOFFSETTO", offset_text(after))
    part.add("TZNAME", label.strip("<>"))
    if 0 <= time < DAY:
        part.add("RRULE", f"FREQ=YEARLY;BYMONTH={month};BYDAY={-1 if week == 5 else week}{DAYS[day]}")
    else:
        # A time beyond the day, as 24:00 or 26:00, is on the day before or behind, which no rule tells: so the days themselves.
        days = [day_in(year, month, week, day) + timedelta(seconds=time) for year in range(1970, LAST_YEAR + 1)]
        part.add("RDATE", ",".join(it.strftime("%Y%m%dT%H%M%S") for it in days))
    return part


def vtimezone(name):
    """The VTIMEZONE of a zone by its rule, or None where it has no rule that iCalendar can tell."""
    found = RULE.fullmatch(rule_text(name) or "")
    if not found:
        return None
    component = Component("VTIMEZONE")
    component.add("TZID", name)
    usual = -seconds_in(found[2])
    if not found[3]:
        part = Component("STANDARD")
        for key, value in (("DTSTART", "19700101T000000"), ("TZOFFSETFROM", offset_text(usual)), ("TZOFFSETTO", offset_text(usual)), ("TZNAME", found[1].strip("<>"))):
            part.add(key, value)
        component.parts.append(part)
        return component
    summer = -seconds_in(found[4]) if found[4] else usual + 3600
    dates = [[int(it) for it in found.group(*places)] for places in ((5, 6, 7), (9, 10, 11))]
    times = [seconds_in(it or "2") for it in (found[8], found[12])]
    component.parts = [
        change("DAYLIGHT", found[3], usual, summer, *dates[0], times[0]),
        change("STANDARD", found[1], summer, usual, *dates[1], times[1]),
    ]
    return component
