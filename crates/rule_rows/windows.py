#!/usr/bin/env python3
"""Writes 100 wall times in eight time zones with the instants that Python's `zoneinfo` has for them, as rows of the table `windows` of `stdin`.

`zoneinfo` reads each zone from its rule alone: a file of version 2 (RFC 9636) without transitions, whose footer is the rule. A wall time
that comes twice is asked for as the first, and for one that the clock passes over `zoneinfo` takes the offset before the gap (fold 0 of
PEP 495), as RFC 5545 section 3.3.5 says.
"""
import datetime
import io
import json
import random
import struct
import zoneinfo

RULES = [
    "EST5EDT,M3.2.0,M11.1.0",
    "CET-1CEST,M3.5.0,M10.5.0/3",
    "GMT0BST,M3.5.0/1,M10.5.0",
    "<+1030>-10:30<+11>-11,M10.1.0,M4.1.0",
    "IST-5:30",
    "NZST-12NZDT,M9.5.0,M4.1.0/3",
    "IST-1GMT0,M10.5.0,M3.5.0/1",
    "<-02>2<-01>,M3.5.0/-1,M10.5.0/0",
]
ROWS = 100


def zone_of(rule):
    """The zone of a rule, by a file that has nothing but it."""

    def block(version):
        header = b"TZif" + version + bytes(15) + struct.pack(">6l", 0, 0, 0, 0, 1, 4)
        return header + struct.pack(">lbb", 0, 0, 0) + b"UTC\0"

    data = block(b"2") + block(b"2") + b"\n" + rule.encode() + b"\n"
    return zoneinfo.ZoneInfo.from_file(io.BytesIO(data), key=rule)


def changes(zone, year):
    """The wall times of a year, by the hour, round which the offset changes."""
    hour = datetime.datetime(year, 1, 1)
    before = hour.replace(tzinfo=zone).utcoffset()
    while hour.year == year:
        after = hour.replace(tzinfo=zone).utcoffset()
        if after != before:
            yield hour
        before = after
        hour += datetime.timedelta(hours=1)


def instant(zone, wall):
    offset = wall.replace(tzinfo=zone).utcoffset()
    return wall - offset


def main():
    choose = random.Random(5545)
    rows = []
    for place, rule in enumerate(RULES):
        zone = zone_of(rule)
        wanted = ROWS * (place + 1) // len(RULES) - ROWS * place // len(RULES)
        walls = set()
        while len(walls) < wanted:
            year = choose.choice([2, 1900, 1970, 2024, 2025, 2500, 9997])
            near = list(changes(zone, year))
            if near and choose.random() < 0.8:
                wall = choose.choice(near) + datetime.timedelta(seconds=choose.choice([-5400, -3600, -1800, -1, 0, 1, 1800, 3599, 3600, 5400]))
            else:
                wall = datetime.datetime(year, 1, 1) + datetime.timedelta(seconds=choose.randrange(365 * 86400))
            if wall.year == year:
                walls.add(wall)
        for wall in sorted(walls):
            rows.append((rule, wall, instant(zone, wall)))
    print("\n## By `windows.py`\n\n# Wall times round the changes of eight zones, with the instants that Python's `zoneinfo` has for them.")
    for rule, wall, at in rows:
        print(json.dumps({"zone": rule, "at": wall.isoformat()}, separators=(",", ":")))
        print(at.isoformat() + "Z")


if __name__ == "__main__":
    main()
