"""What a hostile user may send: requests that cost much for their bytes, each with the account that it is sent to. `hostile.py` times them."""

import datetime
import json
from dataclasses import dataclass, field
from typing import Callable

import bookings
from availability import fill, local
from clashes import placed
from connections import CONFIGURATION
from occurrences import ENDLESS
from rooms import date
from shapes import SHAPES

STRANGE = {"name": "Far/Strange", "rule": "<aaa>24:59:59<bbb>-24:59:59,J1/-167:59:59,J365/167:59:59"}
YEAR = {"after": "2024-06-01T00:00:00", "before": "2025-06-02T00:00:00"}
# The days on which `overridden` has overrides.
OVERRIDDEN = {"after": "2024-01-01T00:00:00", "before": "2024-05-09T00:00:00"}
LAST_DAY = b'"utcStart":"2025-06-01T00:00:00Z"'
LAST_OCCURRENCE = "E1400_20250601T231900"  # by its start, of 2,000 daily events in that year
NOTHING = b'"ids":[]'
ALL_BOOKED = b'"notCreated":null'


@dataclass
class Hostile:
    """A request, and what it is to come to."""

    name: str
    fill: Callable  # fills the account
    calls: Callable  # the calls of the request, each a name with its arguments, or the whole body
    wanted: bytes = b""  # stands in the response
    seconds: float = 3.0  # of processor, at most
    megabytes: int = 300  # of memory beside what was held before, at most
    created: Callable = dict  # the created ids that the request gives
    beside: str = ""  # the request of which it may take twice the time
    may_refuse: bool = True  # an error is as good an answer
    error: str = ""  # the one that has to come
    zones: list = field(default_factory=list)  # of the configuration, beside its own


def goal(name, fill_account, calls, wanted, seconds, megabytes=300, **more):
    """One that has to be answered, and has goals of its own."""
    return Hostile(name, fill_account, calls, wanted, seconds, megabytes, may_refuse=False, **more)


def too_large(name, fill_account, calls, seconds, megabytes=300):
    """One of which a call has to be refused as too large."""
    return Hostile(name, fill_account, calls, seconds=seconds, megabytes=megabytes, error="requestTooLarge")


# Events.


def event(number, **more):
    """An event of five minutes, of which 1,400 begin one a minute."""
    return {
        "calendarIds": {"C1": True},
        "start": local(number % 1_400),
        "duration": "PT5M",
        "timeZone": "Etc/UTC",
        "title": f"Event {number}",
        **more,
    }


def daily(number, **more):
    return event(number, recurrenceRules=[{"frequency": "daily"}], **more)


def apart(number):
    """A daily event that touches no other, but for those of the same minute."""
    return daily(number) | {"duration": "PT30S"}


def stranger(number):
    return daily(number) | {"timeZone": STRANGE["name"]}


def vain(number):
    """An event of four rules of which each looks for the 30th of February."""
    never = {"frequency": "daily", "byMonth": ["2"], "byMonthDay": [30]}
    return event(number, recurrenceRules=[never | {"interval": step} for step in (1, 2, 3, 5)])


def placed_yearly(number):
    """An event of four rules of which each keeps one of the working days of a year."""
    working = {"frequency": "yearly", "byDay": [{"day": day} for day in ("mo", "tu", "we", "th", "fr")]}
    return event(number, recurrenceRules=[working | {"bySetPosition": [place]} for place in (-1, 200, 250, -2)])


def overridden(number, patch, **more):
    """A daily event with 128 overrides."""
    start = datetime.datetime.fromisoformat(event(number)["start"])
    days = ((start + datetime.timedelta(days=days)).isoformat() for days in range(128))
    return daily(number) | {"recurrenceOverrides": dict.fromkeys(days, patch)} | more


def retitled(number):
    return overridden(number, {"title": "m"})


def retitled_by_four_rules(number):
    return overridden(number, {"title": "m"}, recurrenceRules=ENDLESS)


def crowded(number):
    """An event with 256 participants."""
    people = ((f"Person {person}", f"p{person}@example.com") for person in range(256))
    return event(number, participants={f"p{place}": {"name": name, "email": email, "roles": {"attendee": True}} for place, (name, email) in enumerate(people)})


def of_bytes(size, make=event):
    """Events whose titles have so many bytes and begin alike."""
    return lambda number: make(number) | {"title": "a" * (size - 6) + f"{number:06}"}


def described(size):
    """Daily events whose descriptions have so many bytes."""
    return lambda number: daily(number, description="d" * size)


def booking(series):
    """A series of `rooms.py` or `clashes.py` as a client sends it."""
    moved = {it["rid"]: {"start": it["start"], "duration": f"P{it['days']}D"} for it in series.get("exceptions", [])}
    return bookings.event({"seconds": 86_400 * series.get("days", 0)} | series, recurrenceOverrides=moved)


# Accounts.


def nothing(_connection):
    pass


def calendar(connection):
    connection.send(["Calendar/set", {"accountId": "A1", "create": {"c": {"name": "Team"}}}], 1)


def events(make, count):
    return lambda connection: fill(connection, make, count)


def large(make, count, at_once=50):
    """Events of which so many are made at once, since they are large."""

    def fill_large(connection):
        calendar(connection)
        for first in range(0, count, at_once):
            connection.send(set_of(create={f"k{number}": make(number) for number in range(first, min(first + at_once, count))}), 1)

    return fill_large


def room(*series):
    """A room with these bookings."""

    def fill_room(connection):
        connection.send(bookings.ROOM[:2], 1)
        if series:
            connection.send(set_of(create={f"k{number:03}": booking(it) for number, it in enumerate(series)}), 1)

    return fill_room


def changed(count):
    """5,000 events, of which so many were changed since."""

    def fill_changed(connection):
        fill(connection, event, 5_000)
        for first in range(1, count + 1, 500):
            connection.send(set_of(update={f"E{number}": {"title": "Moved"} for number in range(first, min(first + 500, count + 1))}), 1)

    return fill_changed


def empty_calendars(connection):
    """45,000 events, and beside their calendar 500 that are empty."""
    fill(connection, event, 45_000)
    connection.send(["Calendar/set", {"accountId": "A1", "create": {f"k{number}": {"name": "empty"} for number in range(500)}}], 1)


# Calls.


def set_of(**arguments):
    return ["CalendarEvent/set", {"accountId": "A1", **arguments}]


def get_of(**arguments):
    return ["CalendarEvent/get", {"accountId": "A1", **arguments}]


def query_of(condition, *properties, **arguments):
    ordered = {"sort": [{"property": it} for it in properties]} if properties else {}
    return ["CalendarEvent/query", {"accountId": "A1", "filter": condition, "timeZone": "Etc/UTC", **ordered, **arguments}]


def expanded(*properties, **arguments):
    return query_of(YEAR, *properties, expandRecurrences=True, calculateTotal=True, **arguments)


def changes_of(condition, since):
    return ["CalendarEvent/queryChanges", query_of(condition, sinceQueryState=since)[1]]


def busy():
    return ["Principal/getAvailability", {"accountId": "A1", "id": "A1", "utcStart": YEAR["after"] + "Z", "utcEnd": YEAR["before"] + "Z"}]


def any_of(conditions):
    return {"operator": "OR", "conditions": list(conditions)}


def any_title(count):
    """A filter of so many titles that no event has."""
    return any_of({"title": f"q{number}"} for number in range(count))


def any_instant(count):
    """A filter of midnights that no event lasts over."""
    midnights = (f"{2500 + number}-01-01T00:00:00" for number in range(count))
    return any_of({"after": midnight, "before": midnight} for midnight in midnights)


def within(condition, levels):
    for _ in range(levels):
        condition = {"operator": "NOT", "conditions": [condition]}
    return condition


def updates(count, patch):
    return set_of(update={f"E{number + 1}": patch for number in range(count)})


def occurrences(count):
    """The ids of so many occurrences of the first event."""
    days = (datetime.datetime(2024, 1, 1) + datetime.timedelta(days=number) for number in range(count))
    return [f"E1_{day:%Y%m%dT%H%M%S}" for day in days]


def monthly(count):
    """Two bookings whose rules name days of the month so often."""
    made = {}
    for day in (1, 15):
        rule = {"frequency": "monthly", "byMonthDay": [day, day + 1] * (count // 2)}
        made[f"k{day}"] = booking({"start": f"2024-01-{day:02}T09:00:00", "seconds": 3_600, "rules": [rule]})
    return [set_of(create=made)]


def refers_to(result, path):
    return {"resultOf": result, "name": "Core/echo", "path": path}


def by_reference(condition):
    """A filter that is sent once, and queries that refer to it."""
    query = ["CalendarEvent/query", {"accountId": "A1", "#filter": refers_to("c0", "/filter")}]
    return [["Core/echo", {"filter": condition}]] + [query] * 15


def echoes_of_one(value):
    """An echo, and others of the same by reference."""
    return [["Core/echo", {"a": value}]] + [["Core/echo", {"#a": refers_to("c0", "/a")}]] * 15


def doubling(value):
    """An echo, and others of which each refers twice to the one before."""
    twice = (refers_to(f"c{number}", "") for number in range(15))
    return [["Core/echo", {"a": value}]] + [["Core/echo", {"#a": it, "#b": it}] for it in twice]


def four_before(value):
    """An echo, and others of which each refers to the whole of each of the four before it."""
    return [["Core/echo", {"a": value}]] + [["Core/echo", {f"#k{before}": refers_to(f"c{before}", "") for before in range(max(0, number - 4), number)}] for number in range(1, 16)]


def many_references(count, value, calls=1):
    """An echo, and calls of which each refers to it so often."""
    refers = {f"#k{number:05}": refers_to("c0", "/a") for number in range(count)}
    return [["Core/echo", {"a": value}]] + [["Core/echo", refers]] * calls


# Creation ids in `calendarIds`, or in a patch of it.


def keys(count):
    return [f"#k{number:06}" for number in range(count)]


def ids_of(count, is_rising):
    """Ids of creation ids, in the order of these or in the other."""
    return {key[1:]: f"C{number if is_rising else count - 1 - number:06}" for number, key in enumerate(keys(count))}


def in_calendars(count):
    return [set_of(create={"k": event(0) | {"calendarIds": dict.fromkeys(keys(count), True)}})]


def patched(count):
    return [set_of(update={"E1": dict.fromkeys((f"calendarIds/{key}" for key in keys(count)), True)})]


def keyed(what, count, calls):
    """So many keys in rising and in falling order of what they stand for."""
    rising, falling = (f"{what} of {count:,} keys in {order} order" for order in ("rising", "falling"))
    account, wanted = large(event, 1), b'"calendarIds"'
    yield goal(rising, account, lambda: calls(count), wanted, 0.5, created=lambda: ids_of(count, True))
    yield goal(falling, account, lambda: calls(count), wanted, 0.5, created=lambda: ids_of(count, False), beside=rising)


GOALS = [
    *keyed("calendarIds", 40_000, in_calendars),
    *keyed("calendarIds", 120_000, in_calendars),
    *keyed("a patch", 40_000, patched),
    *keyed("a patch", 120_000, patched),
    goal("two bookings of 4,000 days of the month", room(), lambda: monthly(4_000), ALL_BOOKED, 0.3),
    goal("two bookings of 500,000 days of the month", room(), lambda: monthly(500_000), ALL_BOOKED, 1.0),
    goal("a text of 1 MB, 5,000 events", events(event, 5_000), lambda: [query_of({"text": "q" * 1_000_000})], NOTHING, 0.1),
    goal("a year's busy periods, 2,000 daily events", events(daily, 2_000), lambda: [busy()], LAST_DAY, 1.0),
    goal("a filter of 999 titles, 5,000 events", events(event, 5_000), lambda: [query_of(any_title(999))], NOTHING, 2.0),
    Hostile("a filter of 10,000 titles, 5,000 events", events(event, 5_000), lambda: [query_of(any_title(10_000))], seconds=2.0),
    goal("366 days expanded, 2,000 daily events", events(daily, 2_000), lambda: [expanded("start")], b'"total":732000', 0.8, 60),
]

# Sixteen calls in a request, and references.
CALLS = [
    Hostile("16 times 366 days expanded", events(daily, 2_000), lambda: [expanded("start")] * 16),
    Hostile("16 times the last of 366 days expanded", events(daily, 2_000), lambda: [expanded("start", position=-1_000)] * 16),
    Hostile("16 times 366 days expanded, by an anchor", events(daily, 2_000), lambda: [expanded("start", anchor=LAST_OCCURRENCE)] * 16),
    Hostile("16 times 366 days expanded, placed days", events(placed_yearly, 2_000), lambda: [expanded("start")] * 16),
    Hostile("16 times 366 days expanded, 128 overrides each", large(retitled, 2_000), lambda: [expanded("title")] * 16),
    Hostile("16 times a year's busy periods, no two touch", events(apart, 2_000), lambda: [busy()] * 16),
    Hostile("15 references to a filter of 40,000 uids", events(event, 5_000), lambda: by_reference(any_of([{"uid": "q"}] * 40_000))),
    Hostile("15 references to an echo of 4 MB", nothing, lambda: echoes_of_one([0] * 2_000_000), megabytes=260),
    Hostile("a reference to an echo of 9.9 MB of lists", nothing, lambda: echoes_of_one([[0]] * 2_475_000)[:3], megabytes=490),
    Hostile("15 echoes, each of twice the one before", nothing, lambda: doubling("q" * 1_000)),
    Hostile("15 echoes, each of the four before", nothing, lambda: four_before("q" * 1_000)),
    too_large("80,000 references to 4.8 MB in a call", nothing, lambda: many_references(80_000, "q" * 4_800_000), 0.5),
    too_large("15 calls of 16 references to 9.9 MB", nothing, lambda: many_references(16, "q" * 9_900_000, 15), 0.5),
    too_large("15 calls of 4 references to 9.9 MB", nothing, lambda: many_references(4, "q" * 9_900_000, 15), 3.0),
    Hostile("16 gets of 500 events of 30,000 bytes", large(of_bytes(30_000), 500), lambda: [get_of()] * 16),
    too_large("250 occurrences of an event of 100,000 bytes", large(described(100_000), 1), lambda: [get_of(ids=occurrences(250))], 0.5),
    too_large("16 gets of 190 occurrences of such an event", large(described(100_000), 1), lambda: [get_of(ids=occurrences(190))] * 16, 1.0),
]

FILTERS = [
    Hostile("20 texts of 400,000 bytes", events(event, 5_000), lambda: [query_of(any_of({"text": letter * 400_000} for letter in "abcdefghijklmnopqrst"))]),
    Hostile("a filter of 600,000 uids", events(event, 5_000), lambda: [query_of(any_of([{"uid": "q"}] * 600_000))]),
    Hostile("a filter of 2,000,000 empty conditions", events(event, 5_000), lambda: [query_of({"operator": "AND", "conditions": [{}] * 2_000_000})]),
    Hostile("a filter of 1,000 conditions 60 levels deep", events(event, 5_000), lambda: [query_of(any_of([within({"uid": "q"}, 58)] * 1_000))]),
    Hostile("1,000 names, 250 events of 256 people", large(crowded, 250), lambda: [query_of(any_of({"participant": f"q{number}"} for number in range(1_000)))]),
    Hostile("1,000 midnights, 2,000 daily events", events(daily, 2_000), lambda: [query_of(any_instant(1_000))]),
    Hostile("5,000 titles of 3,000 bytes in order", large(of_bytes(3_000), 5_000, 500), lambda: [query_of({}, "title", "uid", "created", "updated")]),
    Hostile("366 days expanded by titles of 6,000 bytes", large(of_bytes(6_000, daily), 2_000, 500), lambda: [expanded("title", "start")]),
    Hostile("4,096 changes by a filter of 1,000 titles", changed(4_096), lambda: [changes_of(any_title(1_000), "5000")]),
]

RULES = [
    Hostile("a night of 2500, 2,000 events of rules in vain", events(vain, 2_000), lambda: [query_of(any_instant(1))]),
    Hostile("366 days expanded, 2,000 events of placed days", events(placed_yearly, 2_000), lambda: [expanded("start")]),
    Hostile("500 creates of rules in vain", calendar, lambda: [set_of(create={f"k{number}": vain(number) for number in range(500)})]),
    Hostile("500 updates of events with 128 overrides", large(retitled, 500), lambda: [updates(500, {"title": "Moved"})]),
    Hostile("16 times 500 bad updates of such events", large(retitled_by_four_rules, 500), lambda: [updates(500, {"title": 1})] * 16),
    Hostile(
        "16 updates of 500,000 bytes with 128 overrides",
        large(lambda number: overridden(number, {"title": "m", "duration": "PT2H"}, description="d" * 500_000), 1),
        lambda: [updates(1, {"title": f"Moved {number}"}) for number in range(16)],
    ),
    Hostile(
        "500 occurrences, 128 overrides of 60,000 bytes",
        large(lambda number: overridden(number, {"description": "d" * 60_000}), 1),
        lambda: [get_of(ids=occurrences(500))],
    ),
    Hostile(
        "500 occurrences of an event of 500,000 bytes",
        large(lambda number: daily(number, description="d" * 500_000), 1),
        lambda: [get_of(ids=occurrences(500))],
    ),
    Hostile("16 gets of 500 occurrences, four rules", large(retitled_by_four_rules, 1), lambda: [get_of(ids=occurrences(500), properties=["id"])] * 16),
    Hostile("the 128 days of overrides expanded", large(retitled, 2_000), lambda: [query_of(OVERRIDDEN, "start", expandRecurrences=True, calculateTotal=True)]),
    Hostile("366 days expanded by titles, 128 overrides each", large(retitled, 2_000), lambda: [expanded("title")]),
    Hostile("366 days expanded in a strange zone", events(stranger, 2_000), lambda: [expanded("start")], zones=[STRANGE]),
    Hostile("a year's busy periods in a strange zone", events(stranger, 2_000), lambda: [busy()], zones=[STRANGE]),
]

BOOKINGS = [
    Hostile(
        "336 yearly hours in one room",
        room(),
        lambda: [set_of(create={f"k{number}": booking(date(number)) for number in range(336)})],
    ),
    Hostile(
        "two bookings by places among working days",
        room(placed("2024-01-05T09:00:00", (5, 10, 15, 20), 6)),
        lambda: [set_of(create={"k": booking(placed("2024-07-12T09:00:00", (140, 150, 160, 170), 12))})],
    ),
]

NAMES = [
    Hostile("300,000 properties of 500 events", events(event, 500), lambda: [get_of(properties=[f"q{number:05}" for number in range(300_000)])]),
    Hostile(
        "500 destroys of calendars beside 45,000 events",
        empty_calendars,
        lambda: [["Calendar/set", {"accountId": "A1", "destroy": [f"C{number + 2}" for number in range(500)]}]],
    ),
    Hostile("a set that names 700,000 objects", calendar, lambda: [set_of(destroy=[f"E{number}" for number in range(700_000)])]),
    Hostile(
        "500 updates that name one event",
        large(event, 1),
        lambda: [set_of(update=dict.fromkeys(keys(500), {"title": "q"}))],
        created=lambda: dict.fromkeys((key[1:] for key in keys(500)), "E1"),
    ),
    Hostile("lists 126 levels deep, 9.6 MB", nothing, SHAPES["[ 126 deep"]),
]

HOSTILE = GOALS + CALLS + FILTERS + RULES + BOOKINGS + NAMES


def site(zones):
    """The configuration with more zones."""
    with open(CONFIGURATION, encoding="utf-8") as file:
        made = json.load(file)
    return made | {"zones": made["zones"] + zones}
