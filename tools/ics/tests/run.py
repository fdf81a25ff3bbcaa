#!/usr/bin/python3
"""Tries tools/ics: by examples of RFC 5545 and RFC 8984, and over a server that keeps journals by files that others wrote.

    tools/ics/tests/run.py [--program PATH] [--files FOLDER]

Files are those of Debian's package python3-icalendar, and with --files all *.ics below a folder, as the source of libical (`apt-get source libical3`) has in test-data. Skipped with a line where
python3-icalendar or python3-recurring-ical-events isn't here."""

import argparse
import contextlib
import functools
import http.server
import json
import os
import pty
import subprocess
import sys
import tempfile
import threading
import time
from datetime import date, datetime, timedelta, timezone
from pathlib import Path

ME = "tools/ics/tests/run.py"
TOP = Path(__file__).resolve().parents[3]
ICS = TOP / "tools/ics/ics"
sys.dont_write_bytecode = True
sys.path[:0] = [str(TOP / "tools/ics"), str(TOP / "examples")]

try:
    import icalendar
    import recurring_ical_events
except ImportError as error:
    print(f"{ME}: skipped, since {error.name} isn't here")
    sys.exit()

import cases
import served
from events import OWN_OF_SERVER, STRUCTURE, uid_of
from lines import parse
from server import Server
from transfer import Import, export
from values import local_text, text_of, texts_of
from zones import rule_text, to_zone, zone

# The zones of the server: those that the files name, and one that a VTIMEZONE of theirs fits by its rule alone.
ZONES = ("America/New_York", "America/Los_Angeles", "America/Chicago", "Europe/Zurich", "Europe/Vienna", "Pacific/Fiji", "Australia/Sydney")
OWN = {"id", "created", "updated", "calendarIds"}
MANY = 10_000
SECONDS_FOR_MANY = 60
# A query expands at most 366 days; three windows of so many days are two years.
WINDOWS, DAYS = 3, 244


class Site(served.Site):
    """A server with one account and the zones, and the bridge beside it."""

    def __init__(self, program, folder):
        super().__init__(program, folder)
        rules = [{"name": name, "rule": rule_text(name)} for name in ZONES]
        self.configure(served.configuration(("A1",), zones=rules))

    @contextlib.contextmanager
    def bridged(self):
        with self.serving() as server:
            self.address = f"http://127.0.0.1:{server.port}"
            yield Bridge(self.address, self.folder)


class Bridge:
    """The program, and another client of the same account that looks at what it did."""

    def __init__(self, address, folder):
        self.address, self.folder = address, Path(folder)
        self.server = Server(address, served.TOKEN)

    def ics(self, *words, token=served.TOKEN):
        env = os.environ | ({"JMAP_TOKEN": token} if token else {})
        return subprocess.run([ICS, "--server", self.address, *words], env=env, capture_output=True, text=True, check=False)

    def brought(self, file, calendar):
        """Imports a file; gives what it counted and what it told."""
        done = self.ics("import", "--calendar", calendar, str(file))
        assert done.returncode in (0, 1), (file, done)
        counts = {what: int(count.replace(",", "")) for count, what in (it.split(" ", 1) for it in done.stdout.strip().split(": ")[1].split(", "))}
        return counts, done.stderr.splitlines()

    def read(self, file, calendar):
        """The same within this process."""
        told = []
        work = Import(self.server, calendar, told.append, lambda *_: None)
        work.run(text_in(file))
        return work.counts, told

    def new(self, name):
        return self.server.add_calendar({"name": name})

    def events(self, calendar):
        return {f"{it['uid']} {it['start']}": {key: value for key, value in it.items() if key not in OWN} for it in self.server.events(calendar, lambda *_: None)}


def text_in(file):
    data = Path(file).read_bytes()
    try:
        return data.decode("utf-8-sig")
    except UnicodeDecodeError:
        return data.decode("latin-1")


def same(what, got, wanted):
    if isinstance(got, dict) and isinstance(wanted, dict):
        got, wanted = ({key: it for key, it in one.items() if it != other.get(key)} for one, other in ((got, wanted), (wanted, got)))
    assert got == wanted, f"{what}: {json.dumps(got, default=str)} is not {json.dumps(wanted, default=str)}"


def lines_of(text):
    """The uid of each event of a text, with the names and the values of those of its lines that are taken one by one."""
    for whole in parse(text, lambda _: None):
        for it in whole.parts:
            if it.name == "VEVENT":
                lines = [line for line in it.lines if line.name not in STRUCTURE | OWN_OF_SERVER]
                # A list may come back in another order, and as more than one line.
                yield uid_of(it) if it.value("UID") else None, {(line.name, value) for line in lines for value in (texts_of(line.value) if line.name == "CATEGORIES" else [text_of(line.value)])}


def is_told(name, uid, told):
    """Whether a line on standard error speaks of a line of the file, or of its whole event."""
    return any(name in it or "not taken" in it or "comes more than once" in it for it in told if it.startswith(f"{uid}: "))


def round_trip(bridge, file, number):
    """Import twice, export, and import of that gives the same; what the file says of events is in the export, or was told."""
    first, second = bridge.new(f"first {number}"), bridge.new(f"second {number}")
    counts, told = bridge.read(file, first)
    again, _ = bridge.read(file, first)
    same(f"{file.name} again", again, {"made": 0, "changed": 0, "unchanged": counts["made"], "not taken": counts["not taken"]})
    out = bridge.folder / f"{number}.ics"
    out.write_bytes(export(bridge.server, first, told.append, lambda *_: None))
    icalendar.Calendar.from_ical(out.read_bytes())
    bridge.read(out, second)
    same(f"{file.name} there and back", bridge.events(second), bridge.events(first))
    written = {}
    for uid, lines in lines_of(text_in(out)):
        written.setdefault(uid, set()).update(lines)
    for uid, lines in lines_of(text_in(file)):
        lost = [it for it in lines if uid is not None and it not in written.get(uid, ()) and not is_told(it[0], uid, told)]
        assert not lost, f"{file.name}: {uid} lost {lost}, and told {told}"
    return first, counts["made"]


def told_by_server(bridge, calendar, begin, end):
    """Each occurrence in a window of days."""
    found, position = [], 0
    while True:
        window = {"inCalendar": calendar, "after": local_text(begin), "before": local_text(end)}
        query = {"filter": window, "expandRecurrences": True, "sort": [{"property": "start"}], "position": position, "limit": 500}
        ids = bridge.server.did("CalendarEvent/query", query)["ids"]
        if not ids:
            return found
        found += bridge.server.did("CalendarEvent/get", {"ids": ids})["list"]
        position += len(ids)


def on_utc(event):
    if "timeZone" not in event:
        return event["start"]
    return local_text(to_zone(datetime.fromisoformat(event["start"]), zone(event["timeZone"]), timezone.utc))


def expanded(text, begin, end):
    """The same of `recurring_ical_events`, by titles, since some events have no uid of their own, and on the clock of UTC where there is a zone."""
    for calendar in icalendar.Calendar.from_ical(text, multiple=True):
        for it in recurring_ical_events.of(calendar, components=["VEVENT"]).between(begin, end):
            start = it["DTSTART"].dt
            yield str(it.get("SUMMARY", "")), local_text(start.astimezone(timezone.utc) if getattr(start, "tzinfo", None) else start)


def unreadable(file):
    """Why the package can't expand a file, or not as one calendar, if so."""
    events = [it for whole in parse(text_in(file), lambda _: None) for it in whole.parts if it.name == "VEVENT"]
    if len({(uid_of(it), it.value("RECURRENCE-ID")) for it in events}) < len(events):
        return "an event of it comes more than once"
    try:
        list(expanded(text_in(file), datetime(2026, 1, 1), datetime(2026, 1, 2)))
    except Exception as error:  # It ends in many ways where a file isn't as it expects.
        return repr(error)[:120]
    return None


def occurrences(bridge, file, calendar):
    """The occurrences of two years from the first start on, and of the next two years, are those of `recurring_ical_events`."""
    text = text_in(file)
    starts = [datetime.fromisoformat(it["start"]) for it in bridge.server.events(calendar, lambda *_: None)]
    compared = 0
    for first in {min(starts).replace(hour=0, minute=0, second=0), datetime.combine(date.today(), datetime.min.time())}:
        for place in range(WINDOWS):
            begin, end = first + timedelta(days=DAYS * place), first + timedelta(days=DAYS * (place + 1))
            wide = begin - timedelta(days=2), end + timedelta(days=2)
            found = {(it.get("title", ""), on_utc(it)) for it in told_by_server(bridge, calendar, *wide)}
            ours, theirs = (sorted(it for it in told if begin <= datetime.fromisoformat(it[1]) < end) for told in (found, set(expanded(text, *wide))))
            only = {"ours": sorted(set(ours) - set(theirs))[:5], "theirs": sorted(set(theirs) - set(ours))[:5]}
            assert ours == theirs, f"{file.name} from {begin:%Y-%m-%d}: {only}"
            compared += len(ours)
    return compared


def files_of_others(program, folders):
    """All files, each over a server of its own."""
    files = sorted(Path(icalendar.__file__).parent.glob("tests/*.ics")) + sorted(it for folder in folders for it in Path(folder).rglob("*.ics"))
    taken = filled = compared = expanded_files = 0
    for number, file in enumerate(files):
        with tempfile.TemporaryDirectory() as folder, Site(program, folder).bridged() as bridge:
            calendar, events = round_trip(bridge, file, number)
            taken += events
            filled += events > 0
            why_not = unreadable(file) if events else "no event"
            if why_not is None:
                compared += occurrences(bridge, file, calendar)
                expanded_files += 1
            elif events:
                print(f"{ME}: {file.name} isn't expanded by recurring_ical_events: {why_not}", flush=True)
    print(f"{ME}: {len(files)} files, {filled} of them with {taken} events, came back as they were, and {compared} occurrences in {expanded_files} of them are those of recurring_ical_events", flush=True)


def many_text():
    """A calendar of 10,000 events, as an office may have them in some years."""
    lines = ["BEGIN:VCALENDAR", "VERSION:2.0", "PRODID:-//x//y//EN"]
    for number in range(MANY):
        start = datetime(2025, 1, 6, 8) + timedelta(minutes=30 * (number % 20), days=number // 20)
        lines += [
            "BEGIN:VEVENT", f"UID:many-{number}@example.com", "DTSTAMP:20250101T000000Z", f"DTSTART;TZID=Europe/Zurich:{start:%Y%m%dT%H%M%S}", "DURATION:PT30M",
            f"SUMMARY:Meeting {number}", "LOCATION:Room 1", "ORGANIZER;CN=Ann:mailto:ann@example.com", "ATTENDEE;PARTSTAT=ACCEPTED;CN=Bob:mailto:bob@example.com",
            "BEGIN:VALARM", "ACTION:DISPLAY", f"DESCRIPTION:Meeting {number}", "TRIGGER:-PT10M", "END:VALARM", *(["RRULE:FREQ=WEEKLY;COUNT=10"] if number % 10 == 0 else []), "END:VEVENT",
        ]
    return "\r\n".join([*lines, "END:VCALENDAR", ""])


def many_events(program, _):
    """10,000 events in less than a minute, and again none."""
    with tempfile.TemporaryDirectory() as folder, Site(program, folder).bridged() as bridge:
        file = Path(folder, "many.ics")
        file.write_text(many_text(), newline="")
        calendar, times = bridge.new("Many"), []
        for wanted in ({"made": MANY, "changed": 0, "unchanged": 0, "not taken": 0}, {"made": 0, "changed": 0, "unchanged": MANY, "not taken": 0}):
            begun = time.monotonic()
            counts, told = bridge.brought(file, calendar)
            times.append(time.monotonic() - begun)
            same("many", counts, wanted)
            same("many told", told, [])
        begun = time.monotonic()
        assert bridge.ics("export", "--calendar", calendar, str(Path(folder, "out.ics"))).returncode == 0
        times.append(time.monotonic() - begun)
        assert times[0] < SECONDS_FOR_MANY, times
        print(f"{ME}: {MANY:,} events were imported in {times[0]:.1f} s, again in {times[1]:.1f} s, and exported in {times[2]:.1f} s", flush=True)


def what_is_changed_elsewhere(program, _):
    """A file that says otherwise changes what is there; what it doesn't speak of stays."""
    with tempfile.TemporaryDirectory() as folder, Site(program, folder).bridged() as bridge:
        file, calendar = Path(folder, "a.ics"), bridge.new("Some")
        file.write_text(cases.calendar(cases.event("one", "SUMMARY:One"), cases.event("two", "SUMMARY:Two", "DESCRIPTION:Here")))
        bridge.brought(file, calendar)
        # Another client gives it a property that iCalendar has no place for.
        two = next(it for it in bridge.server.events(calendar, lambda *_: None) if it["uid"] == "two")
        same("not updated", bridge.server.set({}, {two["id"]: {"locale": "de"}}), {})
        file.write_text(cases.calendar(cases.event("two", "SUMMARY:Two\\, moved", start="20260302T100000")))
        counts, _ = bridge.brought(file, calendar)
        same("changed", counts, {"made": 0, "changed": 1, "unchanged": 0, "not taken": 0})
        same("titles", sorted(it["title"] for it in bridge.events(calendar).values()), ["One", "Two, moved"])
        two = bridge.events(calendar)["two 2026-03-02T10:00:00"]
        same("what the file can't tell, and what it tells no more", (two["locale"], "description" in two), ("de", False))
        print(f"{ME}: a file changes what it says otherwise, and nothing else", flush=True)


def what_the_server_does_not_take(program, _):
    """Rules that the server doesn't take are written out where they end soon, and kept and told in any case."""
    with tempfile.TemporaryDirectory() as folder, Site(program, folder).bridged() as bridge:
        for name, rule, times in (("few", "FREQ=HOURLY;COUNT=5", 5), ("endless", "FREQ=YEARLY;BYWEEKNO=20", 1)):
            file, calendar = Path(folder, f"{name}.ics"), bridge.new(name)
            file.write_text(cases.calendar(cases.event(name, f"RRULE:{rule}")))
            counts, told = bridge.brought(file, calendar)
            same(name, counts["made"], 1)
            assert [it for it in told if it.startswith(f"{name}: the server takes no such recurrenceRules") and rule in it], told
            same(f"{name}'s times", len(told_by_server(bridge, calendar, datetime(2026, 3, 1), datetime(2026, 12, 1))), times)
            assert f"RRULE:{rule}" in bridge.ics("export", "--calendar", calendar).stdout
            same(f"{name} again", bridge.brought(file, calendar)[0]["unchanged"], 1)
        print(f"{ME}: what the server doesn't take is kept and told", flush=True)


def what_clashes_in_a_room(program, _):
    """A room takes no two events at once, so one isn't taken, and is told with what it clashes."""
    with tempfile.TemporaryDirectory() as folder, Site(program, folder).bridged() as bridge:
        room = bridge.server.add_calendar({"name": "Room 1", "resourceZone": "Europe/Zurich"})
        file, start = Path(folder, "a.ics"), "DTSTART;TZID=Europe/Zurich:"
        weekly = cases.event("board", "RRULE:FREQ=WEEKLY", "DURATION:PT1H").replace("DTSTART:", start)
        later = cases.event("visit", "DURATION:PT1H", start="20260907T093000").replace("DTSTART:", start)
        file.write_text(cases.calendar(weekly, later))
        counts, told = bridge.brought(file, room)
        same("a clash", counts, {"made": 1, "changed": 0, "unchanged": 0, "not taken": 1})
        same("a clash is told", told, [f"visit: not taken: in {room} it would clash with the event E1 on 2026-09-07 at 09:30:00"])
        print(f"{ME}: what clashes in a room isn't taken, and told", flush=True)


class Quiet(http.server.SimpleHTTPRequestHandler):
    """A server of files that tells nothing."""

    def log_message(self, *_):
        pass


def what_an_address_leads_to(program, _):
    """An import from an address, and the bar that somebody sees who looks at it."""
    with tempfile.TemporaryDirectory() as folder, Site(program, folder).bridged() as bridge:
        Path(folder, "a.ics").write_text(cases.calendar(*[cases.event(f"event {number}") for number in range(600)]))
        handler = functools.partial(Quiet, directory=folder)
        with http.server.ThreadingHTTPServer(("127.0.0.1", 0), handler) as files:
            threading.Thread(target=files.serve_forever, daemon=True).start()
            terminal, seen = pty.openpty()
            words = [ICS, "--server", bridge.address, "import", "--new", "Feed", f"http://127.0.0.1:{files.server_port}/a.ics"]
            done = subprocess.run(words, env=os.environ | {"JMAP_TOKEN": served.TOKEN}, stdout=subprocess.PIPE, stderr=seen, text=True, check=True)
            files.shutdown()
        same("an address", done.stdout, "calendar C1: 600 made, 0 changed, 0 unchanged, 0 not taken\n")
        bars = os.read(terminal, 1_000_000).decode()
        assert "] 600 of 600" in bars and "####....." in bars, bars
        print(f"{ME}: an address is imported, with a bar of progress", flush=True)


def rules_of_the_standard(program, _):
    """The examples of RFC 5545 section 3.8.5.3 come to the occurrences that `recurring_ical_events` gives."""
    with tempfile.TemporaryDirectory() as folder, Site(program, folder).bridged() as bridge:
        file, calendar = Path(folder, "rules.ics"), bridge.new("Rules")
        file.write_text(cases.calendar(*[cases.event(rule, f"SUMMARY:{rule}", f"RRULE:{rule}").replace("DTSTART:20260302T090000", start) for start, rule in cases.RULES]))
        counts, told = bridge.read(file, calendar)
        same("the rules", (counts["made"], told), (len(cases.RULES), []))
        compared = occurrences(bridge, file, calendar)
        print(f"{ME}: {compared} occurrences of {len(cases.RULES)} rules of RFC 5545 are those of recurring_ical_events", flush=True)


def words_and_statuses(program, _):
    """Bad words, no server and no calendar end it with their statuses and a line."""
    with tempfile.TemporaryDirectory() as folder, Site(program, folder).bridged() as bridge:
        calendar, file = bridge.new("Some"), Path(folder, "a.ics")
        file.write_text("no calendar at all\n")
        for status, words, token, line in (
            (2, ("import", str(file)), served.TOKEN, "one of the arguments --calendar --new is required"),
            (2, ("calendars",), None, "the environment has no JMAP_TOKEN"),
            (3, ("calendars",), "nobody", "is answered 401"),
            (3, ("import", "--calendar", "C99", str(file)), served.TOKEN, "there is no calendar C99"),
            (3, ("export", "--calendar", "C99"), served.TOKEN, "there is no calendar C99"),
            (3, ("--account", "A9", "calendars"), served.TOKEN, "the user has no account A9"),
            (3, ("import", "--calendar", calendar, "nothing.ics"), served.TOKEN, "nothing.ics"),
            (0, ("import", "--calendar", calendar, str(file)), served.TOKEN, "no content line: no calendar at all"),
            (0, ("import", "--new", "Another", str(file)), served.TOKEN, "no content line: no calendar at all"),
        ):
            done = bridge.ics(*words, token=token)
            same(f"{words}", done.returncode, status)
            assert line in done.stderr, (words, done.stderr)
        same("calendars", bridge.ics("calendars").stdout.splitlines(), [f"{calendar}  Some", "C2  Another"])
        file.write_text(cases.calendar("BEGIN:VEVENT\r\nUID:none\r\nEND:VEVENT", "BEGIN:VTODO\r\nUID:do\r\nEND:VTODO"))
        done = bridge.ics("import", "--calendar", calendar, str(file))
        same("an event without a start", done.returncode, 1)
        assert "none: not taken: it has no DTSTART" in done.stderr and "VTODO do isn't an event" in done.stderr, done.stderr
        print(f"{ME}: exit statuses and lines are as they are said", flush=True)


def main():
    words = argparse.ArgumentParser()
    words.add_argument("--program", default=os.path.join(TOP, "crates/jmapd/out/jmapd"))
    words.add_argument("--files", action="append", default=[])
    words.add_argument("--without-server", action="store_true")
    words = words.parse_args()
    cases.all_hold(same)
    print(f"{ME}: examples of the standards are read and written as these say", flush=True)
    if not words.without_server:
        tests = (words_and_statuses, what_an_address_leads_to, what_is_changed_elsewhere, what_the_server_does_not_take, what_clashes_in_a_room)
        for test in (*tests, rules_of_the_standard, files_of_others, many_events):
            test(os.path.abspath(words.program), words.files)


if __name__ == "__main__":
    main()
