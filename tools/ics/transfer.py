"""Import into a calendar, and export of one."""

import json
from dataclasses import dataclass, field
from datetime import datetime, timedelta

from components import PLACED, components_of
from events import KEPT, NoEvent, event_of, series_of, uid_of
from lines import Component, parse
from rules import first_ones, with_until
from server import Refused
from values import UTC, escaped, local_text, local_time, text_of
from zones import Zones, is_zone, vtimezone

# Of which lines a property comes, where the server refuses it.
LINES_OF = {
    "recurrenceRules": ("RRULE",), "recurrenceOverrides": ("RDATE", "EXDATE"), "duration": ("DTEND", "DURATION"), "participants": ("ORGANIZER", "ATTENDEE"),
    "title": ("SUMMARY",), "description": ("DESCRIPTION",), "status": ("STATUS",), "freeBusyStatus": ("TRANSP",),
}
MAX_OVERRIDES, MAX_COUNT = 128, 1000
# Each try of an event puts aside what the server refused in the one before.
TRIES = 4
# Properties that the server writes, or that aren't the file's.
OF_SERVER = {"id", "created", "updated", "calendarIds"}
SIZE_OF_SET = 4_000_000


@dataclass
class Item:
    """An event of a file: what it comes to, whence, and the id of the stored event that it is, if any."""

    event: dict
    component: Component
    id: str = None
    stored: dict = field(default_factory=dict)


def key_of(event):
    """By what an event is found again: its uid, and for an occurrence alone that too."""
    lines = event.get(KEPT, {}).get("properties", [])
    return event["uid"], next((value for name, _, _, value in lines if name == "recurrence-id"), None)


def words_of(error):
    """A SetError in words (`clash` is the server's own)."""
    if error["type"] != "clash":
        return json.dumps(error)
    second = datetime(1970, 1, 1) + timedelta(days=error["day"], seconds=error["second"])
    other = f"the event {error['with']}" if error["with"] else "itself"
    return f"in {error['calendarId']} it would clash with {other} on {second:%Y-%m-%d at %H:%M:%S}"


class Import:
    """Brings the events of a text into a calendar. `tell` is called with each thing that isn't held, and `tick` with how far it is."""

    def __init__(self, server, calendar, tell, tick):
        self.server, self.calendar, self.tell, self.tick = server, calendar, tell, tick
        # What a calendar may say of itself that needs no telling.
        self.held = {("CALSCALE", "GREGORIAN")}
        self.counts = dict.fromkeys(("made", "changed", "unchanged", "not taken"), 0)

    def run(self, text):
        names = [it["name"] for it in self.server.calendars() if it["id"] == self.calendar]
        self.held |= {(key, name) for key in ("NAME", "X-WR-CALNAME") for name in names}
        items = self.read(text)
        there = {key_of(it): it for it in self.server.events(self.calendar, lambda *_: None)}
        waiting = []
        for item in items:
            stored = there.get(key_of(item.event))
            if stored:
                item.id, item.stored = stored["id"], stored
            waiting.append(item)
        self.total, self.done = len(waiting), 0
        for _ in range(TRIES):
            waiting = self.send(waiting)
        for item in waiting:
            self.refuse(item, "the server refuses it each time")

    def read(self, text):
        """The items of a text. Its calendars are read as one, since an event may come in more than one of them."""
        parts = parse(text, self.tell)
        whole = Component("VCALENDAR")
        for it in parts:
            if it.name == "VCALENDAR":
                whole.lines += it.lines
                whole.parts += it.parts
            else:
                self.tell(f"{it.name} is no calendar, and isn't taken")
        return list(self.events_of(whole))

    def events_of(self, calendar):
        zones = Zones([it for it in calendar.parts if it.name == "VTIMEZONE"], self.server.known_zones)
        events = [it for it in calendar.parts if it.name == "VEVENT"]
        series = list(series_of(events))
        self.tell_of_rest(calendar, events, {id(it) for _, master, instances in series for it in (master, *instances)})
        for uid, component, instances in series:
            tell = lambda what, uid=uid: self.tell(f"{uid}: {what}")
            try:
                event = event_of(uid, component, instances, zones, tell)
            except NoEvent as error:
                self.counts["not taken"] += 1
                tell(f"not taken: {error}")
                continue
            yield self.fitted(Item(event | {"calendarIds": {self.calendar: True}}, component), tell)

    def tell_of_rest(self, calendar, events, taken):
        """Tells what of a calendar is no event, or an event that isn't among those taken."""
        for line in calendar.lines:
            if line.name not in ("VERSION", "PRODID") and (line.name, text_of(line.value)) not in self.held:
                self.tell(f"the calendar's {line.name}:{line.value[:60]} isn't held")
        for it in calendar.parts:
            if it.name not in ("VEVENT", "VTIMEZONE"):
                self.tell(f"{it.name} {it.value('UID') or ''} isn't an event, and isn't taken")
        for it in events:
            if id(it) not in taken:
                self.tell(f"{uid_of(it)}: comes more than once, and the latest is taken: not that of SEQUENCE {it.value('SEQUENCE') or 0} and DTSTAMP {it.value('DTSTAMP')}")

    def fitted(self, item, tell):
        """The item within the server's limits that one can meet without loss, or by what is told."""
        event = item.event
        start = local_time(event["start"])
        rules = [with_until(it, start) or it if it.get("count", 0) > MAX_COUNT else it for it in event.get("recurrenceRules", [])]
        if rules:
            event["recurrenceRules"] = rules
        overrides = sorted(event.get("recurrenceOverrides", {}).items())
        if len(overrides) > MAX_OVERRIDES:
            event["recurrenceOverrides"] = dict(overrides[-MAX_OVERRIDES:])
            self.drop(overrides[:-MAX_OVERRIDES], tell)
        return item

    def drop(self, overrides, tell):
        for name, patch in overrides:
            tell(f"the occurrence {name} stays as the others are, without {json.dumps(patch)[:80]}")

    def send(self, items):
        """Sends what has to be sent; gives those items that are worth another try."""
        again, chunk, size = [], [], 0
        for item in items:
            text = len(json.dumps(item.event))
            if chunk and (len(chunk) == self.server.most or size + text > SIZE_OF_SET):
                again += self.send_chunk(chunk)
                chunk, size = [], 0
            chunk.append(item)
            size += text
        return again + (self.send_chunk(chunk) if chunk else [])

    def send_chunk(self, items):
        create, update, sent = {}, {}, {}
        for place, item in enumerate(items):
            patch = self.patch(item) if item.id else item.event
            if not patch:
                self.count("unchanged")
                continue
            (update if item.id else create)[item.id or f"k{place}"] = patch
            sent[item.id or f"k{place}"] = item
        if not sent:
            return []
        refused = self.server.set(create, update)
        again = []
        for key, item in sent.items():
            if key not in refused:
                self.count("changed" if item.id else "made")
            elif self.put_aside(item, refused[key]):
                again.append(item)
            else:
                self.refuse(item, words_of(refused[key]))
        return again

    def patch(self, item):
        """What of a stored event is otherwise in the file. Properties that no file can tell are left as they are."""
        keys = (item.event.keys() | item.stored.keys() & PLACED) - OF_SERVER
        return {key: item.event.get(key) for key in sorted(keys) if item.event.get(key) != item.stored.get(key)}

    def count(self, what):
        self.counts[what] += 1
        self.done += 1
        self.tick(self.total, self.done)

    def refuse(self, item, why):
        self.tell(f"{item.event['uid']}: not taken: {why}")
        self.count("not taken")

    def put_aside(self, item, error):
        """Takes out what the server refuses, and keeps it as lines; says whether that left anything to try."""
        bad = [it for it in error.get("properties", []) if it in LINES_OF and it in item.event]
        for name in bad:
            value = item.event.pop(name)
            lines = [it for it in item.component.lines if it.name in LINES_OF[name]]
            kept = item.event.setdefault(KEPT, {"@type": "ICalComponent", "name": "vevent"})
            kept.setdefault("properties", []).extend(it.kept() for it in lines)
            told = "; ".join(f"{it.name}:{it.value}" for it in lines)[:120]
            if name == "recurrenceOverrides":
                self.drop([it for it in value.items() if it[1] and "excluded" not in it[1]], lambda what, uid=item.event["uid"]: self.tell(f"{uid}: {what}"))
            self.tell(f"{item.event['uid']}: the server takes no such {name}, which is kept as it is: {told}{self.written_out(item, name, value)}")
        return bool(bad)

    def written_out(self, item, name, value):
        """Writes the occurrences of rules out that the server doesn't take, where they are few; what is said of it."""
        if name != "recurrenceRules":
            return ""
        overrides = item.event.get("recurrenceOverrides", {})
        times, is_all = first_ones(item.event | {"recurrenceRules": value}, MAX_OVERRIDES - len(overrides))
        if not is_all:
            return "; of it only the first time is there"
        names = [local_text(it) for it in times]
        item.event["recurrenceOverrides"] = {it: {} for it in names if it != item.event["start"]} | overrides
        return f"; its {len(times)} times are written out"


def export(server, calendar, tell, tick):
    """The text of a calendar's events."""
    [found] = [it for it in server.calendars() if it["id"] == calendar] or [None]
    if found is None:
        raise Refused(f"there is no calendar {calendar}")
    whole = Component("VCALENDAR")
    whole.add("VERSION", "2.0")
    whole.add("PRODID", "-//jmapd//tools/ics//EN")
    whole.add("X-WR-CALNAME", escaped(found["name"]))
    events = server.events(calendar, tick)
    names = sorted({it["timeZone"] for it in events if it.get("timeZone", UTC) != UTC})
    for name in names:
        component = vtimezone(name) if is_zone(name) else None
        if component:
            whole.parts.append(component)
        else:
            tell(f"no rule of the zone {name} is known here: there is no VTIMEZONE of it")
    for event in events:
        whole.parts += components_of(event, lambda what, uid=event["uid"]: tell(f"{uid}: {what}"))
    return whole.written() + b"\r\n"
