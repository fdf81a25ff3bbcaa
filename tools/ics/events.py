"""Events of JSCalendar (RFC 8984) from the VEVENTs of iCalendar (RFC 5545 section 3.6.1).

What JSCalendar has no place for is kept in `iCalComponent`, a property of this program's own: whole lines in `properties`, parameters of lines that were
taken in `parameters`, and components in `components`, all as jCal has them (RFC 7265)."""

import re
import uuid
from datetime import datetime, timezone

import people
from rules import rule_of
from values import UTC, basic, duration_text, escaped, length_of, local_text, local_time, moment_of, text_of, texts_of, utc_text
from zones import to_zone, zone

KEPT = "iCalComponent"
TEXTS = {"SUMMARY": "title", "DESCRIPTION": "description", "COLOR": "color"}
WORDS = {
    "STATUS": ("status", {it.upper(): it for it in ("confirmed", "tentative", "cancelled")}),
    "TRANSP": ("freeBusyStatus", {"OPAQUE": "busy", "TRANSPARENT": "free"}),
    "CLASS": ("privacy", {"PUBLIC": "public", "PRIVATE": "private", "CONFIDENTIAL": "secret"}),
}
NUMBERS = {"PRIORITY": "priority", "SEQUENCE": "sequence"}
# What takes a line of another kind, by its name.
READERS = {
    "CATEGORIES": "keywords", "LOCATION": "location", "GEO": "coordinates", "URL": "link",
    "ATTACH": "attachment", "RELATED-TO": "relation", "ORGANIZER": "person", "ATTENDEE": "person",
}
# What is taken as a whole, elsewhere than line by line; the server has its own times of the last change.
STRUCTURE = {"UID", "DTSTART", "DTEND", "DURATION", "RRULE", "RDATE", "EXDATE", "RECURRENCE-ID"}
ONCE = {"UID", "DTSTART", "DTEND", "DURATION", "RECURRENCE-ID"}
OWN_OF_SERVER = {"DTSTAMP", "LAST-MODIFIED"}
# Of these there may be many, so a line is told by its value too.
MANY = {"ATTENDEE", "ATTACH", "RELATED-TO"}
NOT_IN_OVERRIDES = {"@type", "uid", "timeZone", "recurrenceRules", "recurrenceOverrides"}
COORDINATES = re.compile(r"\s*([-+]?\d+(?:\.\d+)?)\s*;\s*([-+]?\d+(?:\.\d+)?)\s*")


class NoEvent(Exception):
    """The component can't be an event: why."""


class Clock:
    """The clock of an event, on which its times are put: of a zone by name, or of none."""

    def __init__(self, name, zones, year):
        self.name, self.zones, self.year = name, zones, year

    def local(self, text, tzid=None):
        """The date, or the local time, of a value with a TZID or without."""
        moment, is_utc = moment_of(text)
        if not isinstance(moment, datetime) or self.name is None or not (is_utc or tzid):
            return moment
        if not is_utc and self.zones.named(tzid, self.year) == self.name:
            return moment
        clock = timezone.utc if is_utc else self.zones.clock(tzid)
        return to_zone(moment, clock, zone(self.name)) if clock else moment

    def seconds(self, start, end):
        """The seconds that go by from one local time to another."""
        if self.name is None:
            return round((end - start).total_seconds())
        first, last = (to_zone(it, zone(self.name), timezone.utc) for it in (start, end))
        return round((last - first).total_seconds())


class Reader:
    """Reads one VEVENT: `event` is what it comes to, and `tell` is called with what isn't held."""

    def __init__(self, component, zones, tell, clock=None):
        self.component, self.zones, self.tell = component, zones, tell
        self.event = {"@type": "Event"}
        self.kept = {"properties": [], "parameters": [], "components": []}
        self.start(clock)
        self.length()
        for line in component.lines:
            self.take(line)
        for part in component.parts:
            self.take_part(part)
        # Participants have no order, so neither have the parameters of their lines.
        self.kept["parameters"].sort(key=str)
        held = {key: it for key, it in self.kept.items() if it}
        if held:
            self.event[KEPT] = {"@type": "ICalComponent", "name": "vevent"} | held

    def start(self, clock):
        line = self.component.first("DTSTART")
        if line is None:
            raise NoEvent("it has no DTSTART")
        try:
            moment, is_utc = moment_of(line.value)
        except ValueError as error:
            raise NoEvent(f"its DTSTART has {error}") from error
        self.is_whole = not isinstance(moment, datetime)
        tzid = line.params.get("TZID")
        self.clock = clock or Clock(None if self.is_whole else UTC if is_utc else self.zone_of(tzid, moment), self.zones, moment.year)
        self.event["start"] = local_text(self.clock.local(line.value, tzid))
        if self.is_whole:
            self.event["showWithoutTime"] = True
        if self.clock.name:
            self.event["timeZone"] = self.clock.name

    def zone_of(self, tzid, moment):
        """The server's zone of the start: where there is none that of UTC, or none at all where nothing tells its offsets."""
        if tzid is None:
            return None
        name = self.zones.named(tzid, moment.year)
        if name:
            return name
        clock = self.zones.clock(tzid)
        self.tell(f"no zone of the server is {tzid}: {'put on the clock of UTC' if clock else 'left without a zone'}")
        return UTC if clock else None

    def length(self):
        duration = self.duration()
        if duration:
            self.event["duration"] = duration

    def duration(self):
        """The Duration: from a DTEND the time that goes by, from a DURATION what it says; of a date alone one day (RFC 5545 section 3.6.1)."""
        end, length = self.component.first("DTEND"), self.component.first("DURATION")
        if end and length:
            self.tell(f"it has a DTEND, so its DURATION:{length.value} isn't held")
        start = local_time(self.event["start"])
        try:
            if end:
                last = local_time(local_text(self.clock.local(end.value, end.params.get("TZID"))))
                if self.is_whole:
                    return duration_text(max(1, (last - start).days), 0)
                passed = self.clock.seconds(start, last)
                if passed >= 0:
                    return duration_text(0, passed) if passed else None
            elif length and (found := length_of(length.value)) and found[0] > 0:
                return duration_text(found[1], found[2])
            elif not length:
                return "P1D" if self.is_whole else None
        except ValueError:
            pass
        self.keep(end or length)
        return "P1D" if self.is_whole else None

    def keep(self, line):
        self.kept["properties"].append(line.kept())

    def take(self, line):
        """Takes a line by itself: into a property, or as it is."""
        if line.name in OWN_OF_SERVER:
            return
        if line.name in ONCE and line is not self.component.first(line.name):
            self.tell(f"a second {line.name}:{line.value} isn't held")
            return
        if line.name == "EXRULE":
            self.tell(f"EXRULE:{line.value} is kept, but the times that it gives aren't left out")
        held = {"TZID", "RANGE"} if line.name in STRUCTURE else self.held(line)
        if held is None:
            self.keep(line)
            return
        rest = {name.lower(): value for name, value in line.params.items() if name not in held and name != "VALUE"}
        if rest and line.name in STRUCTURE - ONCE:
            self.tell(f"the parameters of {line.name}:{line.value} aren't held: {', '.join(rest)}")
        elif rest:
            self.kept["parameters"].append([line.name.lower(), rest, line.value if line.name in MANY else ""])

    def held(self, line):
        """Puts a line into a property; gives the parameters that it holds, and None where it has no place."""
        if line.name in TEXTS:
            return self.put(TEXTS[line.name], text_of(line.value))
        if line.name in WORDS:
            key, words = WORDS[line.name]
            return self.put(key, words.get(line.value.upper()))
        if line.name in NUMBERS:
            return self.put(NUMBERS[line.name], int(line.value) if re.fullmatch(r"\s*\d{1,9}\s*", line.value) else None)
        reader = READERS.get(line.name)
        return getattr(self, reader)(line) if reader else None

    def put(self, key, value):
        if value is None or key in self.event:
            return None
        self.event[key] = value
        return set()

    def keywords(self, line):
        if line.params:
            return None
        self.event.setdefault("keywords", {}).update({it: True for it in texts_of(line.value) if it})
        return set()

    def place(self, key, value):
        there = self.event.setdefault("locations", {}).setdefault("1", {"@type": "Location"})
        if key in there:
            return None
        there[key] = value
        return set()

    def location(self, line):
        return self.place("name", text_of(line.value))

    def coordinates(self, line):
        found = COORDINATES.fullmatch(line.value)
        return self.place("coordinates", f"geo:{found[1]},{found[2]}") if found else None

    def links(self, key, link):
        links = self.event.setdefault("links", {})
        if key in links:
            return None
        links[key] = {"@type": "Link"} | link
        return set()

    def link(self, line):
        return self.links("url", {"href": line.value})

    def attachment(self, line):
        if line.params.get("VALUE", "URI") != "URI" or "ENCODING" in line.params:
            return None
        number = sum(it.startswith("attach") for it in self.event.get("links", {})) + 1
        kind = {"contentType": line.params["FMTTYPE"]} if "FMTTYPE" in line.params else {}
        self.links(f"attach{number}", {"href": line.value, "rel": "enclosure"} | kind)
        return {"FMTTYPE"}

    def relation(self, line):
        uid = text_of(line.value)
        related = self.event.setdefault("relatedTo", {})
        if uid in related:
            return None
        related[uid] = {"@type": "Relation", "relation": {line.params.get("RELTYPE", "PARENT").lower(): True}}
        return {"RELTYPE"}

    def person(self, line):
        is_organizer = line.name == "ORGANIZER"
        told, held = (people.organizer if is_organizer else people.attendee)(line)
        everyone, key = self.event.setdefault("participants", {}), people.id_of(line.value)
        roles = everyone.get(key, {}).get("roles", {})
        if any("owner" in it["roles"] for it in everyone.values()) if is_organizer else roles.keys() - {"owner"}:
            return None
        if is_organizer and "sendTo" in told:
            self.event["replyTo"] = dict(told["sendTo"])
        everyone[key] = told | everyone.get(key, {}) | {"roles": told["roles"] | roles}
        return held

    def take_part(self, part):
        alert = self.alert(part) if part.name == "VALARM" else None
        if alert is None:
            self.kept["components"].append(part.kept())
            return
        alerts = self.event.setdefault("alerts", {})
        alerts[str(len(alerts) + 1)] = alert

    def alert(self, part):
        """The Alert of a VALARM (RFC 5545 section 3.6.6, RFC 9074, RFC 8984 section 4.5.2); None where it has no trigger that is understood."""
        trigger = self.trigger(part.first("TRIGGER"))
        if trigger is None:
            return None
        action = (part.value("ACTION") or "").upper()
        alert = {"@type": "Alert", "trigger": trigger, "action": "email" if action == "EMAIL" else "display"}
        kept = [it.kept() for it in part.lines if it.name not in ("TRIGGER", "ACTION", "ACKNOWLEDGED", "DESCRIPTION")]
        if action not in ("EMAIL", "DISPLAY"):
            kept += [it.kept() for it in part.all("ACTION")]
        title = self.component.value("SUMMARY")
        kept += [it.kept() for it in part.all("DESCRIPTION") if action != "DISPLAY" or it.params or it.value != title]
        for line in part.all("ACKNOWLEDGED"):
            moment, is_utc = moment_of(line.value)
            alert["acknowledged"] = utc_text(moment.replace(tzinfo=timezone.utc))
        return alert | ({KEPT: {"@type": "ICalComponent", "name": "valarm", "properties": kept}} if kept else {})

    def trigger(self, line):
        if line is None:
            return None
        if found := length_of(line.value):
            sign, days, seconds = found
            offset = ("-" if sign < 0 else "") + duration_text(days, seconds)
            end = {"relativeTo": "end"} if line.params.get("RELATED", "").upper() == "END" else {}
            return {"@type": "OffsetTrigger", "offset": offset} | end
        try:
            moment, is_utc = moment_of(line.value)
        except ValueError:
            return None
        if not is_utc or not isinstance(moment, datetime):
            return None
        return {"@type": "AbsoluteTrigger", "when": utc_text(moment.replace(tzinfo=timezone.utc))}


class SeriesReader(Reader):
    """Reads the VEVENT of a series with those of its occurrences that are otherwise."""

    def __init__(self, component, instances, zones, tell):
        super().__init__(component, zones, tell)
        self.rules()
        self.overrides = {}
        self.dates()
        for instance in instances:
            self.instance(instance)
        if self.overrides:
            self.event["recurrenceOverrides"] = self.overrides

    def rules(self):
        found = []
        for line in self.component.all("RRULE"):
            try:
                found.append(rule_of(line.value, self.event, lambda it: self.clock.local(basic(local_text(it)) + "Z")))
            except (ValueError, KeyError) as error:
                self.tell(f"RRULE:{line.value} isn't understood ({error}), so it doesn't recur by it")
                self.aside(line)
        if found:
            self.event["recurrenceRules"] = found

    def aside(self, line):
        """Keeps a line whole, behind those that are kept."""
        kept = self.event.setdefault(KEPT, {"@type": "ICalComponent", "name": "vevent"})
        kept.setdefault("properties", []).append(line.kept())

    def recurrence_id(self, text, tzid):
        """The local time by which an occurrence is named: of a date alone that day at the time of the start."""
        moment = self.clock.local(text, tzid)
        if self.is_whole:
            return local_text(moment)[:11] + "00:00:00"
        return local_text(moment) if isinstance(moment, datetime) else local_text(moment)[:11] + self.event["start"][11:]

    def dates(self):
        for line in [it for it in self.component.lines if it.name in ("RDATE", "EXDATE")]:
            try:
                for text in line.value.split(","):
                    self.date(line, text.strip())
            except ValueError as error:
                self.tell(f"{line.name}:{line.value} isn't understood ({error})")
                self.aside(line)

    def date(self, line, text):
        first, _, last = text.partition("/")
        tzid = line.params.get("TZID")
        name = self.recurrence_id(first, tzid)
        if line.name == "EXDATE":
            self.overrides[name] = {"excluded": True}
        elif last and (length := length_of(last)):
            self.overrides.setdefault(name, {"duration": duration_text(length[1], length[2])})
        elif last:
            passed = self.clock.seconds(local_time(name), self.clock.local(last, tzid))
            self.overrides.setdefault(name, {"duration": duration_text(0, passed)})
        elif name != self.event["start"]:
            self.overrides.setdefault(name, {})

    def instance(self, component):
        line = component.first("RECURRENCE-ID")
        try:
            name = self.recurrence_id(line.value, line.params.get("TZID"))
            event = Reader(component, self.zones, self.tell, self.clock).event
        except (ValueError, NoEvent) as error:
            self.tell(f"the occurrence {line.value} isn't understood: {error}")
            return
        if "RANGE" in line.params:
            self.tell(f"RECURRENCE-ID;RANGE={line.params['RANGE']}:{line.value} changes that occurrence alone")
        usual = self.event | {"start": name}
        keys = sorted((event.keys() | usual.keys()) - NOT_IN_OVERRIDES)
        self.overrides[name] = {key: event.get(key) for key in keys if event.get(key) != usual.get(key)}


def uid_of(component):
    """The uid, or where it has none one by what it says, which is the same at each import."""
    text = component.value("UID")
    return text_of(text).strip() if text and text.strip() else str(uuid.uuid5(uuid.NAMESPACE_OID, component.written().decode()))


def version_of(component):
    """By what the later of two components with one uid is told (RFC 5546 section 2.1.5)."""
    number = (component.value("SEQUENCE") or "").strip()
    return int(number) if number.isdigit() else 0, component.value("DTSTAMP") or ""


def series_of(components):
    """The VEVENTs by their uids: each master with its occurrences that are otherwise. Where there is no master each stands alone."""
    groups = {}
    for it in sorted(components, key=version_of):
        groups.setdefault(uid_of(it), {})[it.value("RECURRENCE-ID")] = it
    for uid in dict.fromkeys(uid_of(it) for it in components):
        group = groups[uid]
        master = group.pop(None, None)
        if master:
            yield uid, master, list(group.values())
        else:
            yield from ((uid, it, []) for it in group.values())


def event_of(uid, component, instances, zones, tell):
    """The event of a VEVENT and of its occurrences that are otherwise; raises NoEvent."""
    reader = SeriesReader(component, instances, zones, tell)
    alone = component.first("RECURRENCE-ID")
    if alone:
        reader.aside(alone)
        tell("it is an occurrence without its series, and stands alone")
    return {"uid": uid} | reader.event
