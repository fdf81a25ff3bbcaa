"""VEVENTs of iCalendar (RFC 5545 section 3.6.1) from events of JSCalendar (RFC 8984)."""

from datetime import timedelta, timezone

import people
from events import KEPT, MANY, NUMBERS, TEXTS, WORDS
from lines import Component, Line
from rules import gives, rule_text
from values import UTC, basic, escaped, length_of, local_text, local_time
from zones import is_zone, to_zone, zone

# Properties that have their place in iCalendar, or none outside of the server.
PLACED = {
    "@type", "id", "uid", "calendarIds", "created", "updated", "start", "timeZone", "duration", "showWithoutTime", "recurrenceRules", "recurrenceOverrides",
    "recurrenceId", "baseEventId", "locations", "keywords", "links", "relatedTo", "participants", "replyTo", "alerts", "excluded", KEPT,
    *TEXTS.values(), *NUMBERS.values(), *(key for key, _ in WORDS.values()),
}


def is_whole(event):
    """Whether it takes whole days, as a DATE of iCalendar."""
    days = length_of(event.get("duration", "PT0S"))
    return bool(event.get("showWithoutTime")) and "timeZone" not in event and event["start"].endswith("T00:00:00") and days[1] > 0 and days[2] == 0


def numbered(members):
    """The members of an object in the order of the numbers at the ends of their names."""
    return sorted(members.items(), key=lambda it: (len(it[0]), it[0]))


class Writer:
    """Writes the VEVENT of an event, or of an occurrence of it; `component` is what it comes to."""

    def __init__(self, event, tell, recurrence_id=None):
        self.event, self.component = event, Component("VEVENT")
        self.is_whole, self.zone = is_whole(event), event.get("timeZone")
        self.kept = event.get(KEPT, {})
        self.component.add("UID", escaped(event["uid"]))
        # The server writes both moments; an occurrence by itself has those of its series.
        for name in ("DTSTAMP", "LAST-MODIFIED"):
            self.component.add(name, basic(event["updated"]))
        if recurrence_id:
            self.time("RECURRENCE-ID", recurrence_id)
        self.times()
        self.words()
        self.others()
        for _, alert in numbered(event.get("alerts", {})):
            self.component.parts.append(self.alarm(alert))
        self.add_kept()
        for name in sorted(event.keys() - PLACED):
            tell(f"{name} has no place in iCalendar")
        if event.get("showWithoutTime") and not self.is_whole:
            tell("showWithoutTime has no place in iCalendar beside a time of the day")

    def time(self, name, text):
        """Adds a property whose value is a local time of the event."""
        if self.is_whole:
            self.component.add(name, basic(text[:10]), VALUE="DATE")
        elif self.zone == UTC:
            self.component.add(name, f"{basic(text)}Z")
        else:
            self.component.add(name, basic(text), **({"TZID": self.zone} if self.zone else {}))

    def times(self):
        self.time("DTSTART", self.event["start"])
        _, days, seconds = length_of(self.event.get("duration", "PT0S"))
        start = local_time(self.event["start"])
        if self.is_whole:
            self.time("DTEND", local_text(start + timedelta(days=days)))
        elif days or (self.zone and not is_zone(self.zone)):
            self.component.add("DURATION", self.event["duration"])
        elif seconds:
            end = start + timedelta(seconds=seconds)
            if self.zone:
                # Seconds go by on the clock of UTC.
                first = to_zone(start, zone(self.zone), timezone.utc)
                end = to_zone(first + timedelta(seconds=seconds), timezone.utc, zone(self.zone))
            self.time("DTEND", local_text(end))

    def words(self):
        for name, key in [*TEXTS.items(), *NUMBERS.items()]:
            if key in self.event:
                self.component.add(name, escaped(str(self.event[key])))
        for name, (key, words) in WORDS.items():
            word = next((word for word, it in words.items() if it == self.event.get(key)), None)
            if word:
                self.component.add(name, word)

    def others(self):
        event, add = self.event, self.component.add
        for place in event.get("locations", {}).values():
            if "name" in place:
                add("LOCATION", escaped(place["name"]))
            if place.get("coordinates", "").startswith("geo:"):
                add("GEO", place["coordinates"][4:].replace(",", ";"))
        if event.get("keywords"):
            add("CATEGORIES", ",".join(escaped(it) for it in event["keywords"]))
        for _, link in numbered(event.get("links", {})):
            if link.get("rel") == "enclosure":
                add("ATTACH", link["href"], **({"FMTTYPE": link["contentType"]} if "contentType" in link else {}))
            else:
                add("URL", link["href"])
        for uid, relation in event.get("relatedTo", {}).items():
            add("RELATED-TO", escaped(uid), RELTYPE=next(iter(relation.get("relation", {})), "parent").upper())
        lines = [line for it in event.get("participants", {}).values() for line in people.lines_of(it)]
        self.component.lines += sorted(lines, key=lambda it: it.name, reverse=True)

    def alarm(self, alert):
        part, trigger, kept = Component("VALARM"), alert.get("trigger", {}), alert.get(KEPT, {}).get("properties", [])
        names = {name for name, *_ in kept}
        if "action" not in names:
            part.add("ACTION", alert.get("action", "display").upper())
        if "when" in trigger:
            part.add("TRIGGER", basic(trigger["when"]), VALUE="DATE-TIME")
        else:
            part.add("TRIGGER", trigger.get("offset", "PT0S"), **({"RELATED": "END"} if trigger.get("relativeTo") == "end" else {}))
        if "acknowledged" in alert:
            part.add("ACKNOWLEDGED", basic(alert["acknowledged"]))
        if alert.get("action") != "email" and not names & {"action", "description"}:
            part.add("DESCRIPTION", escaped(self.event.get("title", "")))
        part.lines += [Line.of_kept(it) for it in kept]
        return part

    def add_kept(self):
        """Adds what was kept as it is: lines and components, and parameters to the lines that they were of."""
        for name, params, value in self.kept.get("parameters", []):
            for line in self.component.lines:
                if line.name == name.upper() and (line.value == value or line.name not in MANY):
                    line.params = {key.upper(): it for key, it in params.items()} | line.params
                    break
        there = {line.name for line in self.component.lines}
        for item in self.kept.get("properties", []):
            line = Line.of_kept(item)
            # A word that was none is out of date where the event has one by now.
            if line.name not in WORDS or line.name not in there:
                self.component.lines.append(line)
        self.component.parts += [Component.of_kept(it) for it in self.kept.get("components", [])]


def add_rules(writer, event):
    clock = event.get("timeZone")
    to_utc = (lambda it: to_zone(it, zone(clock), timezone.utc)) if clock and is_zone(clock) else None
    for rule in event.get("recurrenceRules", []):
        writer.component.add("RRULE", rule_text(rule, event, to_utc))


def occurrence_of(event, recurrence_id, patch):
    """An occurrence that an override makes, as an event of its own."""
    usual = {key: it for key, it in event.items() if key not in ("recurrenceRules", "recurrenceOverrides")} | {"start": recurrence_id}
    for pointer, value in patch.items():
        *path, last = [it.replace("~1", "/").replace("~0", "~") for it in pointer.split("/")]
        place = usual
        for key in path:
            place[key] = dict(place.get(key, {}))
            place = place[key]
        if value is None:
            place.pop(last, None)
        else:
            place[last] = value
    return usual


def components_of(event, tell):
    """The VEVENT of an event, and those of its occurrences that are otherwise."""
    writer = Writer(event, tell)
    add_rules(writer, event)
    found = [writer.component]
    for recurrence_id, patch in event.get("recurrenceOverrides", {}).items():
        if patch.get("excluded"):
            writer.time("EXDATE", recurrence_id)
            continue
        if not patch or not gives(event, recurrence_id):
            writer.time("RDATE", recurrence_id)
        if patch:
            found.append(Writer(occurrence_of(event, recurrence_id, patch), tell, recurrence_id).component)
    return found
