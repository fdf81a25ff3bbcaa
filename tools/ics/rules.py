"""Recurrence rules: RRULE of iCalendar (RFC 5545 section 3.3.10, RFC 7529) and recurrenceRules of JSCalendar (RFC 8984 section 4.3.3)."""

import re
from datetime import datetime
from itertools import islice

from dateutil.rrule import rrulestr

from values import basic, local_text, local_time, moment_of

# Parts of a rule that are lists of numbers, and their names in both; months are texts.
LISTS = {
    "BYMONTHDAY": "byMonthDay", "BYYEARDAY": "byYearDay", "BYWEEKNO": "byWeekNo", "BYSETPOS": "bySetPosition",
    "BYHOUR": "byHour", "BYMINUTE": "byMinute", "BYSECOND": "bySecond",
}
KNOWN = {"FREQ", "INTERVAL", "COUNT", "UNTIL", "WKST", "BYDAY", "BYMONTH", "RSCALE", "SKIP", *LISTS}
WEEKDAY = re.compile(r"([+-]?\d+)?([A-Z]{2})")


def parts_of(value):
    parts = dict(part.split("=", 1) for part in value.upper().split(";") if "=" in part)
    if "FREQ" not in parts or not parts.keys() <= KNOWN:
        raise ValueError("a part that isn't known")
    return parts


def n_day(text):
    found = WEEKDAY.fullmatch(text.strip())
    if not found:
        raise ValueError("no day of the week")
    place = {"nthOfPeriod": int(found[1])} if found[1] else {}
    return {"@type": "NDay", "day": found[2].lower()} | place


def until_of(text, event, to_local):
    """The last local time: of a date alone the end of that day, or for whole days the day itself."""
    moment, is_utc = moment_of(text)
    if event.get("showWithoutTime"):
        return local_text(moment)[:11] + "00:00:00"
    if not isinstance(moment, datetime):
        return local_text(moment)[:11] + "23:59:59"
    return local_text(to_local(moment) if is_utc else moment)


def rule_of(value, event, to_local):
    """The RecurrenceRule of an RRULE of an event, whose clock a time of UTC is put on by `to_local`; raises ValueError where it has no sense."""
    parts = parts_of(value)
    rule = {"@type": "RecurrenceRule", "frequency": parts["FREQ"].lower()}
    if parts.get("RSCALE", "GREGORIAN") != "GREGORIAN":
        rule["rscale"] = parts["RSCALE"].lower()
    if parts.get("SKIP", "OMIT") != "OMIT":
        rule["skip"] = parts["SKIP"].lower()
    if int(parts.get("INTERVAL", 1)) != 1:
        rule["interval"] = int(parts["INTERVAL"])
    if parts.get("WKST", "MO") != "MO":
        rule["firstDayOfWeek"] = parts["WKST"].lower()
    if "BYDAY" in parts:
        rule["byDay"] = [n_day(it) for it in parts["BYDAY"].split(",")]
    if "BYMONTH" in parts:
        rule["byMonth"] = parts["BYMONTH"].split(",")
    for name, key in LISTS.items():
        if name in parts:
            rule[key] = [int(it) for it in parts[name].split(",")]
    if "COUNT" in parts:
        rule["count"] = int(parts["COUNT"])
    elif "UNTIL" in parts:
        rule["until"] = until_of(parts["UNTIL"], event, to_local)
    return without_times_of_start(rule, local_time(event["start"]))


def without_times_of_start(rule, start):
    """A rule of days and longer without the hour, the minute and the second where they are those of the start, which it has anyhow."""
    if rule["frequency"] in ("daily", "weekly", "monthly", "yearly"):
        for key, own in (("byHour", start.hour), ("byMinute", start.minute), ("bySecond", start.second)):
            if rule.get(key) == [own]:
                del rule[key]
    return rule


def rule_text(rule, event, to_utc):
    """The RRULE of a RecurrenceRule; `to_utc` puts a local time of the event on the clock of UTC, or is None where the event has no zone."""
    parts = []
    if "skip" in rule or "rscale" in rule:
        parts.append(f"RSCALE={rule.get('rscale', 'gregorian').upper()}")
    parts.append(f"FREQ={rule['frequency'].upper()}")
    if "skip" in rule:
        parts.append(f"SKIP={rule['skip'].upper()}")
    if "interval" in rule:
        parts.append(f"INTERVAL={rule['interval']}")
    if "count" in rule:
        parts.append(f"COUNT={rule['count']}")
    if "until" in rule:
        parts.append(f"UNTIL={until_text(rule['until'], event, to_utc)}")
    if "firstDayOfWeek" in rule:
        parts.append(f"WKST={rule['firstDayOfWeek'].upper()}")
    if "byMonth" in rule:
        parts.append(f"BYMONTH={','.join(rule['byMonth'])}")
    if "byDay" in rule:
        parts.append("BYDAY=" + ",".join(f"{it.get('nthOfPeriod', '')}{it['day'].upper()}" for it in rule["byDay"]))
    parts += [f"{name}={','.join(map(str, rule[key]))}" for name, key in LISTS.items() if key in rule]
    return ";".join(parts)


def until_text(until, event, to_utc):
    if event.get("showWithoutTime"):
        return basic(until[:10])
    return f"{basic(local_text(to_utc(local_time(until))))}Z" if to_utc else basic(until)


def plain(rule):
    """The rule as `dateutil` reads it, on a clock without a zone, or None where it doesn't know such rules."""
    if "skip" in rule or "rscale" in rule:
        return None
    return rule_text(rule, {}, None)


def occurrences(start, rules):
    """The local times that the rules of an event give from its start on, in order, or None where `dateutil` doesn't know such rules."""
    texts = [plain(it) for it in rules]
    if None in texts:
        return None
    try:
        found = rrulestr("\n".join(f"RRULE:{it}" for it in texts), dtstart=start, forceset=True)
    except ValueError:
        return None
    return iter(found)


def gives(event, local):
    """Whether the rules of an event give a local time."""
    start, wanted = local_time(event["start"]), local_time(local)
    for found in occurrences(start, event.get("recurrenceRules", [])) or ():
        if found >= wanted:
            return found == wanted
    return start == wanted


def first_ones(event, number):
    """The first occurrences that the rules of an event give, and whether these are all."""
    found = occurrences(local_time(event["start"]), event["recurrenceRules"])
    if found is None:
        return [], False
    told = list(islice(found, number + 1))
    return told[:number], len(told) <= number


def with_until(rule, start):
    """A rule with a last time in the place of a count, which the server takes up to 1,000."""
    last = None
    for last in occurrences(start, [rule]) or ():
        pass
    return {key: it for key, it in rule.items() if key != "count"} | {"until": local_text(last)} if last else None
