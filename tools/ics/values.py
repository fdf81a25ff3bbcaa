"""Values of iCalendar (RFC 5545 section 3.3) and of JSCalendar (RFC 8984 section 1.4): texts, durations, dates and times."""

import re
from datetime import datetime, timezone

UTC = "Etc/UTC"
DAY = 86400
SIGNED = re.compile(r"([+-]?)P(?:(\d+)W)?(?:(\d+)D)?(?:T(?:(\d+)H)?(?:(\d+)M)?(?:(\d+)S)?)?")
MOMENT = re.compile(r"(\d{4})(\d\d)(\d\d)(?:T(\d\d)(\d\d)(\d\d)(Z?))?")
ESCAPES = {"\\": "\\\\", ";": "\\;", ",": "\\,", "\n": "\\n"}


def text_of(value):
    """A text without its escapes (RFC 5545 section 3.3.11)."""
    return re.sub(r"\\([\\;,nN])", lambda it: "\n" if it[1] in "nN" else it[1], value)


def escaped(text):
    return re.sub(r"[\\;,\n]", lambda it: ESCAPES[it[0]], text.replace("\r\n", "\n"))


def texts_of(value):
    """The texts of a list, whose commas aren't escaped."""
    return [text_of(it) for it in re.findall(r"(?:[^,\\]|\\.)+", value)]


def length_of(text):
    """The sign, the days and the seconds of a duration (RFC 5545 section 3.3.6), or None."""
    found = SIGNED.fullmatch(text.strip())
    if not found or not any(found.groups()[1:]):
        return None
    weeks, days, hours, minutes, seconds = (int(it or 0) for it in found.groups()[1:])
    return (-1 if found[1] == "-" else 1), 7 * weeks + days, 3600 * hours + 60 * minutes + seconds


def duration_text(days, seconds):
    """A Duration (RFC 8984 section 1.4.6)."""
    parts = [(seconds // 3600, "H"), (seconds // 60 % 60, "M"), (seconds % 60, "S")]
    time = "".join(f"{count}{letter}" for count, letter in parts if count)
    whole = f"{days}D" if days else ""
    return f"P{whole}T{time}" if time else f"P{whole}" if whole else "PT0S"


def moment_of(text):
    """The date, or the date and time, of a value (RFC 5545 sections 3.3.4 and 3.3.5), and whether it is of UTC; raises ValueError where it is neither."""
    found = MOMENT.fullmatch(text.strip())
    if not found:
        raise ValueError(f"no date and no time: {text}")
    day = datetime(*(int(it) for it in found.group(1, 2, 3)))
    if found[4] is None:
        return day.date(), False
    hour, minute, second = (int(it) for it in found.group(4, 5, 6))
    # A leap second is the second before it.
    return day.replace(hour=hour, minute=minute, second=59 if second == 60 else second), bool(found[7])


def local_text(moment):
    """A LocalDateTime (RFC 8984 section 1.4.5); of a date its beginning."""
    if not isinstance(moment, datetime):
        moment = datetime(moment.year, moment.month, moment.day)
    return moment.replace(tzinfo=None).isoformat()


def local_time(text):
    return datetime.fromisoformat(text)


def utc_text(moment):
    return moment.astimezone(timezone.utc).strftime("%Y-%m-%dT%H:%M:%SZ")


def basic(text):
    """A date and time of JSCalendar as iCalendar writes it."""
    return text.replace("-", "").replace(":", "")
