"""Events as RFC 5545 and RFC 8984 write them, and what each is in the other format. Where a comment names a section the lines, or the object, are those of its example."""

from components import components_of
from events import KEPT, event_of, series_of
from lines import parse, split
from values import escaped, length_of, text_of, texts_of
from zones import Zones, clock_of, shows_same, vtimezone, zone

KNOWN = {"America/New_York", "Europe/Zurich", "Europe/London", "Etc/UTC"}


def known(names):
    return [it for it in names if it in KNOWN]


def calendar(*parts):
    return "\r\n".join(["BEGIN:VCALENDAR", "VERSION:2.0", "PRODID:-//x//y//EN", *parts, "END:VCALENDAR", ""])


def event(uid, *lines, start="20260302T090000"):
    return "\r\n".join(["BEGIN:VEVENT", f"UID:{uid}", "DTSTAMP:20260101T000000Z", f"DTSTART:{start}", *lines, "END:VEVENT"])


def alarm(*lines):
    return "\r\n".join(["BEGIN:VALARM", *lines, "END:VALARM"])


# RFC 5545 section 3.6.5, but for its name.
OFFICE = "\r\n".join(
    """BEGIN:VTIMEZONE
TZID:Office
BEGIN:STANDARD
DTSTART:20071104T020000
RRULE:FREQ=YEARLY;BYMONTH=11;BYDAY=1SU
TZOFFSETFROM:-0400
TZOFFSETTO:-0500
TZNAME:EST
END:STANDARD
BEGIN:DAYLIGHT
DTSTART:20070311T020000
RRULE:FREQ=YEARLY;BYMONTH=3;BYDAY=2SU
TZOFFSETFROM:-0500
TZOFFSETTO:-0400
TZNAME:EDT
END:DAYLIGHT
END:VTIMEZONE""".split("\n")
)
# A clock of half an hour that no zone of the server has.
ISLAND = OFFICE.replace("Office", "Island").replace("-0400", "+0430").replace("-0500", "+0330")

NEW_YORK = "DTSTART;TZID=America/New_York:19970902T090000"


def rule(value, start=NEW_YORK):
    return [start, f"RRULE:{value}"]


def ruled(*rules, **members):
    return {"start": "1997-09-02T09:00:00", "timeZone": "America/New_York", "recurrenceRules": [{"@type": "RecurrenceRule"} | it for it in rules]} | members


# Rules of the examples of section 3.8.5.3, all but those of hours and minutes, of seconds and of weeks by their numbers, which the server doesn't take, and
# of the 20th Monday, which icalendar 4.0.3 doesn't read.
RULES = [
    (f"DTSTART;TZID=America/New_York:{start}T090000", rule)
    for start, rule in (
        ("19970902", "FREQ=DAILY;COUNT=10"),
        ("19970902", "FREQ=DAILY;UNTIL=19971224T000000Z"),
        ("19970902", "FREQ=DAILY;INTERVAL=2"),
        ("19970902", "FREQ=DAILY;INTERVAL=10;COUNT=5"),
        ("19970902", "FREQ=WEEKLY;COUNT=10"),
        ("19970902", "FREQ=WEEKLY;UNTIL=19971224T000000Z"),
        ("19970902", "FREQ=WEEKLY;INTERVAL=2;WKST=SU"),
        ("19970902", "FREQ=WEEKLY;UNTIL=19971007T000000Z;WKST=SU;BYDAY=TU,TH"),
        ("19970902", "FREQ=WEEKLY;COUNT=10;WKST=SU;BYDAY=TU,TH"),
        ("19970902", "FREQ=WEEKLY;INTERVAL=2;COUNT=8;WKST=SU;BYDAY=TU,TH"),
        ("19970805", "FREQ=WEEKLY;INTERVAL=2;COUNT=4;BYDAY=TU,SU;WKST=MO"),
        ("19970805", "FREQ=WEEKLY;INTERVAL=2;COUNT=4;BYDAY=TU,SU;WKST=SU"),
        ("19970905", "FREQ=MONTHLY;COUNT=10;BYDAY=1FR"),
        ("19970907", "FREQ=MONTHLY;INTERVAL=2;COUNT=10;BYDAY=1SU,-1SU"),
        ("19970922", "FREQ=MONTHLY;COUNT=6;BYDAY=-2MO"),
        ("19970928", "FREQ=MONTHLY;BYMONTHDAY=-3"),
        ("19970902", "FREQ=MONTHLY;COUNT=10;BYMONTHDAY=2,15"),
        ("19970930", "FREQ=MONTHLY;COUNT=10;BYMONTHDAY=1,-1"),
        ("19970910", "FREQ=MONTHLY;INTERVAL=18;COUNT=10;BYMONTHDAY=10,11,12,13,14,15"),
        ("19970902", "FREQ=MONTHLY;INTERVAL=2;BYDAY=TU"),
        ("19980213", "FREQ=MONTHLY;BYDAY=FR;BYMONTHDAY=13"),
        ("19970913", "FREQ=MONTHLY;BYDAY=SA;BYMONTHDAY=7,8,9,10,11,12,13"),
        ("19970904", "FREQ=MONTHLY;COUNT=3;BYDAY=TU,WE,TH;BYSETPOS=3"),
        ("19970929", "FREQ=MONTHLY;BYDAY=MO,TU,WE,TH,FR;BYSETPOS=-2"),
        ("20070115", "FREQ=MONTHLY;BYMONTHDAY=15,30;COUNT=5"),
        ("19980101", "FREQ=YEARLY;UNTIL=20000131T140000Z;BYMONTH=1;BYDAY=SU,MO,TU,WE,TH,FR,SA"),
        ("19970610", "FREQ=YEARLY;COUNT=10;BYMONTH=6,7"),
        ("19970310", "FREQ=YEARLY;INTERVAL=2;COUNT=10;BYMONTH=1,2,3"),
        ("19970101", "FREQ=YEARLY;INTERVAL=3;COUNT=10;BYYEARDAY=1,100,200"),
        ("19970313", "FREQ=YEARLY;BYMONTH=3;BYDAY=TH"),
        ("19970605", "FREQ=YEARLY;BYMONTH=6,7,8;BYDAY=TH"),
        ("19961105", "FREQ=YEARLY;INTERVAL=4;BYMONTH=11;BYDAY=TU;BYMONTHDAY=2,3,4,5,6,7,8"),
    )
]


def days(*names, **members):
    return [{"@type": "NDay", "day": name} | members for name in names]


# What lines of an event come to, beside its uid. DTSTART is 2 March 2026, 09:00 without a zone, where the lines have none.
READ = [
    # Section 3.6.1, the four examples.
    (
        ["DTSTART:19970903T163000Z", "DTEND:19970903T190000Z", "SUMMARY:Annual Employee Review", "CLASS:PRIVATE", "CATEGORIES:BUSINESS,HUMAN RESOURCES"],
        {"start": "1997-09-03T16:30:00", "timeZone": "Etc/UTC", "duration": "PT2H30M", "title": "Annual Employee Review", "privacy": "private", "keywords": {"BUSINESS": True, "HUMAN RESOURCES": True}},
    ),
    (
        ["DTSTART:19970903T163000Z", "DTEND:19970903T190000Z", "SUMMARY:Laurel is in sensitivity awareness class.", "CLASS:PUBLIC", "TRANSP:TRANSPARENT"],
        {"start": "1997-09-03T16:30:00", "timeZone": "Etc/UTC", "duration": "PT2H30M", "title": "Laurel is in sensitivity awareness class.", "privacy": "public", "freeBusyStatus": "free"},
    ),
    (
        ["DTSTART;VALUE=DATE:19971102", "SUMMARY:Our Blissful Anniversary", "TRANSP:TRANSPARENT", "CLASS:CONFIDENTIAL", "RRULE:FREQ=YEARLY"],
        {
            "start": "1997-11-02T00:00:00", "showWithoutTime": True, "duration": "P1D", "title": "Our Blissful Anniversary", "privacy": "secret", "freeBusyStatus": "free",
            "recurrenceRules": [{"@type": "RecurrenceRule", "frequency": "yearly"}],
        },
    ),
    (["DTSTART;VALUE=DATE:20070628", "DTEND;VALUE=DATE:20070709", "SUMMARY:Festival"], {"start": "2007-06-28T00:00:00", "showWithoutTime": True, "duration": "P11D", "title": "Festival"}),
    # Section 3.8.5.3: until a time of UTC, which is 19:00 in New York, and others.
    (rule("FREQ=DAILY;UNTIL=19971224T000000Z"), ruled({"frequency": "daily", "until": "1997-12-23T19:00:00"})),
    (rule("FREQ=WEEKLY;INTERVAL=2;WKST=SU"), ruled({"frequency": "weekly", "interval": 2, "firstDayOfWeek": "su"})),
    (rule("FREQ=MONTHLY;COUNT=10;BYDAY=1FR"), ruled({"frequency": "monthly", "count": 10, "byDay": days("fr", nthOfPeriod=1)})),
    (rule("FREQ=MONTHLY;BYMONTHDAY=-3"), ruled({"frequency": "monthly", "byMonthDay": [-3]})),
    (rule("FREQ=YEARLY;INTERVAL=3;COUNT=10;BYYEARDAY=1,100,200"), ruled({"frequency": "yearly", "interval": 3, "count": 10, "byYearDay": [1, 100, 200]})),
    (rule("FREQ=YEARLY;BYMONTH=3;BYDAY=TH"), ruled({"frequency": "yearly", "byMonth": ["3"], "byDay": days("th")})),
    (rule("FREQ=MONTHLY;COUNT=3;BYDAY=TU,WE,TH;BYSETPOS=3"), ruled({"frequency": "monthly", "count": 3, "byDay": days("tu", "we", "th"), "bySetPosition": [3]})),
    (rule("FREQ=YEARLY;BYWEEKNO=20;BYDAY=MO"), ruled({"frequency": "yearly", "byWeekNo": [20], "byDay": days("mo")})),
    # RFC 7529 section 4.1 has such rules.
    (rule("RSCALE=GREGORIAN;FREQ=MONTHLY;SKIP=FORWARD"), ruled({"frequency": "monthly", "skip": "forward"})),
    # The hour of the start is that of each occurrence anyhow.
    (rule("FREQ=DAILY;BYHOUR=9;BYMINUTE=0"), ruled({"frequency": "daily"})),
    # A date as the end of a rule is the whole day, and that of whole days the day.
    (rule("FREQ=DAILY;UNTIL=19970904"), ruled({"frequency": "daily", "until": "1997-09-04T23:59:59"})),
    (
        ["DTSTART;VALUE=DATE:20260302", "RRULE:FREQ=DAILY;UNTIL=20260304T120000Z"],
        {"start": "2026-03-02T00:00:00", "showWithoutTime": True, "duration": "P1D", "recurrenceRules": [{"@type": "RecurrenceRule", "frequency": "daily", "until": "2026-03-04T00:00:00"}]},
    ),
    # Sections 3.8.5.1 and 3.8.5.2: EXDATE of UTC at the time of the start in New York, which is at UTC-4, and RDATEs, one of them a period.
    (
        [*rule("FREQ=DAILY;COUNT=5"), "EXDATE:19970903T130000Z,19970904T130000Z", "RDATE;TZID=America/New_York:19971001T100000", "RDATE;VALUE=PERIOD:19971002T140000Z/PT3H"],
        ruled(
            {"frequency": "daily", "count": 5},
            recurrenceOverrides={
                "1997-09-03T09:00:00": {"excluded": True}, "1997-09-04T09:00:00": {"excluded": True}, "1997-10-01T10:00:00": {}, "1997-10-02T10:00:00": {"duration": "PT3H"},
            },
        ),
    ),
    # Section 3.3.6: 15 days, 5 hours and 20 seconds, and 7 weeks.
    (["DURATION:P15DT5H0M20S"], {"duration": "P15DT5H20S"}),
    (["DURATION:P7W"], {"duration": "P49D"}),
    # A DTEND is the time that goes by: clocks are set forward in that night, so that it lasts an hour less.
    (
        ["DTSTART;TZID=America/New_York:20260307T220000", "DTEND;TZID=America/New_York:20260308T060000"],
        {"start": "2026-03-07T22:00:00", "timeZone": "America/New_York", "duration": "PT7H"},
    ),
    # An end on another clock: 18:00 in Zurich is 12:00 in New York.
    (
        ["DTSTART;TZID=America/New_York:20260601T090000", "DTEND;TZID=Europe/Zurich:20260601T180000"],
        {"start": "2026-06-01T09:00:00", "timeZone": "America/New_York", "duration": "PT3H"},
    ),
    # Zones by a vendor's prefix, by Windows' name, and by the rule of the VTIMEZONE.
    (["DTSTART;TZID=/example.org/2026/Europe/Zurich:20260302T090000"], {"timeZone": "Europe/Zurich"}),
    (["DTSTART;TZID=Eastern Standard Time:20260302T090000"], {"timeZone": "America/New_York"}),
    (["DTSTART;TZID=Office:20260302T090000"], {"timeZone": "America/New_York"}),
    # No zone of the server is at UTC+3:30: 09:00 there is 05:30 of UTC.
    (["DTSTART;TZID=Island:20260302T090000"], {"start": "2026-03-02T05:30:00", "timeZone": "Etc/UTC"}),
    # Section 3.3.11.
    ([r"DESCRIPTION:Project XYZ Final Review\nConference Room - 3B\nCome Prepared."], {"description": "Project XYZ Final Review\nConference Room - 3B\nCome Prepared."}),
    ([r"SUMMARY:a\, b\; c\\n"], {"title": "a, b; c\\n"}),
    # Sections 3.8.1.6, 3.8.1.7, 3.8.1.9, 3.8.1.11, 3.8.4.5, 3.8.4.6 and 3.8.7.4.
    (
        ["GEO:37.386013;-122.082932", r"LOCATION:Conference Room - F123\, Bldg. 002", "PRIORITY:1", "STATUS:TENTATIVE", "SEQUENCE:2"],
        {
            "locations": {"1": {"@type": "Location", "name": "Conference Room - F123, Bldg. 002", "coordinates": "geo:37.386013,-122.082932"}},
            "priority": 1, "status": "tentative", "sequence": 2,
        },
    ),
    (
        ["RELATED-TO:jsmith.part7.19960817T083000.xyzMail@example.com", "URL:http://example.com/pub/calendars/jsmith/mytime.ics"],
        {
            "relatedTo": {"jsmith.part7.19960817T083000.xyzMail@example.com": {"@type": "Relation", "relation": {"parent": True}}},
            "links": {"url": {"@type": "Link", "href": "http://example.com/pub/calendars/jsmith/mytime.ics"}},
        },
    ),
    (
        ["ATTACH;FMTTYPE=application/postscript:ftp://example.com/pub/reports/r-960812.ps"],
        {"links": {"attach1": {"@type": "Link", "href": "ftp://example.com/pub/reports/r-960812.ps", "rel": "enclosure", "contentType": "application/postscript"}}},
    ),
    # What has no place: whole lines, and parameters of lines that have one.
    (
        ["X-MOZ-GENERATION:3", "SUMMARY;LANGUAGE=en-US:Company Holiday Party", "STATUS:NEEDS-ACTION", "CREATED:19960329T133000Z"],
        {
            "title": "Company Holiday Party",
            KEPT: {
                "@type": "ICalComponent", "name": "vevent",
                "properties": [["x-moz-generation", {}, "unknown", "3"], ["status", {}, "unknown", "NEEDS-ACTION"], ["created", {}, "unknown", "19960329T133000Z"]],
                "parameters": [["summary", {"language": "en-US"}, ""]],
            },
        },
    ),
    # Section 3.6.6, the three examples.
    (
        [alarm("TRIGGER;VALUE=DATE-TIME:19970317T133000Z", "REPEAT:4", "DURATION:PT15M", "ACTION:AUDIO", "ATTACH;FMTTYPE=audio/basic:ftp://example.com/pub/sounds/bell-01.aud")],
        {
            "alerts": {
                "1": {
                    "@type": "Alert", "action": "display", "trigger": {"@type": "AbsoluteTrigger", "when": "1997-03-17T13:30:00Z"},
                    KEPT: {
                        "@type": "ICalComponent", "name": "valarm",
                        "properties": [
                            ["repeat", {}, "unknown", "4"], ["duration", {}, "unknown", "PT15M"],
                            ["attach", {"fmttype": "audio/basic"}, "unknown", "ftp://example.com/pub/sounds/bell-01.aud"], ["action", {}, "unknown", "AUDIO"],
                        ],
                    },
                },
            },
        },
    ),
    (
        ["SUMMARY:Breakfast", alarm("TRIGGER:-PT30M", "ACTION:DISPLAY", "DESCRIPTION:Breakfast")],
        {"title": "Breakfast", "alerts": {"1": {"@type": "Alert", "action": "display", "trigger": {"@type": "OffsetTrigger", "offset": "-PT30M"}}}},
    ),
    (
        [alarm("TRIGGER;RELATED=END:-P2D", "ACTION:EMAIL", "ACKNOWLEDGED:20260301T080000Z")],
        {"alerts": {"1": {"@type": "Alert", "action": "email", "trigger": {"@type": "OffsetTrigger", "offset": "-P2D", "relativeTo": "end"}, "acknowledged": "2026-03-01T08:00:00Z"}}},
    ),
]

# Sections 3.8.4.1 and 3.8.4.3: the line, and the participant (RFC 8984 section 4.4.6).
PEOPLE = [
    ("ORGANIZER;CN=John Smith:mailto:jsmith@example.com", {"name": "John Smith", "email": "jsmith@example.com", "roles": {"owner": True}}),
    ("ATTENDEE;CUTYPE=GROUP:mailto:ietf-calsch@example.org", {"email": "ietf-calsch@example.org", "roles": {"attendee": True}, "kind": "group"}),
    ("ATTENDEE;ROLE=CHAIR;PARTSTAT=TENTATIVE;CN=Henry Cabot:mailto:hcabot@example.com", {"name": "Henry Cabot", "email": "hcabot@example.com", "roles": {"attendee": True, "chair": True}, "participationStatus": "tentative"}),
    ("ATTENDEE;ROLE=OPT-PARTICIPANT;RSVP=TRUE:mailto:jdoe@example.com", {"email": "jdoe@example.com", "roles": {"attendee": True, "optional": True}, "expectReply": True}),
    ("ATTENDEE;ROLE=NON-PARTICIPANT;PARTSTAT=DELEGATED;CN=The Big Cheese:mailto:iamboss@example.com", {"name": "The Big Cheese", "email": "iamboss@example.com", "roles": {"informational": True}, "participationStatus": "delegated"}),
]

# RFC 8984 section 6.9, shortened in its places, and its lines.
CALCULUS = {
    "@type": "Event", "uid": "bb162c7a", "updated": "2020-02-02T18:23:04Z", "title": "Calculus I", "start": "2020-01-08T09:00:00", "timeZone": "Europe/London", "duration": "PT1H30M",
    "recurrenceRules": [{"@type": "RecurrenceRule", "frequency": "weekly", "until": "2020-06-24T09:00:00"}],
    "recurrenceOverrides": {
        "2020-01-07T14:00:00": {"title": "Introduction to Calculus I (optional)"},
        "2020-04-01T09:00:00": {"excluded": True},
        "2020-06-25T09:00:00": {"title": "Calculus I Exam", "start": "2020-06-25T10:00:00", "duration": "PT2H"},
    },
}
CALCULUS_LINES = [
    "UID:bb162c7a", "SUMMARY:Calculus I", "DTSTART;TZID=Europe/London:20200108T090000", "DTEND;TZID=Europe/London:20200108T103000", "RRULE:FREQ=WEEKLY;UNTIL=20200624T080000Z",
    "RDATE;TZID=Europe/London:20200107T140000", "EXDATE;TZID=Europe/London:20200401T090000", "RDATE;TZID=Europe/London:20200625T090000",
]
CALCULUS_EXAM = ["RECURRENCE-ID;TZID=Europe/London:20200625T090000", "DTSTART;TZID=Europe/London:20200625T100000", "DTEND;TZID=Europe/London:20200625T120000", "SUMMARY:Calculus I Exam"]


def read(*parts):
    """The events of some components, and what is told."""
    told = []
    [whole] = parse(calendar(*parts), told.append)
    zones = Zones([it for it in whole.parts if it.name == "VTIMEZONE"], known)
    return [event_of(*it, zones, told.append) for it in series_of([it for it in whole.parts if it.name == "VEVENT"])], told


def with_lines(lines):
    has_start = any(it.startswith("DTSTART") for it in lines)
    return "\r\n".join(["BEGIN:VEVENT", "UID:it", *([] if has_start else ["DTSTART:20260302T090000"]), *lines, "END:VEVENT"])


def written(held):
    """The content lines of an event, unfolded, by component."""
    return [[line.written().decode().replace("\r\n ", "") for line in it.lines] for it in components_of({"updated": "2026-01-01T00:00:00Z"} | held, lambda _: None)]


def lines_are_read(same):
    for lines, wanted in READ:
        [held], told = read(OFFICE, ISLAND, with_lines(lines))
        usual = {"@type": "Event", "uid": "it", "start": "2026-03-02T09:00:00"}
        same(lines, held, usual | wanted)
        # And back: the lines that are written come to the same.
        parts = [it.written().decode() for it in components_of(held | {"updated": "2026-01-01T00:00:00Z"}, lambda _: None)]
        same(f"{lines} there and back", read(*parts)[0], [held])
        same(f"{lines} told", bool(told), any("Island" in it for it in lines))


def people_are_read(same):
    for line, wanted in PEOPLE:
        [held], _ = read(event("it", line))
        [person] = held["participants"].values()
        same(line, person, {"@type": "Participant", "sendTo": {"imip": f"mailto:{wanted['email']}"}} | wanted)
        [back] = [split(it) for it in written(held)[0] if it.startswith(("ATTENDEE", "ORGANIZER"))]
        same(f"{line} back", back, split(line))
    both, _ = read(event("it", PEOPLE[0][0], "ATTENDEE;PARTSTAT=ACCEPTED;DELEGATED-FROM=\"mailto:bob@example.com\";CN=John Smith:mailto:jsmith@example.com"))
    [person] = both[0]["participants"].values()
    same("organizer and attendee", (person["roles"], person["participationStatus"], both[0]["replyTo"]), ({"owner": True, "attendee": True}, "accepted", {"imip": "mailto:jsmith@example.com"}))
    assert any('DELEGATED-FROM="mailto:bob@example.com"' in it for it in written(both[0])[0]), written(both[0])


def who_has_no_address_is_told_by_name(same):
    held = {"uid": "it", "start": "2026-03-02T09:00:00", "participants": {"me": {"@type": "Participant", "name": "Ann Lee", "roles": {"owner": True}}}}
    assert 'ORGANIZER;CN="Ann Lee":mailto:Ann%20Lee@name.invalid' in written(held)[0], written(held)
    [back], _ = read(*[it.written().decode() for it in components_of({"updated": "2026-01-01T00:00:00Z"} | held, lambda _: None)])
    same("who has no address", list(back["participants"].values()), list(held["participants"].values()))
    assert "replyTo" not in back


def occurrences_are_read(same):
    start = "20260302T090000Z"
    series = event("it", "SUMMARY:Board", "DESCRIPTION:Each week", "RRULE:FREQ=WEEKLY", start=start)
    moved = event("it", "RECURRENCE-ID:20260309T090000Z", "SUMMARY:Board, late", start="20260309T150000Z")
    gone = event("it", "RECURRENCE-ID:20260316T090000Z", "SUMMARY:Board", "DESCRIPTION:Each week", "STATUS:CANCELLED", start="20260316T090000Z")
    [held], told = read(series, moved, gone)
    wanted = {
        "2026-03-09T09:00:00": {"description": None, "start": "2026-03-09T15:00:00", "title": "Board, late"},
        "2026-03-16T09:00:00": {"status": "cancelled"},
    }
    same("occurrences", (held["recurrenceOverrides"], told), (wanted, []))
    _, told = read(series, moved.replace("RECURRENCE-ID:", "RECURRENCE-ID;RANGE=THISANDFUTURE:"))
    assert any("changes that occurrence alone" in it for it in told), told
    [alone], told = read(moved)
    assert alone["start"] == "2026-03-09T15:00:00" and told == ["it is an occurrence without its series, and stands alone"], (alone, told)
    assert "RECURRENCE-ID:20260309T090000Z" in written(alone)[0]


def the_latest_of_one_uid_is_taken(same):
    first, second = event("it", "SUMMARY:First", "SEQUENCE:1"), event("it", "SUMMARY:Second", "SEQUENCE:2")
    for parts in ((first, second), (second, first)):
        [held], _ = read(*parts)
        same("the latest", held["title"], "Second")


def events_are_written(same):
    parts = written(CALCULUS)
    same("components", len(parts), 3)
    for line in CALCULUS_LINES:
        assert line in parts[0], (line, parts[0])
    for line in CALCULUS_EXAM:
        assert line in parts[2], (line, parts[2])
    there_and_back = [it.written().decode() for it in components_of(CALCULUS, lambda _: None)]
    same("calculus there and back", read(*there_and_back)[0], [{key: it for key, it in CALCULUS.items() if key != "updated"}])
    [held], told = read(event("it", "RRULE:FREQ=DAILY", "EXRULE:FREQ=WEEKLY"))
    same("EXRULE", (told, "EXRULE:FREQ=WEEKLY" in written(held)[0]), (["EXRULE:FREQ=WEEKLY is kept, but the times that it gives aren't left out"], True))
    told = []
    components_of({"uid": "it", "start": "2026-03-02T09:00:00", "updated": "2026-01-01T00:00:00Z", "locale": "de"}, told.append)
    same("a property without a place", told, ["locale has no place in iCalendar"])
    long = written({"uid": "it", "start": "2026-03-02T09:00:00", "title": "ü" * 200})[0]
    assert f"SUMMARY:{'ü' * 200}" in long


def values_are_read(same):
    same("a negative duration", length_of("-PT15M"), (-1, 0, 900))
    same("no duration", [length_of(it) for it in ("P", "PT", "15M", "PT1.5H", "")], [None] * 5)
    same("escapes", text_of(r"a\nb\Nc\,\;\\"), "a\nb\nc,;\\")
    same("texts", texts_of(r"a\,b,c\\,d"), ["a,b", "c\\", "d"])
    for text in ("a\\b", "a;b,c", "line\nline", "\\n", "üé🗓️"):
        same("a text there and back", text_of(escaped(text)), text)


def zones_are_written(same):
    for name in ("America/New_York", "Europe/Zurich", "Asia/Tokyo", "Asia/Kolkata", "Australia/Sydney", "Asia/Jerusalem", "Africa/Cairo"):
        for year in (2027, 2036):
            same(f"{name} in {year}", shows_same(clock_of(vtimezone(name)), zone(name), year), True)
    same("clocks that differ", shows_same(clock_of(vtimezone("Europe/Zurich")), zone("America/New_York"), 2027), False)


def all_hold(same):
    for case in (values_are_read, lines_are_read, people_are_read, who_has_no_address_is_told_by_name, occurrences_are_read, the_latest_of_one_uid_is_taken, events_are_written, zones_are_written):
        case(same)
