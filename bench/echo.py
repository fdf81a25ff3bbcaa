#!/usr/bin/env python3
"""Times `jmapd batch` on echoes of two sizes beside Python's json module; README.md tells what it prints."""

import json
import random
import tempfile

from measure import CAPABILITY, Table, apart, compact, contents, length_of, measured, options, run_program, run_python

SIZES = (900_000, 9_000_000)
WORDS = (
    "agenda budget café call contract customer design draft Frühling garden invoice journey kitchen lecture "
    "meeting naïve notes office orchestra plan quarter report review school station team travel week Zürich"
).split()
ZONES = ("Europe/Zurich", "America/New_York", "Asia/Tokyo", "Etc/UTC")


def words(rng, least, most):
    return " ".join(rng.choices(WORDS, k=rng.randint(least, most)))


def participant(rng):
    name = rng.choice(("Ada", "Béla", "Chloé", "Dmitri", "Esra", "Fatou"))
    return {
        "@type": "Participant",
        "name": name,
        "email": f"{name.lower()}.{rng.randint(1, 9999)}@example.com",
        "roles": {"attendee": True},
        "participationStatus": rng.choice(("accepted", "declined", "needs-action")),
        "scheduleSequence": rng.randint(0, 9),
    }


def event(rng):
    text = words(rng, 5, 60)
    return {
        "@type": "Event",
        "uid": f"{rng.getrandbits(128):032x}",
        "title": words(rng, 2, 6),
        "description": f'{text}.\n"{words(rng, 2, 9)}"\tC:\\{words(rng, 1, 1)}',
        "start": f"2026-{rng.randint(1, 12):02}-{rng.randint(1, 28):02}T{rng.randint(0, 23):02}:30:00",
        "duration": f"PT{rng.randint(1, 8)}H",
        "timeZone": rng.choice(ZONES),
        "showWithoutTime": rng.random() < 0.2,
        "color": None,
        "sequence": rng.randint(0, 20),
        "revision": rng.randint(-(2**63), 2**64 - 1),
        "calendarIds": {f"C{rng.randint(1, 40)}": True},
        "participants": {f"p{i}": participant(rng) for i in range(rng.randint(0, 4))},
        "recurrenceRules": [
            {
                "frequency": "weekly",
                "interval": rng.randint(1, 4),
                "byDay": [{"day": day} for day in rng.sample(("mo", "tu", "we", "th", "fr"), 2)],
                "bySetPosition": [rng.randint(-5, 5) for _ in range(rng.randint(1, 6))],
            }
        ],
    }


def write_request(size, out):
    """Writes an echo of events, at least `size` bytes long."""
    rng = random.Random(2026)
    events, length = [], 0
    while length < size:
        events.append(event(rng))
        length += len(compact(events[-1])) + 1
    call = ["Core/echo", {"accountId": "A1", "events": events}, "c0"]
    out.write(compact({"using": [CAPABILITY], "methodCalls": [call]}))


def compare(request, answer):
    calls = json.loads(contents(request))["methodCalls"]
    if json.loads(contents(answer)) != {"methodResponses": calls, "sessionState": "1"}:
        raise ValueError("the answer isn't what was sent")


def main():
    chosen = options(__doc__)

    def program(request, answer):
        run_program(chosen.binary, request, answer)

    table = Table()
    for size in SIZES:
        with tempfile.TemporaryFile() as request:
            apart(write_request, size, request)
            length = length_of(request)
            table.add("jmapd", length, *measured(program, chosen.rounds, request, compare))
            table.add("Python", length, *measured(run_python, chosen.rounds, request))
    table.compare()


if __name__ == "__main__":
    main()
