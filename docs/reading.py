#!/usr/bin/env python3
"""Says what the documents say of the crates and of the theorem's definitions, from the sources.

  docs/reading.py files   the files that the main theorem rests on, in reading order: how many lines of definition each has, the types that it needs,
                          and how many of its lines a law restates by facts
  docs/reading.py reach   for each crate of definitions, how many crates a change of it proves again, and in how many minutes
  docs/reading.py check   compares both with THEOREM.md and ARCHITECTURE.md; ends with 1 where they differ
  docs/reading.py write   puts both into them: numbers, types and order; what a file says is kept, and asked for where a row is new

Lines of definition are those of a file without its imports, its comments and its empty lines.

It reads crates.txt, the sources and bench/gate.txt alone, so it needs no toolchain. bench/gate.txt has a line for each crate that was measured: its
name, and the seconds of processor that its proofs with its tests and programs took from nothing, and the tries of its mutants, or - where
these weren't measured or there are none.
"""
import os
import re
import sys

TOP = os.path.dirname(os.path.dirname(os.path.abspath(__file__)))
# Where the theorem stands: the clause on `serve_connection`, the one on `run_program`, the law of what answers say of bookings, the clause on `listen_kept`, the type of an account that is kept, and the clause on `listen_ws`.
ROOTS = [
    "crates/spec_connection/specs/Serving.antt", "crates/jmapd_listen/specs/Program.antt", "crates/account_rooms/specs/Storing.antt",
    "crates/jmapd_listen/specs/ListensKept.antt", "crates/kept_account/specs/HasKept.antt", "crates/ws_run/specs/Runs.antt",
]
# What a law says by facts, so that nobody has to believe how it is defined: for a file the law, and those definitions; all of the file where none is named.
RESTATED = {
    "spec_series/Shared": (
        "bookings_clash_where_two_would_cover_a_second",
        "is_over covers covers_beside covers_twice first_second first_shared_second first_self_shared_second",
    ),
    "spec_bookings/Clashes": (
        "bookings_clash_where_two_would_cover_a_second", "IsClash any_covers is_clash IsClear first_covering clash_at first_clash",
    ),
    "spec_bookings/BookedResources": ("bookings_clash_where_two_would_cover_a_second", "clash_in first_clash_in clash_of_event"),
    "spec_bookings/HistoryBookings": ("bookings_are_of_live_events", "booking_of bookings_at"),
    "spec_slots/Slots": ("slots_are_least", "first_free tried_of slot_among"),
    "spec_recurrence/RulesOf": (
        "rules_are_their_parts",
        "is_interval has_by_parts ends_within repeats_within weeks_start_within is_within_limits IsWithinLimits limits_of rule_by rule_where rule_by_parts",
    ),
    "spec_recurrence/SeriesOf": ("events_have_one_series", ""),
    "spec_windows/Overlaps": ("overlaps_are_found", "has_passing has_overlapping"),
    "spec_availability/BusyInstants": ("events_take_up_their_occurrences", "is_occupied"),
    "spec_availability/Runs": ("runs_are_of_the_test", ""),
    "spec_history/History": ("states_show_objects", "object_from live_object with_id ids_from ids_at"),
    "spec_history/Pages": ("pages_are_longest", "greatest page_end"),
    "property_table/Table": ("failing_names_are_exact", "failing"),
}
DEFINES = re.compile(r"^\s*(?:(?:abbrev|unfoldable|opaque) )?pub (?:record |data )?([\w'-]+)(?: |$)")
CITES = re.compile(r"use Rattle\.(\w+)\.specs\.([\w.]+?)(?:\.\{|\s|$)")


def read(name):
    with open(os.path.join(TOP, name), encoding="utf-8") as file:
        return file.read()


def dependencies():
    """Each crate of the repository with those of it that it stands on."""
    found = {}
    for line in read("crates.txt").splitlines():
        line = line.split("#")[0]
        if ":" in line:
            name, libraries = line.split(":")
            found[name.split()[0]] = libraries.split()
    return {name: [it for it in libraries if it in found] for name, libraries in found.items()}


def file_of(crate, path):
    """The file of a module of specs/, or of src/ where the path is that of a declared type."""
    parts = path.split(".")
    if parts[0] == "declared":
        parts = parts[1:]
        while parts:
            name = f"crates/{crate}/src/{'/'.join(parts)}.rt"
            if os.path.isfile(os.path.join(TOP, name)):
                return name
            parts = parts[:-1]
        return f"crates/{crate}/src/lib.rt"
    while parts:
        name = f"crates/{crate}/specs/{'/'.join(parts)}.antt"
        if os.path.isfile(os.path.join(TOP, name)):
            return name
        parts = parts[:-1]
    return None


def cited(name, crates):
    """The files of definitions that a file cites, and the files of the types that it needs."""
    files, types = [], []
    for crate, path in CITES.findall(read(name)):
        if crate in crates:
            it = file_of(crate, path)
            if it and it != name:
                (types if it.endswith(".rt") else files).append(it)
    return sorted(set(files)), sorted(set(types))


def reading_order():
    """The files that the roots rest on, each behind those that it cites."""
    crates, order, under_way = dependencies(), [], set()

    def visit(name):
        if name in order or name in under_way:
            return
        under_way.add(name)
        for it in cited(name, crates)[0]:
            visit(it)
        order.append(name)

    for root in ROOTS:
        visit(root)
    return [(name, cited(name, crates)[1]) for name in order]


def definitions(name):
    """How many lines of definition each definition of a file has, in their order; what stands before the first, or heads a module, has no name."""
    found, current = {}, ""
    for line in read(name).splitlines():
        if not line.strip() or line.lstrip().startswith(("--", "use ")):
            continue
        if line.lstrip().startswith("module "):
            current = ""
        elif DEFINES.match(line) and not re.match(r"\s*pub \w+ :", line):
            current = DEFINES.match(line)[1]
        found[current] = found.get(current, 0) + 1
    return found


def restated(name):
    """The law that restates definitions of a file by facts, with how many of its lines these are."""
    if short(name) not in RESTATED:
        return "", 0
    law, wanted = RESTATED[short(name)]
    return law, sum(lines for it, lines in definitions(name).items() if not wanted or it in wanted.split())


def faults_of_restated():
    """What RESTATED names that isn't there."""
    there = {short(name): definitions(name) for name, _ in reading_order()}
    texts = [read(f"crates/{crate}/src/{name}") for crate in dependencies() for name in os.listdir(os.path.join(TOP, f"crates/{crate}/src")) if name.endswith("laws.rt")]
    for name, (law, wanted) in RESTATED.items():
        if name not in there:
            yield f"docs/reading.py: the theorem doesn't rest on {name}"
        yield from (f"docs/reading.py: {name} has no definition {it}" for it in wanted.split() if it not in there.get(name, wanted))
        if not any(re.search(rf"pub fn {law}\b", text) for text in texts):
            yield f"docs/reading.py: no crate has the law {law}"


def reach():
    """Each crate of definitions with the crates that stand on it, directly or not."""
    below = dependencies()
    above = {name: set() for name in below}
    for name in below:
        todo = list(below[name])
        while todo:
            it = todo.pop()
            if name not in above[it]:
                above[it].add(name)
                todo += below[it]
    return [(name, [it for it in below if it in above[name]]) for name in below if name.startswith("spec_") or name == "cal_model"]


def measured():
    """The seconds of processor that the proofs of each crate, with its tests and programs, took where they were measured."""
    if not os.path.isfile(os.path.join(TOP, "bench/gate.txt")):
        return {}
    rows = [line.split() for line in read("bench/gate.txt").splitlines() if line and not line.startswith("#")]
    return {name: int(proofs) for name, proofs, _ in rows}


def minutes(crates):
    """The minutes of processor that the proofs of these crates take; empty where one of them wasn't measured."""
    found = measured()
    return str(round(sum(found[name] for name in crates) / 60)) if all(name in found for name in crates) else ""


def short(name):
    return name.removeprefix("crates/").replace("/specs/", "/").removesuffix(".antt")


def said_of_files(text):
    """What THEOREM.md's table says of each file."""
    rows = (re.match(r"\| `(\w+/\w+)` \| \d+ \| (.*?) \| ", line) for line in text.splitlines())
    return {row[1]: row[2] for row in rows if row}


def theorem_table(text):
    """The table of files, in reading order."""
    said, rows = said_of_files(text), []
    for name, types in reading_order():
        law, lines = restated(name)
        cells = (
            f"`{short(name)}`", str(sum(definitions(name).values())), said.get(short(name), "TO BE SAID"),
            ", ".join(sorted({os.path.basename(it) for it in types})), f"{lines}: `{law}`" if law else "",
        )
        rows.append("| " + " | ".join(cells) + " |")
    return "\n".join(rows)


def reach_table():
    """The table of what a change of a definition proves again."""
    return "\n".join(f"| `{name}` | {len(crates)} | {minutes([name, *crates])} |" for name, crates in reach())


def with_tables(theorem, architecture):
    """Both documents with the tables and the sums of the sources."""
    theorem = re.sub(r"(?:^\| `\w+/\w+` \| \d+ \|.*\n)+", lambda _: theorem_table(theorem) + "\n", theorem, count=1, flags=re.M)
    names = [name for name, _ in reading_order()]
    lines, believed = sum(sum(definitions(name).values()) for name in names), sum(restated(name)[1] for name in names)
    theorem = re.sub(r"[\d,]+ files with [\d,]+ lines of definition; [\d,]+ of them", f"{len(names)} files with {lines:,} lines of definition; {believed:,} of them", theorem)
    head, mark, rest = architecture.partition("### What a change of a definition proves again")
    rest = re.sub(r"(?:^\| `\w+` \| \d+ \|.*\n)+", lambda _: reach_table() + "\n", rest, count=1, flags=re.M)
    return theorem, head + mark + rest


def main(what):
    documents = read("docs/THEOREM.md"), read("docs/ARCHITECTURE.md")
    if what == "files":
        print(theorem_table(documents[0]))
    elif what == "reach":
        print(reach_table())
    elif what == "check":
        told = zip(("THEOREM.md", "ARCHITECTURE.md"), documents, with_tables(*documents))
        wrong = [f"docs/{name} doesn't have the tables of the sources: docs/reading.py write" for name, old, new in told if old != new or "TO BE SAID" in old]
        wrong += faults_of_restated()
        print("\n".join(wrong) or "the tables are those of the sources")
        sys.exit(1 if wrong else 0)
    elif what == "write":
        for name, text in zip(("THEOREM.md", "ARCHITECTURE.md"), with_tables(*documents)):
            with open(os.path.join(TOP, "docs", name), "w", encoding="utf-8") as file:
                file.write(text)
    else:
        sys.exit(__doc__)


main(sys.argv[1] if len(sys.argv) == 2 else "")
