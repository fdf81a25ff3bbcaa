"""Components and content lines of iCalendar (RFC 5545 sections 3.1 and 3.6), with values as they are written. Folding and parameters are those of `icalendar`."""

import re
from dataclasses import dataclass, field
from functools import lru_cache

from icalendar.parser import Contentline, Contentlines, Parameters

# A name with its parameters, whose values may hold a colon in quotes.
HEAD = re.compile(r'([^:;"]+)((?:;(?:[^":]|"[^"]*")*)?):')
# Values of properties that others made, as jCal has them where their type isn't known (RFC 7265 section 5).
UNKNOWN = "unknown"


@dataclass
class Line:
    """A property: its name in capitals, its parameters by names in capitals, and its value as it is written."""

    name: str
    params: dict
    value: str

    def written(self):
        params = Parameters(self.params)
        head = f"{self.name};{params.to_ical().decode()}" if params else self.name
        return Contentline(f"{head}:{self.value}").to_ical()

    def kept(self):
        """The line as jCal (RFC 7265 section 3.4)."""
        return [self.name.lower(), {name.lower(): value for name, value in self.params.items()}, UNKNOWN, self.value]

    @staticmethod
    def of_kept(item):
        name, params, _, value = item
        return Line(name.upper(), {key.upper(): it for key, it in params.items()}, value)


@dataclass
class Component:
    """A component: its name in capitals, its properties and the components in it."""

    name: str
    lines: list = field(default_factory=list)
    parts: list = field(default_factory=list)

    def all(self, name):
        return [it for it in self.lines if it.name == name]

    def first(self, name):
        return next((it for it in self.lines if it.name == name), None)

    def value(self, name):
        line = self.first(name)
        return line.value if line else None

    def add(self, name, value, **params):
        self.lines.append(Line(name, params, value))

    def written(self):
        inside = [it.written() for it in [*self.lines, *self.parts]]
        return b"\r\n".join([f"BEGIN:{self.name}".encode(), *inside, f"END:{self.name}".encode()])

    def kept(self):
        """The component as jCal (RFC 7265 section 3.3)."""
        return [self.name.lower(), [it.kept() for it in self.lines], [it.kept() for it in self.parts]]

    @staticmethod
    def of_kept(item):
        name, lines, parts = item
        return Component(name.upper(), [Line.of_kept(it) for it in lines], [Component.of_kept(it) for it in parts])


@lru_cache(4096)
def params_of(text):
    return {name.upper(): value for name, value in Parameters.from_ical(text).items()}


def split(text):
    """The property of an unfolded content line; raises ValueError where it is none."""
    found = HEAD.match(text)
    if not found:
        raise ValueError("no content line")
    return Line(found[1].upper(), dict(params_of(found[2][1:])) if found[2] else {}, text[found.end() :])


def parse(text, tell):
    """The components of a text. `tell` is called with what is no line of any."""
    top = Component("")
    stack = [top]
    for number, unfolded in enumerate(Contentlines.from_ical(text), 1):
        if not unfolded.strip():
            continue
        try:
            line = split(unfolded)
        except ValueError:
            tell(f"no content line: {unfolded[:80]}")
            continue
        if line.name == "BEGIN":
            stack.append(Component(line.value.strip().upper()))
            stack[-2].parts.append(stack[-1])
        elif line.name == "END" and len(stack) > 1:
            stack.pop()
        elif len(stack) == 1:
            tell(f"outside of any component: {unfolded[:80]}")
        else:
            stack[-1].lines.append(line)
    if len(stack) > 1:
        tell(f"the text ends within {stack[-1].name}")
    return top.parts
