"""Clients that write, read and sync while a server is ended under them, and what each of them may find behind the next start; crash.py runs them."""

import dataclasses
import datetime
import random
import signal
import threading
import time

from served import SECONDS, Cut, ZONE

KINDS = ("Calendar", "CalendarEvent")
SORT = [{"property": "start"}, {"property": "title"}]
TEAM, ROOMS = "A1", "A2"
WRITERS = 3
MAX_OWN = 12
# Each booking takes an hour of one of the first days of one of the first weeks, alone or again each week or each second one. Whether two meet is seen within so many weeks.
MONDAY = datetime.datetime(2026, 1, 5, 9)
FIRST_WEEKS, DAYS, HOURS = 4, 3, 4
WEEKS = 12


def kind_of(method):
    return method.split("/")[0]


@dataclasses.dataclass
class Step:
    """A call that changes objects, and what each of them is then, by its key: None where it is removed."""

    method: str
    arguments: dict
    edits: dict


def edited(view, edits):
    merged = view | edits
    return {key: value for key, value in merged.items() if value is not None}


@dataclasses.dataclass
class Fresh:
    """What an account has: the objects of each kind by their ids, the states, and the ids of the events in order."""

    objects: dict
    states: dict
    ids: list
    query_state: str


def fresh(caller, account):
    gets = [(f"{kind}/get", {"accountId": account, "ids": None}) for kind in KINDS]
    query = ("CalendarEvent/query", {"accountId": account, "sort": SORT})
    *got, (_, queried) = answered(caller, *gets, query)
    objects = {kind: {item["id"]: item for item in arguments["list"]} for kind, (_, arguments) in zip(KINDS, got)}
    states = {kind: arguments["state"] for kind, (_, arguments) in zip(KINDS, got)}
    return Fresh(objects, states, queried["ids"], queried["queryState"])


def answered(caller, *calls):
    """The responses to calls of which none may be an error."""
    responses = caller.ask(*calls)
    for (name, arguments), (told, came) in zip(calls, responses):
        assert told == name, f"{name} {arguments} was answered {told} {came}"
    return responses


class Copy:
    """What a client has of an account, which it keeps in step by what changed since its own states."""

    def __init__(self, account):
        self.account, self.has = account, None

    def begin(self, caller):
        self.has = fresh(caller, self.account)

    def sync(self, caller, most):
        """Asks for pages of at most so many ids until nothing more changed."""
        while self.take_page(answered(caller, *self.page(most))):
            pass

    def page(self, most):
        asked = []
        for kind in KINDS:
            changes = f"c{len(asked)}"
            asked.append((f"{kind}/changes", {"accountId": self.account, "sinceState": self.has.states[kind], "maxChanges": most}))
            for path in ("/created", "/updated"):
                asked.append((f"{kind}/get", {"accountId": self.account, "#ids": {"resultOf": changes, "name": f"{kind}/changes", "path": path}}))
        asked.append(("CalendarEvent/queryChanges", {"accountId": self.account, "sort": SORT, "sinceQueryState": self.has.query_state}))
        return asked

    def take_page(self, responses):
        """Takes what changed, and gives whether there is more."""
        told = [arguments for _, arguments in responses]
        for place, kind in enumerate(KINDS):
            changes, *gets = told[3 * place : 3 * place + 3]
            objects = self.has.objects[kind]
            for gone in [*changes["destroyed"], *(missing for got in gets for missing in got["notFound"])]:
                objects.pop(gone, None)
            objects.update((item["id"], item) for got in gets for item in got["list"])
            self.has.states[kind] = changes["newState"]
        self.take_order(told[-1])
        return told[0]["hasMoreChanges"] or told[3]["hasMoreChanges"]

    def take_order(self, changes):
        removed = set(changes["removed"])
        ids = [id for id in self.has.ids if id not in removed]
        for item in sorted(changes["added"], key=lambda item: item["index"]):
            ids.insert(item["index"], item["id"])
        self.has.ids, self.has.query_state = ids, changes["newQueryState"]


class Writer:
    """A client with a calendar of its own, which it renames, and events that it makes, changes and removes. In the account of rooms they are bookings of the one room."""

    def __init__(self, name, account, seed):
        self.name, self.account, self.random = name, account, random.Random(seed)
        self.copy = Copy(account)
        self.sure = {}  # what was answered: the name of the calendar, and of each event what is compared
        self.ids = {}
        self.cut = []  # the calls of the request whose answer hasn't come
        self.changes = dict.fromkeys(KINDS, 0)
        self.made = self.requests = 0
        self.wrong = None

    # ---- what it asks for

    def next_number(self):
        self.made += 1
        return self.made

    def drawn(self):
        """A time for an event, and after how many weeks it comes again: 0 where it doesn't."""
        start = MONDAY + datetime.timedelta(weeks=self.random.randrange(FIRST_WEEKS), days=self.random.randrange(DAYS), hours=self.random.randrange(HOURS))
        return start.isoformat(), self.random.choice((0, 0, 1, 2))

    def event(self, title, start, interval):
        calendar = self.ids["room" if self.account == ROOMS else "calendar"]
        rules = {"recurrenceRules": [{"@type": "RecurrenceRule", "frequency": "weekly", "interval": interval}]} if interval else {}
        return {"calendarIds": {calendar: True}, "timeZone": ZONE["name"], "title": title, "start": start, "duration": "PT1H", **rules}

    def making(self):
        """Makes some events; of bookings one, since each may be refused by itself."""
        edits, create = {}, {}
        for _ in range(1 if self.account == ROOMS else self.random.randint(1, 3)):
            key = f"{self.name}-{self.next_number()}"
            edits[key] = (key, *self.drawn())
            create[key] = self.event(*edits[key]) | {"uid": key}
        return Step("CalendarEvent/set", {"accountId": self.account, "create": create}, edits)

    def changing(self, key):
        _, _, interval = self.sure[key]
        title, (start, _) = f"{key} again {self.next_number()}", self.drawn()
        return Step("CalendarEvent/set", {"accountId": self.account, "update": {self.ids[key]: {"title": title, "start": start}}}, {key: (title, start, interval)})

    def removing(self, key):
        return Step("CalendarEvent/set", {"accountId": self.account, "destroy": [self.ids[key]]}, {key: None})

    def renaming(self):
        name = f"{self.name} {self.next_number()}"
        return Step("Calendar/set", {"accountId": self.account, "update": {self.ids["calendar"]: {"name": name}}}, {"calendar": name})

    def next_steps(self):
        """The calls of the next request: one, or two of which the first renames."""
        own = [key for key in self.sure if key != "calendar"]
        draw = self.random.random()
        if len(own) >= MAX_OWN or (own and draw < 0.2):
            steps = [self.removing(self.random.choice(own))]
        elif own and draw < 0.5:
            steps = [self.changing(self.random.choice(own))]
        else:
            steps = [self.making()]
        return [self.renaming(), *steps] if self.random.random() < 0.2 else steps

    # ---- what is answered

    def write(self, caller):
        self.cut = self.next_steps()
        responses = answered(caller, *[(step.method, step.arguments) for step in self.cut])
        for step, (_, arguments) in zip(self.cut, responses):
            self.take(step, arguments)
        self.cut = []

    def take(self, step, arguments):
        """Takes up what a call changed. Nothing but a clash of bookings may be refused."""
        created = arguments["created"] or {}
        changed = {*(arguments["updated"] or {}), *(arguments["destroyed"] or [])}
        edits = {key: value for key, value in step.edits.items() if key in created or self.ids.get(key) in changed}
        refused = [error for member in ("notCreated", "notUpdated", "notDestroyed") for error in (arguments[member] or {}).values()]
        allowed = {"clash"} if self.account == ROOMS else set()
        assert {error["type"] for error in refused} <= allowed and len(edits) + len(refused) == len(step.edits), f"{step} was answered {arguments}"
        self.ids.update((key, made["id"]) for key, made in created.items())
        self.sure = edited(self.sure, edits)
        self.changes[kind_of(step.method)] += len(edits)

    def read(self, caller):
        """Reads its own events back."""
        own = {self.ids[key]: value for key, value in self.sure.items() if key != "calendar"}
        [(_, arguments)] = answered(caller, ("CalendarEvent/get", {"accountId": self.account, "ids": list(own)}))
        found = {item["id"]: compared(item) for item in arguments["list"]}
        assert found == own, f"{self.name} reads {found}, and not {own}"

    def work(self, caller, until):
        """Writes, reads and syncs until the server is ended."""
        try:
            while time.monotonic() < until:
                self.requests += 1
                draw = self.random.random()
                if draw < 0.7:
                    self.write(caller)
                elif draw < 0.8:
                    self.read(caller)
                else:
                    self.copy.sync(caller, self.random.choice((1, 5, 100)))
        except Cut:
            pass
        except Exception as error:
            self.wrong = error

    # ---- what is found

    def outcomes(self):
        """What may be found: what was answered, and what came with each call of the request that was cut off."""
        views = [self.sure]
        for step in self.cut:
            views.append(edited(views[-1], step.edits))
        return views

    def settle(self, has):
        """Takes up what is found behind a start, and gives how many calls of a request that was cut off are there."""
        own = {item["uid"]: item for item in has.objects["CalendarEvent"].values() if item["uid"].startswith(f"{self.name}-")}
        calendar = has.objects["Calendar"].get(self.ids["calendar"], {})
        found = {key: compared(item) for key, item in own.items()} | {"calendar": calendar.get("name")}
        views = self.outcomes()
        assert found in views, f"{self.name} finds {found}, and not one of {views}"
        kept = views.index(found)
        for step in self.cut[:kept]:
            self.changes[kind_of(step.method)] += len(step.edits)
        self.sure, self.cut = found, []
        self.ids.update((key, item["id"]) for key, item in own.items())
        return kept


def compared(item):
    """What is compared of an event: its title, its start, and after how many weeks it comes again."""
    rules = item.get("recurrenceRules")
    return item["title"], item["start"], rules[0]["interval"] if rules else 0


def hours(booking):
    """The hours that a booking takes of the room."""
    _, start, interval = booking
    first = datetime.datetime.fromisoformat(start)
    return {first + datetime.timedelta(weeks=week) for week in (range(0, WEEKS, interval) if interval else (0,))}


class Team:
    """All clients: some write in the account of a team, the others book the room of another account."""

    def __init__(self, seed):
        self.writers = {account: [Writer(f"{account}w{number}", account, f"{seed} {account} {number}") for number in range(WRITERS)] for account in (TEAM, ROOMS)}
        self.room = None
        self.found_behind = 0

    def everybody(self):
        return [writer for writers in self.writers.values() for writer in writers]

    def begin(self, server):
        """Makes the calendars and the room."""
        with server.calling() as caller:
            made = caller.did("Calendar/set", {"accountId": ROOMS, "create": {"room": {"name": "Room", "resourceZone": ZONE["name"]}}})
            self.room = made["created"]["room"]["id"]
            for account, writers in self.writers.items():
                made = caller.did("Calendar/set", {"accountId": account, "create": {writer.name: {"name": writer.name} for writer in writers}})
                for writer in writers:
                    writer.ids = {"room": self.room, "calendar": made["created"][writer.name]["id"]}
                    writer.sure = {"calendar": writer.name}
            for writer in self.everybody():
                writer.copy.begin(caller)

    def load(self, server, seconds, by=signal.SIGKILL):
        """Lets everybody work for some seconds, and ends the server under them; gives its exit status."""
        callers = [server.caller() for _ in self.everybody()]
        until = time.monotonic() + seconds + SECONDS
        threads = [threading.Thread(target=writer.work, args=(caller, until)) for writer, caller in zip(self.everybody(), callers)]
        for thread in threads:
            thread.start()
        time.sleep(seconds)
        are_served = all(thread.is_alive() for thread in threads)
        status = server.end(by)
        for thread in threads:
            thread.join(2 * SECONDS)
        for caller in callers:
            caller.close()
        for writer in self.everybody():
            if writer.wrong:
                raise writer.wrong
        assert are_served, "a connection was ended before the server was"
        return status

    def check(self, server):
        """Behind a start: all that was answered is there, nothing else but what was cut off, and everybody goes on from where they were."""
        with server.calling() as caller:
            for account, writers in self.writers.items():
                has = fresh(caller, account)
                self.found_behind += sum(writer.settle(has) for writer in writers)
                self.check_counts(account, has)
                for writer in writers:
                    writer.copy.sync(caller, 100)
                    assert writer.copy.has == has, f"{writer.name} came by changes to {writer.copy.has}, and not to {has}"
            self.check_room(caller)

    def check_counts(self, account, has):
        """Nobody else's objects are there, and the states have counted each change once."""
        writers = self.writers[account]
        rooms = int(account == ROOMS)
        calendars = len(writers) + rooms
        assert len(has.objects["Calendar"]) == calendars, f"{account} has the calendars {has.objects['Calendar']}"
        events = sum(len(writer.sure) - 1 for writer in writers)
        assert len(has.objects["CalendarEvent"]) == events == len(has.ids), f"{account} has other events than {events}"
        counted = {kind: sum(writer.changes[kind] for writer in writers) for kind in KINDS}
        wanted = {"Calendar": f"0-{calendars + counted['Calendar']}", "CalendarEvent": f"0-{counted['CalendarEvent']}"}
        assert has.states == wanted, f"{account} has the states {has.states}, and not {wanted}"

    def check_room(self, caller):
        """No hour of the room is booked twice, and an hour that is booked is refused."""
        bookings = [value for writer in self.writers[ROOMS] for key, value in writer.sure.items() if key != "calendar"]
        taken = set()
        for booking in bookings:
            assert not taken & hours(booking), f"an hour of {booking} is booked twice: {bookings}"
            taken |= hours(booking)
        for title, start, _ in bookings[:1]:
            writer = self.writers[ROOMS][0]
            again = {"again": writer.event("again", start, 0)}
            [(_, arguments)] = answered(caller, ("CalendarEvent/set", {"accountId": ROOMS, "create": again}))
            refused = (arguments["notCreated"] or {}).get("again", {}).get("type")
            assert refused == "clash", f"an hour of {title} was booked again: {arguments}"
