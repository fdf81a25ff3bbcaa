"""A client of JMAP (RFC 8620) for one account, with a bearer token."""

import json
import urllib.error
import urllib.request

USING = ["urn:ietf:params:jmap:core", "urn:ietf:params:jmap:calendars"]
CALENDARS = USING[1]


class NoServer(Exception):
    """There is no answer, or none that a server of JMAP gives: why."""


class Refused(Exception):
    """A method was answered by an error (RFC 8620 section 3.6.2): its type."""


class Server:
    """An account of a server. Without an id it is the user's own."""

    def __init__(self, address, token, account=None):
        self.headers = {"Authorization": f"Bearer {token}"}
        self.session = self.read(urllib.request.Request(f"{address.rstrip('/')}/.well-known/jmap", headers=self.headers))
        self.address = address.rstrip("/") + urllib.parse.urlsplit(self.session["apiUrl"]).path
        self.account = account or self.session["primaryAccounts"][CALENDARS]
        if self.account not in self.session["accounts"]:
            raise NoServer(f"the user has no account {self.account}: {', '.join(self.session['accounts'])}")
        core = self.session["capabilities"][USING[0]]
        self.most = min(core["maxObjectsInGet"], core["maxObjectsInSet"])
        self.calls = core["maxCallsInRequest"]
        self.bytes = core["maxSizeRequest"]

    def read(self, request):
        try:
            with urllib.request.urlopen(request, timeout=120) as answer:
                return json.load(answer)
        except urllib.error.HTTPError as error:
            raise NoServer(f"{request.full_url} is answered {error.code} {error.reason}") from error
        except (OSError, ValueError) as error:
            raise NoServer(f"{request.full_url}: {error}") from error

    def ask(self, *calls):
        """The name and the arguments of each response."""
        made = [[name, {"accountId": self.account} | arguments, str(place)] for place, (name, arguments) in enumerate(calls)]
        body = json.dumps({"using": USING, "methodCalls": made}).encode()
        answer = self.read(urllib.request.Request(self.address, data=body, headers=self.headers | {"Content-Type": "application/json"}))
        return [(name, arguments) for name, arguments, _ in answer["methodResponses"]]

    def did(self, name, arguments):
        """The arguments of the response to one call."""
        [(told, answer)] = self.ask((name, arguments))
        if told == "error":
            raise Refused(f"{name}: {answer['type']}")
        return answer

    def known_zones(self, names):
        """Those of some names of time zones that the server knows: it takes no query in any other."""
        known = []
        for first in range(0, len(names), self.calls):
            some = names[first : first + self.calls]
            answers = self.ask(*[("CalendarEvent/query", {"timeZone": it, "limit": 0}) for it in some])
            known += [name for name, (told, _) in zip(some, answers) if told != "error"]
        return known

    def calendars(self):
        return self.did("Calendar/get", {})["list"]

    def add_calendar(self, calendar):
        answer = self.did("Calendar/set", {"create": {"it": calendar}})
        if answer["notCreated"]:
            raise Refused(f"Calendar/set: {json.dumps(answer['notCreated']['it'])}")
        return answer["created"]["it"]["id"]

    def events(self, calendar, tick):
        """The events of a calendar in order of creation; `tick` is called with how many there are and how many came."""
        found, total = [], 1
        while len(found) < total:
            # Without a sort they are in order of creation; without a limit as many come as the server tells at once.
            query = {"filter": {"inCalendar": calendar}, "position": len(found), "calculateTotal": True}
            answer = self.did("CalendarEvent/query", query)
            ids, total = answer["ids"], answer["total"]
            for first in range(0, len(ids), self.most):
                found += self.did("CalendarEvent/get", {"ids": ids[first : first + self.most]})["list"]
                tick(total, len(found))
            if not ids:
                break
        return found

    def set(self, create, update):
        """What was not created and not updated, by their keys: each SetError."""
        answer = self.did("CalendarEvent/set", {"create": create, "update": update})
        return (answer["notCreated"] or {}) | (answer["notUpdated"] or {})
