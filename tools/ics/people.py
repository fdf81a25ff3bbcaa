"""Organizers and attendees (RFC 5545 sections 3.8.4.1 and 3.8.4.3) and participants (RFC 8984 section 4.4.6)."""

import hashlib
from urllib.parse import quote

from lines import Line

# Whoever has a name alone is told by an address that leads nowhere (RFC 2606 section 2).
NOWHERE = "@name.invalid"
ROLES = {
    "CHAIR": {"attendee", "chair"},
    "REQ-PARTICIPANT": {"attendee"},
    "OPT-PARTICIPANT": {"attendee", "optional"},
    "NON-PARTICIPANT": {"informational"},
}
KINDS = {"INDIVIDUAL": "individual", "GROUP": "group", "RESOURCE": "resource", "ROOM": "location"}
STATUSES = {it.upper(): it for it in ("needs-action", "accepted", "declined", "tentative", "delegated")}


def id_of(address):
    """The Id of the participant with an address, which is the same at each import."""
    return hashlib.sha256(address.lower().encode()).hexdigest()[:16]


def person(line):
    """A participant without roles, and the parameters that it holds."""
    address, told, held = line.value, {"@type": "Participant"}, set()
    if line.params.get("CN"):
        told["name"] = line.params["CN"]
        held.add("CN")
    if address.lower().endswith(NOWHERE):
        return told, held
    if address.lower().startswith("mailto:"):
        return told | {"email": address[7:], "sendTo": {"imip": address}}, held
    return told | {"sendTo": {"other": address}}, held


def attendee(line):
    """A participant of an ATTENDEE, and the parameters that it holds."""
    told, held = person(line)
    role = line.params.get("ROLE", "REQ-PARTICIPANT")
    told["roles"] = {it: True for it in ROLES.get(role, {"attendee"})}
    for name, key, words in (("CUTYPE", "kind", KINDS), ("PARTSTAT", "participationStatus", STATUSES)):
        if line.params.get(name) in words:
            told[key] = words[line.params[name]]
            held.add(name)
    if line.params.get("RSVP", "").upper() == "TRUE":
        told["expectReply"] = True
    if line.params.get("RSVP", "").upper() in ("TRUE", "FALSE"):
        held.add("RSVP")
    if role in ROLES:
        held.add("ROLE")
    return told, held


def organizer(line):
    told, held = person(line)
    return told | {"roles": {"owner": True}}, held


def address_of(participant):
    """The calendar address of a participant, or None where it has none."""
    ways = participant.get("sendTo", {})
    return ways.get("imip") or next(iter(ways.values()), None) or (f"mailto:{participant['email']}" if participant.get("email") else None)


def params_of(participant, *more):
    return {"CN": participant["name"]} | dict(more) if participant.get("name") else dict(more)


def lines_of(participant):
    """The lines of a participant: it is organizer, attendee or both."""
    value = address_of(participant) or f"mailto:{quote(participant.get('name', ''))}{NOWHERE}"
    roles = set(participant["roles"])
    found = [Line("ORGANIZER", params_of(participant), value)] if "owner" in roles else []
    rest = roles - {"owner"}
    if rest:
        more = [("ROLE", next((role for role, it in ROLES.items() if it == rest and role != "REQ-PARTICIPANT"), None))]
        more.append(("CUTYPE", next((word for word, it in KINDS.items() if it == participant.get("kind")), None)))
        more.append(("PARTSTAT", participant.get("participationStatus", "").upper() or None))
        more.append(("RSVP", "TRUE" if participant.get("expectReply") else None))
        found.append(Line("ATTENDEE", params_of(participant, *[it for it in more if it[1]]), value))
    return found
