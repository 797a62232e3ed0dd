"""A person's plan as an iCalendar file (RFC 5545): whole days, or local times where these are known. The same plan
gives the same bytes."""
import uuid
from datetime import date, datetime, time, timedelta
from typing import Dict, Iterator, List, NamedTuple, Optional, Sequence, Set

from ...lap.library import VERSION
from ..dates import Times

# Octets of a line, without its end.
WIDEST = 75
NAMESPACE = uuid.uuid5(uuid.NAMESPACE_URL, "urn:nushbaret:plan")
ESCAPES = str.maketrans({"\\": "\\\\", ";": "\\;", ",": "\\,", "\n": "\\n"})


class Event(NamedTuple):
    """What a person has on a day: the object's whole name, which says which event this is, its name as it is shown, the
    day, and the times, if these are known."""

    object: str
    label: str
    day: date
    times: Optional[Times]


class Older(NamedTuple):
    """An older file of a person: its number among the versions, the lines of its events by their UIDs, without those
    that say which version it is, and the UIDs of those that weren't cancelled."""

    sequence: int
    events: Dict[str, List[str]]
    live: Set[str]


def older_of(data: bytes) -> Optional[Older]:
    """What an older file has; None where it is no calendar of ours."""
    text = data.decode("utf-8", "replace").replace("\r\n ", "").replace("\n ", "")
    lines = text.split("\r\n")
    if not any(line.startswith("PRODID:-//Nushbaret//") for line in lines):
        return None
    older, own, sequence, is_live = Older(0, {}, set()), [""], 0, True
    for line in lines:
        if line == "BEGIN:VEVENT":
            own, is_live = [], True
        elif line.startswith("SEQUENCE:") and line[9:].isdecimal():
            sequence = max(sequence, int(line[9:]))
            continue
        elif line.startswith("STATUS:"):
            is_live = False
            continue
        own.append(line)
        if line == "END:VEVENT":
            uid = next((one[4:] for one in own if one.startswith("UID:")), "")
            older.events[uid] = own
            older.live.update({uid} if is_live else ())
            own = []
    return older._replace(sequence=sequence)


def calendar(person: str, events: Sequence[Event], first: date, older: Optional[Older] = None) -> bytes:
    """The file of a person's events; `first` is the first day of the plan, which dates a file without events. What an
    older file has and the plan has no more is cancelled, in a version one above."""
    own = {_uid(person, event.object, event.day): _event(person, event) for event in events}
    sequence, gone = 0, {}
    if older is not None:
        gone = {uid: lines for uid, lines in older.events.items() if uid not in own}
        is_same = older.live == set(own) and all(older.events[uid] == lines for uid, lines in own.items())
        sequence = older.sequence + (not is_same)
    lines = ["BEGIN:VCALENDAR", "VERSION:2.0", f"PRODID:-//Nushbaret//Nushbaret {VERSION}//EN", "CALSCALE:GREGORIAN",
             f"X-WR-CALNAME:{person.translate(ESCAPES)}"]
    version = [f"SEQUENCE:{sequence}"] if sequence else []
    for event in own.values():
        lines += [*event[:-1], *version, event[-1]]
    for event in gone.values():
        lines += [*event[:-1], "STATUS:CANCELLED", *version, event[-1]]
    if not own and not gone:
        # A calendar needs a component: this one says that no time is taken.
        lines += ["BEGIN:VFREEBUSY", f"UID:{_uid(person, '', first)}", f"DTSTAMP:{_stamp(first)}", "END:VFREEBUSY"]
    return "".join(f"{folded}\r\n" for line in [*lines, "END:VCALENDAR"] for folded in _folded(line)).encode()


def _event(person: str, event: Event) -> List[str]:
    midnight = datetime.combine(event.day, time())
    if event.times is None:
        span = [f"DTSTART;VALUE=DATE:{event.day:%Y%m%d}", f"DTEND;VALUE=DATE:{event.day + timedelta(days=1):%Y%m%d}"]
    else:
        begin, end = (midnight + timedelta(minutes=minutes) for minutes in event.times)
        span = [f"DTSTART:{begin:%Y%m%dT%H%M%S}", f"DTEND:{end:%Y%m%dT%H%M%S}"]
    return ["BEGIN:VEVENT", f"UID:{_uid(person, event.object, event.day)}", f"DTSTAMP:{_stamp(event.day)}", *span,
            f"SUMMARY:{event.label.translate(ESCAPES)}", "END:VEVENT"]


def _uid(person: str, object_: str, day: date) -> str:
    """The same for the same person, object and day, so that a new plan replaces its old events."""
    return str(uuid.uuid5(NAMESPACE, "\n".join((person, object_, day.isoformat()))))


def _stamp(day: date) -> str:
    return f"{day:%Y%m%d}T000000Z"


def _folded(line: str) -> Iterator[str]:
    """A line in parts of at most 75 octets; each but the first begins with a blank."""
    part, size = "", 0
    for letter in line:
        own = len(letter.encode())
        if size + own > WIDEST:
            yield part
            part, size = " ", 1
        part, size = part + letter, size + own
    yield part
