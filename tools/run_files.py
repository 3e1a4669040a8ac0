"""A run by its files, for the tools beside it: what a journal tells of each packet, and whether
ledger, journal and capture are of one run. The files are gone through once; kept is what a line of
the ledger needs.
"""
from typing import NamedTuple

from captures import read_frames
from choices import is_between
from formats import FATES, Entry, Refused, entry_words, outcome_words, read_journal
from packets import Fragments, ends_of, link_of

# what an arrival's outcome makes of a packet, if nothing comes after it
ARRIVAL_FATES = {"taken": "waiting", "overflow-open": "failopen", "userfull-open": "failopen",
                 "bypassed": "bypass"}
# the same of a verdict's low 8 bits: a packet that QUEUE sent on and that came nowhere was lost
VERDICT_FATES = {0: "drop", 1: "accept", 3: "nomemory", 4: "repeat", 5: "stop"}


class First(NamedTuple):
    """A packet as it first came: in nanoseconds, its VLANs, its ends or None, and the bytes of its
    frame."""
    visit: int
    time: int
    vlans: list
    ends: tuple | None
    size: int


class Last(NamedTuple):
    """The last event of a packet: an arrival, or its leaving."""
    visit: int
    queue: int
    at: int
    fate: str
    length: int


def packets_of(entry):
    """The packets that an entry is about, as (packet, visit): they come, leave, or the one that
    its verdict names."""
    if entry.kind == "A":
        return [(entry.packet, entry.visit)]
    return entry.left or ([entry.named] if entry.named is not None else [])


def leaving_fate(entry):
    """The fate of those that leave by an entry."""
    if entry.kind != "M":
        return "portclosed" if entry.kind == "C" else "devicedown"
    if entry.request.kind == "config":
        return "unbind"
    return VERDICT_FATES.get((entry.request.verdict or 0) & 255, "nomemory")


class Told:
    """What a journal tells of each packet."""

    def __init__(self):
        self.firsts, self.lasts = {}, {}

    def note(self, entry):
        if entry.kind == "A":
            self.come(entry)
        else:
            self.leave(entry)

    def come(self, entry):
        packet, visit = entry.packet, entry.visit
        if packet not in self.firsts or visit < self.firsts[packet].visit:
            self.firsts[packet] = First(visit, entry.nanoseconds(), entry.vlans(), entry.ends,
                                        len(entry.link) + len(entry.data))
        if packet not in self.lasts or visit >= self.lasts[packet].visit:
            fate = ARRIVAL_FATES.get(entry.outcome, entry.outcome)
            self.lasts[packet] = Last(visit, entry.queue, entry.at, fate, len(entry.data))

    def leave(self, entry):
        payload = entry.request.value.get("payload") if entry.request is not None else None
        for packet, visit in entry.left:
            last = self.lasts[packet]
            if visit == last.visit:
                length = last.length if payload is None else len(payload)
                self.lasts[packet] = Last(visit, entry.queue, entry.at, leaving_fate(entry), length)


def read_told(journal, keep=None):
    """What a journal tells; each entry and line of a log is also given to `keep`."""
    told = Told()
    for line in read_journal(journal):
        if isinstance(line, Entry):
            told.note(line)
        if keep is not None:
            keep(line)
    return told


def check_ledger(name, lines, told):
    """Refuses a ledger that isn't of the run that a journal tells."""
    what = "isn't of a run with this journal"
    if strange := [packet for packet in told.lasts if not 1 <= packet <= len(lines)]:
        raise Refused(f"{name}: {what}: it has no packet {min(strange)}")
    for line in lines:
        last = told.lasts.get(line.number)
        if last is None:
            wrong = None if line.queue is None else "the journal hasn't this packet"
        elif line.fate == "nomemory":
            wrong = None
        elif (line.queue, line.at) != (last.queue, last.at):
            wrong = f"the packet's last event is entry {last.at} of queue {last.queue}"
        elif line.fate != last.fate:
            wrong = f"the packet's fate is {last.fate}"
        else:
            wrong = f"the packet has {last.length} bytes" if line.length != last.length else None
        if wrong:
            raise Refused(f"{name}: line {line.number + 1} {what}: {wrong}")


def misfit(frame, first, line):
    """What of a frame isn't as the run had it, or None."""
    size = first.size if first else line.length
    if size != len(frame.data):
        return f"frame {frame.number} has {len(frame.data)} bytes, and {size} in this run"
    if first and first.time // 1000 != frame.time // 1000:
        return f"frame {frame.number} is of another time than in this run"
    return None


def checked_frames(name, lines, told):
    """The frames of a capture, which is refused at its end where it isn't the run's."""
    count, wrong = 0, None
    for count, frame in enumerate(read_frames(name), 1):
        if count <= len(lines) and wrong is None:
            wrong = misfit(frame, told.firsts.get(count), lines[count - 1])
        yield frame
    if count != len(lines):
        wrong = f"has {count} frames, and the ledger {len(lines)}"
    if wrong:
        raise Refused(f"{name}: {wrong}")


def seen(frames):
    """The frames of a capture as they came: (its link header, First), by number."""
    fragments, found = Fragments(), []
    for frame in frames:
        link = link_of(frame.link, frame.data)
        ends = ends_of(link.type, frame.data[link.length:]) if link.is_packet() else None
        fragments.learn(frame.number, ends)
        found.append((link, First(0, frame.time, link.vlans(), ends, len(frame.data))))
    return [(link, first._replace(ends=fragments.follow(number, first.ends)))
            for number, (link, first) in enumerate(found, 1)]


def followed(firsts):
    """Packets by their numbers as they first came, later fragments with the ports of their first
    ones, also of those that came after them."""
    fragments = Fragments()
    for number, first in sorted(firsts.items()):
        fragments.learn(number, first.ends)
    return {number: first._replace(ends=fragments.follow(number, first.ends))
            for number, first in firsts.items()}


def is_of_flow(sides, ends):
    """Whether a packet is of the flow with these sides: of one, or from one of two to the other."""
    if ends is None or len(sides) != 2:
        return all(ends is not None and side.is_of(ends) for side in sides)
    source, destination = ends.ports or (None, None)
    return any(one.has(ends.source, source) and other.has(ends.destination, destination)
               for one, other in (sides, sides[::-1]))


def chosen(asked, firsts, fates):
    """The packets that `--flow`, `--from`, `--to` and `--fate` ask for, of these."""
    start = min((first.time for first in firsts.values()), default=0)
    return {number for number, first in firsts.items()
            if asked.fate in (None, fates[number]) and is_of_flow(asked.flow, first.ends)
            and is_between(first.time, start, asked.first, asked.last)}


def fate_words(fate):
    return f"{fate}: {FATES[fate][1]}"


def time_words(nanoseconds):
    seconds, rest = divmod(nanoseconds, 10**9)
    return f"at {seconds}.{rest // 1000:06} s" if rest % 1000 == 0 else f"at {seconds}.{rest:09} s"


def event_words(entry):
    if entry.kind == "A":
        how = f"visit {entry.visit}, by table {entry.table}"
        return f"queue {entry.queue} #{entry.at}, {how}: {outcome_words(entry)}"
    return f"queue {entry.queue} #{entry.at}: {entry_words(entry)}"
