"""What an inspector asks, as lines of a script (docs/FORMATS.md): the messages of its program, and
the shortest list of `on` lines that is found for what it answers to each notice of a run.
"""
from collections import Counter, defaultdict
from dataclasses import dataclass
from functools import lru_cache
from math import gcd
from operator import eq
from typing import NamedTuple

VERDICTS = {0: "drop", 1: "accept", 4: "repeat"}
ALL_BITS = 0xFFFFFFFF
PAYLOAD = 2048   # bytes that a script's payload has at most
ASKS = 8         # of an `on` line
DATAGRAM = 4096  # bytes of a `raw` ask
STEPS = 24       # lines with conditions other than an id that are looked for
DEFAULTS = 3     # most frequent answers that are tried as the last line
PERIODS = 100    # the largest N of `every N` that is tried without a cause
FIT = 1000       # lines of a port: what can't come down to so many isn't looked at further


class Ask(NamedTuple):
    """A message. Of a verdict the queue and the id are None where they are the notice's own."""
    kind: str  # verdict, bind, unbind
    queue: int | None
    id: int | None = None
    verdict: int = 0
    mark: int | None = None
    payload: bytes | None = None
    settings: tuple = ()  # of bind: mode, range, longest queue


NOTHING = ()
ACCEPT = (Ask("verdict", None, None, 1),)


@dataclass(slots=True)
class Notice:
    """A notice that a port received."""
    port: int
    queue: int
    id: int
    packet: int
    visit: int
    table: int
    mark: int
    protocol: int
    time: float
    data: bytes
    shown: bytes | None  # None without the copy mode PACKET
    count: int = 0       # among those of its port, from 1 on


def relative(ask, notice):
    """The ask with `this` where it is about the notice's packet."""
    if ask.kind == "verdict" and (ask.queue, ask.id) == (notice.queue, notice.id):
        return ask._replace(queue=None, id=None)
    return ask


def absolute(ask, notice):
    if ask.kind == "verdict" and ask.queue is None:
        return ask._replace(queue=notice.queue, id=notice.id)
    return ask


# ---- words


def words(ask):
    if ask.kind == "unbind":
        return f"config {ask.queue} unbind"
    if ask.kind == "bind":
        mode, size, longest = ask.settings
        name = {0: "none", 1: "meta", 2: "packet"}.get(mode, mode)
        length = "" if longest == 1024 else f" maxlen {longest}"
        shown = 0 if mode != 2 or size >= 65531 else size
        return f"config {ask.queue} bind params {name} {shown}{length}"
    target = "this {} this" if ask.queue is None else f"{ask.queue} {{}} {ask.id}"
    text = "verdict " + target.format(VERDICTS[ask.verdict])
    if ask.mark is not None:
        text += f" mark {ask.mark}"
    return text if ask.payload is None else f"{text} payload {ask.payload.hex()}"


def attribute(kind, content):
    head = (len(content) + 4).to_bytes(2, "little") + kind.to_bytes(2, "little")
    return head + content + bytes(-len(content) % 4)


def message(ask, port, call):
    """A verdict as the message that the program makes of it."""
    body = bytes(2) + ask.queue.to_bytes(2, "big")
    body += attribute(2, ask.verdict.to_bytes(4, "big") + ask.id.to_bytes(4, "big"))
    if ask.mark is not None:
        body += attribute(3, ask.mark.to_bytes(4, "big"))
    if ask.payload is not None:
        body += attribute(10, ask.payload)
    head = (16 + len(body)).to_bytes(4, "little") + b"\x01\x03\x01\x00"
    return head + call.to_bytes(4, "little") + port.to_bytes(4, "little") + body


def asks_words(asks, port=0, call=0, most=ASKS):
    """The asks of a line. More than a line takes are put together into datagrams, where `call` is
    the number of the port's messages before them. None where a script can't say it."""
    if any(ask.payload is not None and len(ask.payload) > PAYLOAD for ask in asks):
        return None
    if not asks:
        # A datagram that is no message asks nothing, and leaves no trace.
        return ["raw 00"]
    if len(asks) <= most:
        return [words(ask) for ask in asks]
    if any(ask.kind != "verdict" or ask.queue is None for ask in asks):
        return None
    datagrams = [b""]
    for place, ask in enumerate(asks, 1):
        text = message(ask, port, (call + place) & ALL_BITS)
        if len(datagrams[-1]) + len(text) > DATAGRAM:
            datagrams.append(b"")
        datagrams[-1] += text
    return [f"raw {text.hex()}" for text in datagrams] if len(datagrams) <= most else None


# ---- conditions


def features(notice):
    """What conditions see of a notice, but for its id and its count: queue, protocol, length,
    mark."""
    shown = notice.shown
    if shown is None:
        return notice.queue, None, None, notice.mark
    return notice.queue, protocol_of(shown[:40]), len(notice.data), notice.mark


@lru_cache(maxsize=65536)
def protocol_of(head):
    if len(head) >= 20 and head[0] >> 4 == 4:
        return head[9]
    return head[6] if len(head) >= 40 and head[0] >> 4 == 6 else None


def holds(condition, notice, seen):
    name, value = condition
    if name == "id":
        return notice.id == value
    if name == "every":
        return notice.count % value == 0
    queue, protocol, length, mark = seen
    if name == "queue":
        return queue == value
    if name == "proto":
        return protocol == value
    if name == "mark":
        return mark & value[1] == value[0]
    return length is not None and length > value


def condition_words(condition):
    name, value = condition
    return f"mark {value[0]}/{value[1]}" if name == "mark" else f"{name} {value}"


class Lines:
    """The `on` lines of a port: those for a single id, those for kinds of notices, and what is
    answered to all others."""

    def __init__(self, ids=None, kinds=(), otherwise=ACCEPT):
        self.ids, self.kinds, self.otherwise = ids or {}, list(kinds), otherwise

    def answer(self, notice):
        found = self.ids.get((notice.queue, notice.id))
        if found is not None:
            return found
        seen = features(notice)
        for conditions, answer in self.kinds:
            if all(holds(condition, notice, seen) for condition in conditions):
                return answer
        return self.otherwise

    def count(self):
        return len(self.ids) + len(self.kinds) + (self.otherwise != NOTHING)

    def text(self, port, calls):
        """The lines in words, None for one that a script can't have."""
        queues = {queue for queue, _ in self.ids}
        for (queue, name), answer in self.ids.items():
            where = f"id {name}" if len(queues) == 1 and not self.is_shared else \
                f"queue {queue} and id {name}"
            yield self.line(where, answer, port, calls.get((queue, name), 0))
        for conditions, answer in self.kinds:
            yield self.line(" and ".join(map(condition_words, conditions)), answer, port, 0)
        if self.otherwise != NOTHING:
            yield self.line("any", self.otherwise, port, 0)

    is_shared = False  # whether the port has notices of several queues

    @staticmethod
    def line(where, answer, port, call):
        asked = asks_words(answer, port, call)
        return None if asked is None else f"on {where} do {' ; '.join(asked)}"


# ---- the search


def shortest(notices, answers):
    """The fewest lines that are found for these answers, given in `this` where it fits. None where
    two notices that no condition tells apart have two answers."""
    numbers = {}
    wanted = [numbers.setdefault(answer, len(numbers)) for answer in answers]
    kinds = list(numbers)
    seen = [features(notice) for notice in notices]
    best = None
    for default, _ in Counter(wanted).most_common(DEFAULTS):
        found = grow(notices, seen, wanted, default)
        size = len(found[0]) + len(found[1]) + (kinds[default] != NOTHING)
        if best is None or size < best[0]:
            best = size, found, default
    if best is None:
        return Lines(otherwise=ACCEPT)
    _, (wrong, lines), default = best
    ids = {}
    for place in wrong:
        notice = notices[place]
        ids[notice.queue, notice.id] = kinds[wanted[place]]
    made = Lines(ids, [(conditions, kinds[kind]) for conditions, kind in lines], kinds[default])
    made.is_shared = len({notice.queue for notice in notices}) > 1
    is_right = all(made.answer(notice) == answer for notice, answer in zip(notices, answers))
    return made if is_right else None


def grow(notices, seen, wanted, default):
    """Puts line before line while that leaves fewer ids to name. Answers the places of the
    notices that are still wrong, and the lines."""
    told, lines = [default] * len(wanted), []
    wrong = len(wanted) - wanted.count(default)
    for left in range(STEPS, 0, -1):
        if wrong < 2:
            break
        gain, conditions, kind = max(candidates(seen, told, wanted), key=lambda one: one[0],
                                     default=(0, (), 0))
        if gain < 2 or wrong - gain * left > FIT:
            break
        wrong -= gain
        lines.insert(0, (conditions, kind))
        for place, notice in enumerate(notices):
            if all(holds(condition, notice, seen[place]) for condition in conditions):
                told[place] = kind
    return [place for place, (one, other) in enumerate(zip(told, wanted)) if one != other], lines


def candidates(seen, told, wanted):
    """Conditions that could be put first, each with its best answer and by how many it leaves
    fewer wrong."""
    groups = defaultdict(Counter)
    for place, feature in enumerate(seen):
        groups[feature][told[place], wanted[place]] += 1
    for conditions in partitions(groups):
        cells = defaultdict(list)
        for feature, counts in groups.items():
            cells[conditions(feature)].append((feature[2], counts))
        for cell, members in cells.items():
            if cell is not None:
                yield from sweep(cell, members)
    # Last, as a count is no matter of the packet: of two that are as good the first is taken.
    yield from periods(told, wanted)


def partitions(groups):
    """Functions from a notice's features to conditions that hold of it."""
    queues, protocols, _, marks = map(set, zip(*groups))
    changing = 0
    for mark in marks:
        changing |= mark ^ min(marks)
    tests = []
    if len(queues) > 1:
        tests.append(lambda seen: ("queue", seen[0]))
    if len(protocols) > 1:
        tests.append(lambda seen: None if seen[1] is None else ("proto", seen[1]))
    if changing:
        tests.append(lambda seen: ("mark", (seen[3], ALL_BITS)))
    yield lambda seen: ()
    for place, test in enumerate(tests):
        yield lambda seen, test=test: both(test(seen))
        for other in tests[place + 1:]:
            yield lambda seen, test=test, other=other: both(test(seen), other(seen))
    for bit in range(32):
        if changing >> bit & 1:
            yield lambda seen, bit=1 << bit: (("mark", (seen[3] & bit, bit)),)


def both(*conditions):
    return None if None in conditions else conditions


def sweep(cell, members):
    """A cell of notices as a whole, and those of it that are longer than some length."""
    members.sort(key=lambda member: -1 if member[0] is None else member[0], reverse=True)
    have, right, best = Counter(), 0, None
    for place, (length, counts) in enumerate(members):
        for (told, wanted), number in counts.items():
            have[wanted] += number
            right += number * (told == wanted)
            if best is None or have[wanted] > have[best]:
                best = wanted
        after = members[place + 1][0] if place + 1 < len(members) else None
        if place + 1 == len(members):
            if cell:
                yield have[best] - right, cell, best
        elif length is not None and after != length:
            yield have[best] - right, (*cell, ("longer", after or 0)), best


def periods(told, wanted):
    """Each N-th notice, for small N and for those that all wrong places of an answer share."""
    places = Counter()
    for place, (one, other) in enumerate(zip(told, wanted), 1):
        if one != other:
            places[other] = gcd(places[other], place)
    for period in sorted({*range(2, min(PERIODS, len(told)) + 1), *places.values()} - {0, 1}):
        want = wanted[period - 1::period]
        kind, number = Counter(want).most_common(1)[0]
        yield number - sum(map(eq, told[period - 1::period], want)), (("every", period),), kind
