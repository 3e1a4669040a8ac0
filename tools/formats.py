"""Reads journals and ledgers (docs/FORMATS.md) for the tools beside it, and has their words.

A journal is read line by line, so that one of any size can be. What isn't one is refused at its
first bad line. Who waits in a queue is replayed from what the journal says: each arrival that was
taken waits, and a reply says how many left. No rule of a queue is in here.
"""
import os
import re
import sys
from collections import OrderedDict
from dataclasses import dataclass, field

from packets import IPV4, IPV6, Fragments, ends_of, ends_words, ethernet, vlan_words

# ---- the names

VERDICTS = {0: "DROP", 1: "ACCEPT", 3: "QUEUE", 4: "REPEAT", 5: "STOP"}
COMMANDS = {1: "bind", 2: "unbind", 3: "pfbind", 4: "pfunbind"}
MODES = {0: "NONE", 1: "META", 2: "PACKET"}
FLAGS = {1: "fail-open", 2: "conntrack", 4: "gso", 8: "uid-gid", 16: "secctx"}
ERRNOS = {1: "EPERM", 2: "ENOENT", 16: "EBUSY", 19: "ENODEV", 22: "EINVAL", 34: "ERANGE",
          95: "EOPNOTSUPP"}

# what became of an arrival, but for `taken`
OUTCOMES = {
    "overflow": "queue full: destroyed",
    "overflow-open": "queue full, fails open: let through",
    "userfull": "mailbox full: destroyed",
    "userfull-open": "mailbox full, fails open: let through",
    "noqueue": "nobody listens: destroyed",
    "bypassed": "nobody listens, bypass: let through",
    "copynone": "copy mode NONE: destroyed",
    "loop": "33rd visit: destroyed",
}
# what becomes of a packet by a verdict
GOES = {"DROP": "destroyed", "ACCEPT": "goes on", "STOP": "goes past all further tables",
        "REPEAT": "goes to its table again"}
# each fate: whether the packet was released, and in words
FATES = {
    "unhooked": (True, "no rule queued it"),
    "accept": (True, "accepted"),
    "stop": (True, "accepted, past all further tables"),
    "repeat": (True, "sent to its table again, and not queued there"),
    "failopen": (True, "let through: the queue or the mailbox was full, and the queue fails open"),
    "bypass": (True, "let through: nobody listened to the queue"),
    "drop": (False, "dropped by a verdict"),
    "overflow": (False, "destroyed: the queue was full"),
    "userfull": (False, "destroyed: the mailbox was full"),
    "noqueue": (False, "destroyed: nobody listened to the queue"),
    "copynone": (False, "destroyed: the queue's copy mode was NONE"),
    "loop": (False, "destroyed at its 33rd visit"),
    "unbind": (False, "destroyed as its queue was unbound"),
    "portclosed": (False, "destroyed as its port was closed"),
    "devicedown": (False, "destroyed as a device went down"),
    "waiting": (None, "still waits"),
    "nomemory": (False, "lost between two queues: out of memory"),
}

# ---- values


class Refused(Exception):
    """What was read isn't of its format."""


@dataclass
class Request:
    """What a message asks. `value` has the fields of its kind, by the journal's names; `params`
    are (MODE, RANGE). Of a verdict or batch without its header `verdict` is None."""
    kind: str
    queue: int = 0
    verdict: int | None = None
    id: int | None = None
    value: dict = field(default_factory=dict)


@dataclass
class Entry:
    """An entry of a queue's history: the `at`-th of its queue. `left` are the packets that it took
    out, as (packet, visit), and `named` is the one that waits under a verdict's id."""
    kind: str  # A, M, C or D, as in the journal
    queue: int
    at: int
    packet: int = 0
    visit: int = 0
    table: int = 0
    mark: int = 0
    priority: int = 0
    seconds: int = 0
    micros: int = 0
    protocol: int = 0
    data: bytes = b""
    outcome: str = ""
    id: int | None = None
    port: int = 0  # of D the device
    call: int = 0
    request: Request | None = None
    errno: int = 0
    taken: int = 0
    left: list = field(default_factory=list)
    named: tuple | None = None
    waiting: int = 0  # how many wait after it
    link: bytes = b""
    ends: tuple | None = None  # who sends the packet to whom

    def time(self):
        return self.seconds + self.micros / 1_000_000

    def nanoseconds(self):
        return (self.seconds * 1_000_000 + self.micros) * 1000

    def vlans(self):
        return ethernet(self.link).vlans()


@dataclass
class Logged:
    """A line of a port's log."""
    kind: str  # R, S or X
    port: int
    queue: int = 0
    packet: int = 0
    visit: int = 0
    call: int = 0
    request: Request | None = None
    answer: int | None = None


@dataclass
class Line:
    """A line of a ledger; queue and at are None where nothing queued the packet."""
    number: int
    fate: str
    queue: int | None
    at: int | None
    mark: int
    priority: int
    length: int


# ---- reading

N = "(0|[1-9][0-9]{0,9})"  # at most 32 bits
BYTES = "(-|(?:[0-9a-f]{2})+)"
MARKS = f"(?: mark {N})?"
ARRIVAL = re.compile(f"A {N} {N} {N} {N} ([yn]) ([yn]) {N} {N} {N} {N} {N} {BYTES} {BYTES} "
                     f"(?:(taken|userfull|userfull-open):{N}|"
                     "(overflow|overflow-open|noqueue|bypassed|copynone|loop))")
MESSAGE = re.compile(f"M {N} {N} {N} (.*) = {N} {N}")
LEAVING = re.compile(f"([CD]) {N} {N} {N}")
CONFIG = re.compile(f"config {N}(?: cmd {N})?(?: params {N} {N})?(?: maxlen {N})?"
                    f"(?: flags {N})?(?: mask {N})?")
VERDICT = re.compile(f"verdict {N} (?:-|{N} {N}){MARKS}(?: payload {BYTES})?(?: priority {N})?")
BATCH = re.compile(f"batch {N} (?:-|{N} {N}){MARKS}(?: priority {N})?")
RAW = re.compile(f"raw {BYTES}")
PORT = re.compile(f"P {N}")
NOTICE = re.compile(f"R {N} {N} {N}")
SENT = re.compile(f"S {N} (.*) = (?:-|{N})")
LEDGER = re.compile(f"{N} ([a-z]+) (?:- -|{N} {N}) {N} {N} {N}")
TITLE = "nfq-journal 2"
LONGEST = 1 << 20  # bytes of a line: a frame has at most 262,144, at two digits a byte


def number(text):
    return None if text is None else int(text)


def bytes_of(text):
    return b"" if text == "-" else bytes.fromhex(text)


def request_of(text, raw=False):
    """The request that the words say, or None. A `raw` one stands in logs alone."""
    if found := CONFIG.fullmatch(text):
        queue, command, mode, size, maxlen, flags, mask = map(number, found.groups())
        value = {"cmd": command, "params": None if mode is None else (mode, size),
                 "maxlen": maxlen, "flags": flags, "mask": mask}
        return Request("config", queue, value=value)
    if found := VERDICT.fullmatch(text):
        queue, verdict, name, mark, payload, priority = found.groups()
        value = {"mark": number(mark), "priority": number(priority),
                 "payload": None if payload is None else bytes_of(payload)}
        return Request("verdict", int(queue), number(verdict), number(name), value)
    if found := BATCH.fullmatch(text):
        queue, verdict, name, mark, priority = map(number, found.groups())
        return Request("batch", queue, verdict, name, {"mark": mark, "priority": priority})
    if raw and (found := RAW.fullmatch(text)):
        return Request("raw", value={"bytes": bytes_of(found[1])})
    return None


def entry_of(line):
    """The entry that a line is, without its place, or None."""
    if found := ARRIVAL.fullmatch(line):
        (queue, packet, visit, table, _, _, mark, priority, seconds, micros, protocol, link, data,
         named, name, plain) = found.groups()
        return Entry("A", int(queue), 0, int(packet), int(visit), int(table), int(mark),
                     int(priority), int(seconds), int(micros), int(protocol), bytes_of(data),
                     named or plain, number(name), link=bytes_of(link))
    if (found := MESSAGE.fullmatch(line)) and (request := request_of(found[4])):
        queue, port, call, _, errno, taken = found.groups()
        if request.queue == int(queue):
            return Entry("M", int(queue), 0, port=int(port), call=int(call), request=request,
                         errno=int(errno), taken=int(taken))
    if found := LEAVING.fullmatch(line):
        return Entry(found[1], int(found[2]), 0, port=int(found[3]), taken=int(found[4]))
    return None


def logged_of(line, port):
    """The line of a port's log that a line is, or None."""
    if found := NOTICE.fullmatch(line):
        return Logged("R", port, *map(int, found.groups()))
    if (found := SENT.fullmatch(line)) and (request := request_of(found[2], raw=True)):
        return Logged("S", port, call=int(found[1]), request=request, answer=number(found[3]))
    return Logged("X", port) if line == "X" else None


def replay(entry, waits):
    """Takes out of `waits`, id by id from the oldest, the packets that an entry takes out, or puts
    in the one that it lets wait. Answers whether there were as many as the entry says."""
    if entry.kind == "A":
        if entry.outcome == "taken":
            waits[entry.id] = (entry.packet, entry.visit)
    elif entry.request is not None and entry.request.kind == "verdict":
        entry.named = waits.get(entry.request.id)
        if entry.taken > 1 or entry.taken == 1 and entry.named is None:
            return False
        if entry.taken:
            entry.left = [waits.pop(entry.request.id)]
    elif entry.taken > len(waits):
        return False
    else:
        oldest = [name for name, _ in zip(waits, range(entry.taken))]
        entry.left = [waits.pop(name) for name in oldest]
    entry.waiting = len(waits)
    return True


def lines_of(name):
    """The lines of a file, numbered from 1, without their ends; None for one without an end, and
    for a piece that is longer than any line of a journal."""
    try:
        with open(name, encoding="latin-1", newline="\n") as file:
            for place, line in enumerate(iter(lambda: file.readline(LONGEST), ""), 1):
                yield place, line[:-1] if line.endswith("\n") else None
    except (OSError, ValueError) as error:
        raise Refused(f"{name}: {getattr(error, 'strerror', None) or error}") from None


def read_journal(name):
    """The entries of a journal, queue by queue, and then the lines of the ports' logs."""
    place, queue, at, port, waits, is_closed, is_ended = 0, -1, 0, None, None, True, False
    fragments = Fragments()
    for place, line in lines_of(name):
        if place == 1:
            if line == "nfq-journal 1":
                raise Refused(f"{name}: a journal of version 1: "
                              "nfq migrate OLD NEW writes it in version 2")
            if line != TITLE:
                raise Refused(f"{name}: not a journal: its first line isn't {TITLE}")
            continue
        found = None
        if line is None or is_ended:
            pass
        elif line == "end":
            is_ended = True
            continue
        elif header := PORT.fullmatch(line):
            port, is_closed = int(header[1]), False
            continue
        elif port is None:
            found = entry_of(line)
            if found is not None and found.queue != queue:
                found = found if found.queue > queue else None
                if found is not None:
                    queue, at, waits = found.queue, 0, OrderedDict()
            if found is not None:
                at += 1
                found.at = at
                found = found if replay(found, waits) else None
            if found is not None and found.kind == "A":
                meet(found, place, fragments)
        elif not is_closed:
            found = logged_of(line, port)
            is_closed = line == "X"
        if found is None:
            raise Refused(f"{name}:{place}: not a valid line at this place of a journal")
        yield found
    if not is_ended:
        raise Refused(f"{name}: cut short: the last line of a journal is `end`"
                      if place else f"{name}: empty, and no journal")


def meet(arrival, place, fragments):
    """Notes who sends an arrival's packet to whom; later fragments have their first one's ports."""
    ends = ends_of(arrival.protocol, arrival.data)
    fragments.learn(place, ends)
    arrival.ends = fragments.follow(place, ends)


def read_ledger(name):
    """The lines of a ledger, frame by frame."""
    place = 0
    for place, line in lines_of(name):
        if place == 1:
            if line != "record fate queue at mark priority bytes":
                raise Refused(f"{name}: not a ledger: its first line isn't the ledger's")
            continue
        found = LEDGER.fullmatch(line or "")
        if not found or int(found[1]) != place - 1 or found[2] not in FATES:
            raise Refused(f"{name}:{place}: not a valid line at this place of a ledger")
        count, fate, queue, at, mark, priority, length = found.groups()
        yield Line(int(count), fate, number(queue), number(at), int(mark), int(priority),
                   int(length))
    if not place:
        raise Refused(f"{name}: empty, and no ledger")


# ---- words


def flow(entry):
    """Who sends an arrival's packet to whom: `TCP 10.0.0.1:80 > 10.0.0.2:1024`."""
    ends = entry.ends or ends_of(entry.protocol, entry.data)
    if ends is None:
        return {IPV4: "IPv4", IPV6: "IPv6"}.get(entry.protocol, f"type {entry.protocol}")
    return ends_words(ends)


def verdict_words(value):
    """A verdict's name, and what becomes of a packet by it."""
    if value is None:
        return "no verdict", "stays"
    name = VERDICTS.get(value & 255)
    if name is None:
        return f"verdict {value}", "stays"
    if name == "QUEUE":
        bypass = " with bypass" if value & 0x8000 else ""
        return f"QUEUE {value >> 16}{bypass}", f"goes on to queue {value >> 16}"
    return name, GOES[name]


def packets_words(pairs, what):
    """`packet 3 goes on`, or `packets 1, 2 and 3: goes on`."""
    names = [str(packet) for packet, _ in (pairs if len(pairs) <= 8 else pairs[:4])]
    if len(pairs) == 1:
        return f"packet {names[0]} {what}"
    shown = ", ".join(names) if len(pairs) <= 8 else f"{', '.join(names)} .. {pairs[-1][0]}"
    return f"{len(pairs)} packets ({shown}), each {what}"


def flags_words(flags, mask):
    if flags is None:
        return f"mask {mask} without flags"
    if mask is None:
        return f"flags {flags} without mask"
    bits = [1 << bit for bit in range(32) if mask >> bit & 1]
    return ", ".join(f"{FLAGS.get(bit, f'flag {bit}')} {'on' if flags & bit else 'off'}"
                     for bit in bits) or "no flags"


def request_words(request):
    """What a message asks: `ACCEPT id 1, mark 5`, or `bind, copy mode PACKET, maxlen 1`."""
    value, parts = request.value, []
    if request.kind == "raw":
        return f"{len(value['bytes'])} raw bytes"
    if request.kind == "config":
        if value["cmd"] is not None:
            parts.append(COMMANDS.get(value["cmd"], f"command {value['cmd']}"))
        if value["params"]:
            mode, size = value["params"]
            shown = f" of {size} bytes" if mode == 2 and 0 < size < 65531 else ""
            parts.append(f"copy mode {MODES.get(mode, mode)}{shown}")
        if value["maxlen"] is not None:
            parts.append(f"maxlen {value['maxlen']}")
        if value["flags"] is not None or value["mask"] is not None:
            parts.append(flags_words(value["flags"], value["mask"]))
        return ", ".join(parts) or "an empty config"
    name, _ = verdict_words(request.verdict)
    upto = "up to id" if request.kind == "batch" else "id"
    parts.append(name if request.id is None else f"{name} {upto} {request.id}")
    parts += [f"{key} {value[key]}" for key in ("mark", "priority") if value[key] is not None]
    if value.get("payload") is not None:
        parts.append(f"a payload of {len(value['payload'])} bytes")
    return ", ".join(parts)


def errno_words(errno):
    return f"refused, {ERRNOS.get(errno, f'errno {errno}')}"


def message_words(entry):
    asked = f"port {entry.port}, message {entry.call}: {request_words(entry.request)}"
    if entry.errno:
        return f"{asked}: {errno_words(entry.errno)}"
    if not entry.left:
        return f"{asked}: done"
    is_config = entry.request.kind == "config"
    what = "destroyed" if is_config else verdict_words(entry.request.verdict)[1]
    return f"{asked}: {packets_words(entry.left, what)}"


def arrival_words(entry):
    """The packet of an arrival: `packet 2, TCP 10.0.0.1 > 10.0.0.2, 20 bytes`."""
    words = f"packet {entry.packet}, {vlan_words(entry.vlans())}{flow(entry)}, " \
            f"{len(entry.data)} bytes"
    return words + "".join(f", {name} {value}" for name, value
                           in (("mark", entry.mark), ("priority", entry.priority)) if value)


def outcome_words(entry):
    return f"waits as id {entry.id}" if entry.outcome == "taken" else OUTCOMES[entry.outcome]


def entry_words(entry):
    """An entry in words, without its place."""
    if entry.kind == "A":
        visit = f", visit {entry.visit}" if entry.visit > 1 else ""
        return f"{arrival_words(entry)}{visit}: {outcome_words(entry)}"
    if entry.kind == "M":
        return message_words(entry)
    who = f"port {entry.port} closed" if entry.kind == "C" else f"device {entry.port} went down"
    gone = packets_words(entry.left, "destroyed") if entry.left else "nothing waited"
    return f"{who}: {gone}"


def logged_words(line):
    """A line of a port's log in words."""
    if line.kind == "R":
        return f"port {line.port}: notice of packet {line.packet}, visit {line.visit}, " \
               f"from queue {line.queue}"
    if line.kind == "X":
        return f"port {line.port}: closed"
    answer = "no answer" if line.answer is None else \
        errno_words(line.answer) if line.answer else "acknowledged"
    queue = "" if line.request.kind == "raw" else f"queue {line.request.queue}, "
    return f"port {line.port}: message {line.call}: {queue}{request_words(line.request)}: {answer}"


def run_tool(main):
    """Runs a tool: what isn't of its format, or can't be written, is one line and status 1."""
    name = os.path.basename(sys.argv[0])
    if sys.stdout is None or sys.stderr is None:
        sys.exit(1)
    sys.stdout.reconfigure(encoding="utf-8", errors="surrogateescape")
    try:
        main()
        sys.stdout.flush()
        return
    except Refused as why:
        says = f"{name}: {why}"
    except BrokenPipeError:
        says = ""
    except OSError as error:
        says = f"{name}: {error.filename or 'standard output'}: {error.strerror or error}"
    except MemoryError:
        says = f"{name}: out of memory"
    except KeyboardInterrupt:
        says = ""
    try:
        sys.stdout.flush()
    except OSError:  # nothing more can be written there, at the end neither
        os.dup2(os.open(os.devnull, os.O_WRONLY), sys.stdout.fileno())
    if says:
        print(says, file=sys.stderr)
    sys.exit(1)
