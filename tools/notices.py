"""The notices of a run in the order in which their ports received them, and a forecast of those of
the next run, where a port's answers change which packets come again.

A forecast decides nothing: it is what the next script is written for, and the run with that script
shows whether it was right.
"""
from collections import OrderedDict, defaultdict, deque
from dataclasses import dataclass, field, replace

from answers import Notice
from formats import IPV4, Entry, read_journal

DROP, REPEAT = 0, 4


def shown(one, modes):
    """The bytes of a packet that a notice of its queue shows; None for a mode that shows none."""
    mode, size = modes.get(one.queue, (0, 0))
    return one.data[:size] if mode == 2 else None


@dataclass
class Seen:
    """What is known of a run: its notices in order, and the first arrival of each packet, as
    Notice too. `late` are the notices that came once the ports began to end."""
    notices: list = field(default_factory=list)
    late: list = field(default_factory=list)
    firsts: list = field(default_factory=list)
    ways: dict = field(default_factory=dict)  # (packet, visit, verdict, mark): where it came next


class Reading:
    """A journal, read for its notices. `modes` are the copy modes and ranges by queue, and `ends`
    how many messages each port sends at the end."""

    def __init__(self, journal, modes, ends, pace):
        self.modes, self.ends, self.pace = modes, ends, pace
        self.arrivals, self.owners = {}, {}
        self.moves = defaultdict(list)  # (port, call): packets and visits that left by it
        self.left = {}                  # (packet, visit): verdict and mark with which it went on
        self.logs = defaultdict(list)   # by port: its notices as keys, its messages as calls
        for line in read_journal(journal):
            if isinstance(line, Entry):
                self.entry(line)
            elif line.kind == "R":
                self.logs[line.port].append((line.packet, line.visit))
                self.owners[line.packet, line.visit] = line.port
            elif line.kind == "S":
                self.logs[line.port].append(line.call)

    def entry(self, entry):
        if entry.kind == "A":
            self.arrivals[entry.packet, entry.visit] = Notice(
                0, entry.queue, entry.id, entry.packet, entry.visit, entry.table, entry.mark,
                entry.protocol, entry.time(), entry.data, shown(entry, self.modes))
        elif entry.kind == "M" and entry.request.kind == "verdict":
            for packet, visit in entry.left:
                self.moves[entry.port, entry.call].append((packet, visit))
                before = self.arrivals[packet, visit].mark if (packet, visit) in self.arrivals \
                    else 0
                mark = entry.request.value["mark"]
                self.left[packet, visit] = (entry.request.verdict & 255,
                                            before if mark is None else mark)

    def seen(self):
        seen = Seen()
        seen.firsts = sorted((one for one in self.arrivals.values() if one.visit == 1),
                             key=lambda one: one.packet)
        for (packet, visit), (verdict, mark) in self.left.items():
            after = self.arrivals.get((packet, visit + 1))
            seen.ways[packet, visit, verdict, mark] = after and (after.queue, after.table)
        order = self.order([one.packet for one in seen.firsts])
        counts = defaultdict(int)
        for key in order:
            seen.notices.append(self.notice(key, counts))
        received = set(order)
        seen.late = [self.notice(key, counts) for key in self.owners if key not in received]
        return seen

    def notice(self, key, counts):
        notice, port = self.arrivals[key], self.owners[key]
        counts[port] += 1
        return replace(notice, port=port, count=counts[port])

    def order(self, packets):
        """The notices of all ports as they were received, by the schedule of `play`."""
        logs = {port: deque(log) for port, log in self.logs.items()}
        lasts = {}
        for port, log in logs.items():
            calls = [call for call in log if not isinstance(call, tuple)]
            ends = self.ends.get(port, 0)
            lasts[port] = calls[len(calls) - ends] if ends else None
        order, posted = [], set()
        for group in groups(packets, self.pace):
            posted.update((packet, 1) for packet in group)
            while any([self.receive(port, log, posted, order, lasts[port])
                       for port, log in logs.items()]):
                pass
        return order

    def receive(self, port, log, posted, order, last):
        """A port's turn: it receives a notice, where one has come, and answers it."""
        while log and not isinstance(log[0], tuple):
            call = log[0]
            if last is not None and call >= last:
                return False
            log.popleft()
            posted.update((packet, visit + 1) for packet, visit in self.moves[port, call])
        if not log or log[0] not in posted:
            return False
        order.append(log.popleft())
        while log and not isinstance(log[0], tuple) and (last is None or log[0] < last):
            call = log.popleft()
            posted.update((packet, visit + 1) for packet, visit in self.moves[port, call])
        return True


def groups(packets, pace):
    """The packets between which mailboxes are emptied."""
    group, of = [], None
    for packet in packets:
        number = (packet - 1) // pace if pace else 0
        if group and number != of:
            yield group
            group = []
        group.append(packet)
        of = number
    yield group


class Forecast:
    """What the next run's notices will be, by what was seen of ways from queue to queue so far."""

    def __init__(self, owners, lengths, modes, mail, pace):
        """The port of each queue, how many packets may wait there, and its copy mode and range."""
        self.owners, self.lengths, self.modes = owners, lengths, modes
        self.mail, self.pace = mail, pace
        self.ways, self.kinds = {}, {}

    def learn(self, seen):
        """Keeps where packets came next, by what was decided; and of packets of a kind, where one
        of them came."""
        self.firsts = seen.firsts
        self.ways = seen.ways
        places = {(one.packet, one.visit): one for one in seen.notices}
        for (packet, visit, verdict, mark), way in seen.ways.items():
            if (packet, visit) in places:
                self.kinds[self.kind(places[packet, visit], verdict, mark)] = way

    @staticmethod
    def is_needed(seen, answers):
        """Whether the next run may have other notices than this one."""
        return any(one.visit > 1 for one in seen.notices) or any(
            ask.kind != "verdict" or ask.verdict == REPEAT for asks in answers for ask in asks)

    @staticmethod
    def kind(notice, verdict, mark):
        data = notice.data
        protocol = data[9:10] if notice.protocol == IPV4 else data[6:7]
        return notice.queue, notice.table, notice.protocol, protocol, verdict, mark

    def notices(self):
        """The notices in order; sent back are what the ports ask at each, as (port, ask)."""
        self.ports, self.held = dict(self.owners), defaultdict(list)
        self.last, self.counts = defaultdict(int), defaultdict(int)
        self.waits, self.mails = defaultdict(OrderedDict), defaultdict(deque)
        firsts = {one.packet: one for one in self.firsts}
        ports = sorted(set(self.owners.values()))
        for group in groups(list(firsts), self.pace):
            for packet in group:
                self.arrive(firsts[packet])
            while any(self.mails.values()):
                for port in ports:
                    if self.mails[port]:
                        self.answered(port, (yield self.received(port)))

    def arrive(self, one):
        queue = one.queue
        if queue not in self.ports or len(self.waits[queue]) >= self.lengths[queue]:
            return
        self.last[queue] += 1
        mails = self.mails[self.ports[queue]]
        if len(mails) >= self.mail:
            return
        notice = replace(one, port=self.ports[queue], id=self.last[queue],
                         shown=shown(one, self.modes))
        self.waits[queue][notice.id] = notice
        mails.append(notice)

    def received(self, port):
        self.counts[port] += 1
        notice = self.mails[port].popleft()
        notice.count = self.counts[port]
        return notice

    def answered(self, port, asked):
        """Carries out what a port asks at its notice. What another asks waits for one of its."""
        for other, ask in asked:
            self.held[other].append(ask)
        for ask in self.held.pop(port, []):
            self.carry_out(ask, port)

    def carry_out(self, ask, port):
        if ask.kind == "unbind":
            self.ports.pop(ask.queue, None)
            self.waits[ask.queue].clear()
            self.last[ask.queue] = 0
        elif ask.kind == "bind":
            self.ports.setdefault(ask.queue, port)
            self.lengths.setdefault(ask.queue, ask.settings[2])
            self.modes.setdefault(ask.queue, ask.settings[:2])
        else:
            self.decide(ask)

    def decide(self, ask):
        notice = self.waits[ask.queue].pop(ask.id, None)
        if notice is None or ask.verdict == DROP:
            return
        mark = notice.mark if ask.mark is None else ask.mark
        key = notice.packet, notice.visit, ask.verdict, mark
        kind = self.kind(notice, ask.verdict, mark)
        otherwise = (notice.queue, notice.table) if ask.verdict == REPEAT else None
        way = self.ways[key] if key in self.ways else self.kinds.get(kind, otherwise)
        if way is None or notice.visit >= 32:
            return
        data = notice.data if ask.payload is None else ask.payload
        self.arrive(replace(notice, queue=way[0], table=way[1], visit=notice.visit + 1,
                            mark=mark, data=data))
