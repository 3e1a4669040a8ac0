"""The ways that packets take through the chains of saved rules, to queues and past them."""
from dataclasses import dataclass, replace

from formats import Refused
from saved_rules import PROTOCOLS, Rule

DEPTH, STEPS = 200, 100_000


@dataclass(frozen=True)
class Flow:
    """The packets that come to a rule: the conditions of all rules on their way."""
    protocol: int | None = None
    not_protocols: frozenset = frozenset()
    marks: tuple = ()
    others: tuple = ()
    without: tuple = ()  # flows that left the chain before

    def meet(self, rule):
        """Those of them that meet a rule, or None."""
        if self.protocol is not None and (rule.protocol not in (None, self.protocol)
                                          or rule.not_protocol == self.protocol):
            return None
        if rule.protocol in self.not_protocols and rule.protocol is not None:
            return None
        protocol = self.protocol if rule.protocol is None else rule.protocol
        negated = {rule.not_protocol} - {None} if protocol is None else set()
        marks = marks_of((*self.marks, *rule.marks))
        if marks is None:
            return None
        others = tuple(dict.fromkeys((*self.others, *rule.others)))
        return Flow(protocol, self.not_protocols | negated, marks, others, self.without)

    def overlaps(self, other):
        if None not in (self.protocol, other.protocol) and self.protocol != other.protocol:
            return False
        if self.protocol in other.not_protocols or other.protocol in self.not_protocols:
            return False
        return marks_of(self.marks + other.marks) is not None

    def words(self):
        """The packets in words."""
        parts = [] if self.protocol is None else [name_of(self.protocol)]
        parts += [f"not {name_of(one)}" for one in sorted(self.not_protocols)]
        parts += [f"mark {'not ' * is_not}{value:#x}/{mask:#x}"
                  for value, mask, is_not in self.marks]
        return " ".join(parts + [other.words for other in self.others]) or "all packets"

    def is_said(self):
        """Whether a rule of nfq says it."""
        return not (self.others or self.not_protocols or self.without) and len(self.marks) <= 1


def name_of(protocol):
    return next((name for name, value in PROTOCOLS.items() if value == protocol), str(protocol))


def marks_of(marks):
    """The least conditions that mean the same: at most one that isn't negated, first. None where
    no mark meets them."""
    value = mask = 0
    for one, bits, is_not in marks:
        if not is_not:
            if (value ^ one) & mask & bits or one & ~bits:
                return None
            value, mask = value | one, mask | bits
    left = []
    for one, bits, is_not in marks:
        if not is_not or one & ~bits or (value ^ one) & mask & bits:
            continue
        if not bits & ~mask:
            return None
        if (one, bits, True) not in left:
            left.append((one, bits, True))
    return ((value, mask, False), *left) if mask else tuple(left)


@dataclass
class Event:
    """A rule at which packets leave a table, to a queue or without one."""
    flow: Flow
    rule: Rule
    marks: tuple = ()  # conditions that keep away what left before


class Walk:
    """The way of packets through a table's chains."""

    def __init__(self, table):
        self.table, self.events, self.steps, self.passed = table, [], 0, []

    def chain(self, name, flow, path=()):
        """Follows a chain. Whether each packet of the flow has left the table in it."""
        chain = self.table.chains.get(name)
        if name in path:
            raise Refused(f"the table {self.table.name}: the chain {name} leads to itself")
        if len(path) >= DEPTH:
            raise Refused(f"the table {self.table.name}: chains lead {DEPTH} deep")
        for rule in chain.rules if chain else ():
            self.steps += 1
            if self.steps > STEPS:
                raise Refused(f"the table {self.table.name}: a packet has more than {STEPS} ways "
                              "through its chains")
            inner = flow.meet(rule)
            if inner is None:
                continue
            is_all = not rule.has_conditions()
            has_ended = rule.action in ("queue", "stop")
            if has_ended:
                self.events.append(Event(inner, rule))
            elif rule.action in ("call", "goto"):
                has_ended = self.chain(rule.target, inner, (*path, name))
            elif rule.action == "pass":
                self.passed.append((len(self.events), rule))
            if is_all and (has_ended or rule.action in ("return", "goto")):
                return has_ended
            if rule.action in ("return", "goto"):
                left = Flow().meet(rule)
                flow = replace(flow, without=(*flow.without, left))
        return False
