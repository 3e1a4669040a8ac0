"""Saved rules as tables of chains, in which each rule has its conditions and what becomes of a
packet that meets them; and reads what iptables-save prints.
"""
import re
from dataclasses import dataclass, field

from formats import Refused

ALL_BITS = 0xFFFFFFFF
PROTOCOLS = {
    "icmp": 1, "igmp": 2, "ipencap": 4, "tcp": 6, "udp": 17, "dccp": 33, "ipv6": 41, "rsvp": 46,
    "gre": 47, "esp": 50, "ipv6-crypt": 50, "ah": 51, "ipv6-auth": 51, "icmpv6": 58,
    "ipv6-icmp": 58, "ospf": 89, "ospfigp": 89, "pim": 103, "vrrp": 112, "sctp": 132,
    "udplite": 136,
}
# targets after which a packet meets no further rule of its table
STOPS = {"ACCEPT", "DROP", "REJECT"}
# the order in which a forwarded packet passes the tables
ORDER = ["raw", "mangle", "nat", "filter", "security"]
# what a match that rules of nfq haven't is called, and its kind
NAMED = {
    "-s": ("from {}", "address"), "-d": ("to {}", "address"), "-i": ("in by {}", "interface"),
    "-o": ("out by {}", "interface"), "--ctstate": ("conntrack {}", "state"),
    "--state": ("conntrack {}", "state"), "--dport": ("to port {}", "port"),
    "--sport": ("from port {}", "port"), "--dports": ("to port {}", "port"),
    "--sports": ("from port {}", "port"), "--ports": ("port {}", "port"),
}


@dataclass(frozen=True)
class Other:
    """A condition that rules of nfq haven't, in words; its kind is that of NAMED, or empty."""
    words: str
    kind: str = ""
    value: str = ""


@dataclass
class Rule:
    """A rule; `where` is its line or handle. What becomes of a packet is `queue`, `stop`, `call`,
    `goto`, `return` or `pass`, and `target` the queue's options, the chain's name or the target."""
    where: str
    text: str
    protocol: int | None = None
    not_protocol: int | None = None
    marks: tuple = ()   # (value, mask, whether it is negated)
    others: tuple = ()  # conditions that rules of nfq haven't
    action: str = "pass"
    target: str = ""

    def has_conditions(self):
        return bool(self.marks or self.others) or \
            (self.protocol, self.not_protocol) != (None, None)


@dataclass
class Chain:
    policy: str | None = None  # None of a chain of one's own
    rules: list = field(default_factory=list)
    hook: str = ""


@dataclass
class Table:
    name: str
    chains: dict = field(default_factory=dict)


def number(text, most, base=10):
    """A number in the text, or None."""
    try:
        value = int(text, base)
    except (ValueError, TypeError):
        return None
    return value if 0 <= value <= most else None


def protocol_of(word):
    """A protocol by its name or number; None where it isn't known."""
    value = PROTOCOLS.get(str(word).lower())
    return number(str(word), 255) if value is None else value


def queue_options(first, last, is_bypassed, is_fanned):
    """The options of NFQUEUE, or None where there is no such range of queues."""
    if first is None or last is None or first > last or (first, last) == (0, 65535):
        return None
    words = f"--queue-num {first}" if first == last else f"--queue-balance {first}:{last}"
    words += " --queue-cpu-fanout" * (is_fanned and first != last)
    return words + " --queue-bypass" * is_bypassed


# ---- iptables-save

WORD = re.compile(r'"((?:[^"\\]|\\.)*)"|(\S+)')
COUNTERS = re.compile(r"\[[0-9]+:[0-9]+\] ")
CHAIN = re.compile(r":(\S+) (\S+)(?: \[[0-9]+:[0-9]+\])?")


def words_of(line):
    """The words of a line as (word, whether it is quoted)."""
    return [(re.sub(r"\\(.)", r"\1", quoted), True) if plain == "" else (plain, False)
            for quoted, plain in WORD.findall(line)]


def options_of(words):
    """The options of a rule: (name, values, whether it is negated)."""
    options, is_not = [], False
    for word, is_quoted in words:
        if word == "!" and not is_quoted:
            is_not = True
        elif word.startswith("-") and not is_quoted:
            options.append((word, [], is_not))
            is_not = False
        elif options:
            options[-1][1].append(word)
    return options


def iptables_rule(where, line, chains):
    """The rule of a line, and its chain's name."""
    options = options_of(words_of(COUNTERS.sub("", line, count=1)))
    if not options or options[0][0] != "-A" or len(options[0][1]) != 1:
        return None, None
    rule, module, marks, others = Rule(where, line), "", [], []
    queue = {}
    for name, values, is_not in options[1:]:
        value = " ".join(values)
        if name in ("-m", "--match"):
            module = value
        elif name in ("-j", "--jump", "-g", "--goto"):
            rule.action, rule.target = action_of(name, value, chains)
        elif name in ("-p", "--protocol"):
            if value not in ("all", "0"):
                rule.protocol, rule.not_protocol = \
                    (None, protocol_of(value)) if is_not else (protocol_of(value), None)
                if protocol_of(value) is None:
                    others.append(Other(f"protocol {value}"))
        elif name == "--mark" and module == "mark":
            mark = mark_of(value)
            if mark is None:
                return None, None
            marks.append((*mark, is_not))
        elif name.startswith("--queue-"):
            queue[name] = value
        elif name in NAMED:
            words, kind = NAMED[name]
            others.append(Other(("not " if is_not else "") + words.format(value), kind, value))
        elif name != "--comment" and rule.action == "pass" and not rule.target:
            others.append(Other(f"{'not ' if is_not else ''}{module} {name} {value}".strip()))
    rule.marks, rule.others = tuple(marks), tuple(others)
    if rule.action == "queue":
        first, _, last = queue.get("--queue-balance", queue.get("--queue-num", "0")).partition(":")
        rule.target = queue_options(number(first, 65535), number(last or first, 65535),
                                    "--queue-bypass" in queue, "--queue-cpu-fanout" in queue)
        if rule.target is None:
            return None, None
    return options[0][1][0], rule


def mark_of(text):
    value, _, mask = text.partition("/")
    value, mask = number(value, ALL_BITS, 0), number(mask or "0xffffffff", ALL_BITS, 0)
    return None if None in (value, mask) else (value, mask)


def action_of(option, target, chains):
    if target in ("NFQUEUE", "QUEUE"):
        return "queue", ""
    if target in chains:
        return ("goto" if option in ("-g", "--goto") else "call"), target
    if target == "RETURN":
        return "return", target
    return ("stop" if target in STOPS else "pass"), target


def read_iptables(name, text):
    """The tables that iptables-save printed."""
    tables, table = [], None
    lines = text.split("\n")
    # A rule may name a chain whose line comes later only where the file was joined by hand.
    chains, at = {}, None
    for line in lines:
        at = line if line.startswith("*") else at
        if found := CHAIN.fullmatch(line.strip()):
            chains.setdefault(at, set()).add(found[1])
    for place, line in enumerate(lines, 1):
        line = line.strip()
        where = f"{name}:{place}"
        if not line or line.startswith("#"):
            continue
        if line == "COMMIT" and table is not None:
            table = None
        elif line.startswith("*") and table is None and len(line.split()) == 1:
            if any(one.name == line[1:] for one in tables):
                raise Refused(f"{where}: the table {line[1:]} comes twice: give what one "
                              "iptables-save or ip6tables-save printed")
            table, at = Table(line[1:]), line
            tables.append(table)
        elif table is not None and (found := CHAIN.fullmatch(line)):
            policy = None if found[2] == "-" else found[2]
            table.chains[found[1]] = Chain(policy, hook="" if policy is None else found[1])
        else:
            chain, rule = (None, None) if table is None else \
                iptables_rule(where, line, chains.get(at, ()))
            if rule is None:
                raise Refused(f"{where}: not a line of what iptables-save prints: {line[:100]}")
            table.chains.setdefault(chain, Chain(hook=chain)).rules.append(rule)
    if table is not None:
        raise Refused(f"{name}: cut short: the table {table.name} has no COMMIT")
    places = {one: place for place, one in enumerate(ORDER)}
    return sorted(tables, key=lambda one: places.get(one.name, len(ORDER)))
