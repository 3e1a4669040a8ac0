"""What is wrong with a line of a script (docs/FORMATS.md, Script) that the program refuses, word by
word, and what to do about it.
"""
from script_asks import FORMS, Fault, ask, lower, number
from text_lines import MOST, unprintable, words_of

MAX_PORTS, MAX_LINES, MAX_DOWNS, MAX_ASKS = 32, 1000, 1000, 8
MAX_MAIL = 65536
CONDITIONS = "any, id, queue, mark, priority, proto, every and longer"
PROTOCOLS = {"tcp": 6, "udp": 17, "icmp": 1, "icmpv6": 58, "ipv6-icmp": 58, "sctp": 132}
# what a condition may be called that there is none of
UNSEEN = {
    "ports": ("port", "ports", "dport", "sport", "--dport", "--sport", "dstport", "srcport"),
    "addresses": ("src", "dst", "saddr", "daddr", "host", "ip", "net", "-s", "-d", "source",
                  "destination"),
    "interfaces": ("iif", "oif", "in", "out", "-i", "-o", "dev", "indev", "outdev"),
    "payload but its protocol and its length": ("payload", "content", "bytes", "data", "string"),
    "times": ("time", "timestamp", "after", "before"),
    "connection states": ("state", "ctstate", "conntrack"),
}
LINES = "lines are mail, pace, hashkey and down; then port, open, on and end"


def condition(words):
    name, rest = words[0], words[1:]
    lower(name)
    if name in ("not", "!"):
        raise Fault("there is no `not`: an `on` line before this one takes those notices away")
    for what, names in UNSEEN.items():
        if name in names:
            raise Fault(f"there is no condition `{name}`: scripts see no {what}")
    if name in PROTOCOLS and not rest:
        raise Fault(f"there is no condition `{name}`: write proto {PROTOCOLS[name]}")
    if name in ("shorter", "len", "length", "size"):
        raise Fault(f"there is no condition `{name}`: longer N holds for more than N bytes")
    if name not in ("any", "id", "queue", "mark", "priority", "proto", "every", "longer"):
        raise Fault(f"there is no condition `{name}`: they are {CONDITIONS}")
    if rest and rest[0] in ("=", "==", "is", ">", "<", "!=", ">=", "<="):
        raise Fault(f"no `{rest[0]}`: write {name} N")
    if name == "any":
        rest = [""] + rest
    elif not rest:
        raise Fault(f"`{name}` has no number")
    elif name == "mark":
        value, slash, mask = rest[0].partition("/")
        if not slash:
            raise Fault(f"a mark is VALUE/MASK: mark {rest[0]}/4294967295 tests all bits")
        number(value, "VALUE")
        number(mask, "MASK")
    elif name == "proto" and rest[0] in PROTOCOLS:
        raise Fault(f"a protocol is a number: write proto {PROTOCOLS[rest[0]]}")
    else:
        most = {"queue": 65535, "proto": 255}.get(name, MOST)
        number(rest[0], f"N of {name}", int(name == "every"), most)
    if rest[1:2] == ["or"]:
        raise Fault("no `or`: write two lines")
    if rest[1:]:
        raise Fault(f"`{rest[1]}` isn't expected here: and between conditions, do before the ask")


def split(words, mark):
    parts = [[]]
    for word in words:
        if word == mark:
            parts.append([])
        else:
            parts[-1].append(word)
    return parts


def on_line(words):
    for word in words:
        if word in ("or", "||"):
            raise Fault("no `or`: write two lines")
    if "do" not in words:
        lower(next((word for word in words if word.lower() == "do"), None))
        raise Fault("`do` is missing: on CONDITION do ASK")
    at = words.index("do")
    for part in split(words[:at], "and"):
        if not part:
            raise Fault("a condition is missing: on CONDITION [and CONDITION].. do ASK")
        condition(part)
    asks = split(words[at + 1:], ";")
    for part in asks:
        ask(part, True)
    if len(asks) > MAX_ASKS:
        raise Fault(f"{len(asks)} asks: a line has at most {MAX_ASKS}")


def block_line(words):
    if words[0] == "on":
        on_line(words[1:])
    elif words[:2] == ["end", "close"]:
        if words[2:]:
            raise Fault("end close is alone on its line")
    elif words[0] == "end" and len(words) > 1 and words[1] not in FORMS:
        lower(words[1])
        raise Fault(f"end ASK or end close: `{words[1]}` is neither")
    elif words[0] == "open" and len(words) == 1:
        raise Fault("open ASK: an ask is missing")
    else:
        ask(words[1:], False)


def head_line(words):
    name = words[0]
    if name == "down":
        number(words[1] if len(words) > 1 else None, "DEVICE")
        if words[2:3] != ["after"]:
            raise Fault("down DEVICE after N: `after` is missing")
        number(words[3] if len(words) > 3 else None, "N")
    else:
        least = int(name in ("mail", "port"))
        number(words[1] if len(words) > 1 else None, f"N of {name}", least,
               MAX_MAIL if name == "mail" else MOST)
    if len(words) > (4 if name == "down" else 2):
        raise Fault(f"`{words[4 if name == 'down' else 2]}` isn't expected here")


def place(words, before):
    """What the lines before make wrong of a good line."""
    name, ports, lines, seen, is_closed, downs = words[0], [], 0, set(), False, 0
    for it in map(words_of, before):
        if not it or it[0].startswith("#"):
            continue
        if it[0] == "port":
            ports.append("".join(it[1:2]))
            lines, is_closed = 0, False
        elif ports:
            lines += 1
            is_closed = is_closed or it == ["end", "close"]
        else:
            seen.add(it[0])
            downs += it[0] == "down"
    if name == "port":
        if words[1] in ports:
            raise Fault(f"port {words[1]} has a block above: a number that no port has yet")
        if len(ports) >= MAX_PORTS:
            raise Fault(f"at most {MAX_PORTS} ports")
    elif name in ("open", "on", "end"):
        if not ports:
            raise Fault("this comes in the block of a port: a line `port N` comes first")
        if lines >= MAX_LINES:
            raise Fault(f"this is line {lines + 1} of its block: at most {MAX_LINES}")
        if name == "end" and is_closed:
            raise Fault("no `end` line of the block comes after `end close`")
    elif ports:
        raise Fault(f"`{name}` comes before the first port")
    elif name in seen and name != "down":
        raise Fault(f"`{name}` comes at most once")
    elif downs >= MAX_DOWNS:
        raise Fault(f"at most {MAX_DOWNS} `down` lines")


def check(words, before):
    name = words[0]
    for word in words:
        if word.startswith("#"):
            raise Fault("a comment has a line of its own, which begins with #")
        if ";" in word and word != ";":
            raise Fault("`;` needs a blank on both sides")
    lower(name)
    if name in FORMS:
        raise Fault(f"an ask comes after `open`, `end` or `on .. do`: on any do {name} ..")
    if name in ("open", "on", "end"):
        block_line(words)
    elif name in ("mail", "pace", "hashkey", "down", "port"):
        head_line(words)
    else:
        raise Fault(f"there is no line `{name[:40]}`: {LINES}")
    place(words, before)


def line_faults(lines, at):
    """What is wrong with the line of this number, after good ones; nothing where it is good."""
    if faults := unprintable(lines[at - 1]):
        return faults
    words = words_of(lines[at - 1])
    if not words or words[0].startswith("#"):
        return []
    try:
        check(words, lines[:at - 1])
    except Fault as why:
        return [str(why)]
    return []


def faults_at(lines, number):
    """What is wrong with the line of this number, which the program refuses; and what to do."""
    return line_faults(lines, number) or [LINES]


def end_faults():
    """What is missing at the end of a file that the program refuses there."""
    return ["there is no port: a script has a line `port N`"]
