"""Reads scripts (docs/FORMATS.md, Script) for the tools beside it."""
import re
from dataclasses import dataclass, field

import runs
from formats import Refused

COMMANDS = {"bind": 1, "unbind": 2, "pfbind": 3, "pfunbind": 4}
MODES = {"none": 0, "meta": 1, "packet": 2}
VERDICTS = {"drop": 0, "accept": 1, "repeat": 4, "stop": 5}
PORTS, LINES, DOWNS, ASKS = 32, 1000, 1000, 8
PAYLOAD, DATAGRAM = 2048, 4096
ANY = 2**32 - 1


@dataclass
class Ask:
    """What a line asks. A queue or an id is None where it is `this`; `parts` has the words with a
    value of their own: cmd, params, maxlen, flags, mask, mark, payload, priority."""
    kind: str  # config, verdict, batch, raw
    text: str
    queue: int | None = None
    verdict: int = 0
    id: int | None = None
    parts: dict = field(default_factory=dict)


@dataclass
class Line:
    """A line of a port's block: open, on, end or close, with conditions as (name, values)."""
    place: int
    text: str
    kind: str
    conditions: list = field(default_factory=list)
    asks: list = field(default_factory=list)


@dataclass
class Port:
    number: int
    place: int
    lines: list = field(default_factory=list)


@dataclass
class Script:
    """A script. `settings` are mail, pace and hashkey, where it has them."""
    settings: dict = field(default_factory=dict)
    downs: list = field(default_factory=list)
    ports: list = field(default_factory=list)
    is_closed: bool = False  # whether the last port has its `end close`


class Bad(Exception):
    """What a line has that isn't of its format."""


class Words:
    """The words of a line, taken from its beginning."""

    def __init__(self, words):
        self.words, self.at = words, 0

    def next(self, what):
        if self.at == len(self.words):
            raise Bad(f"{what} is missing")
        self.at += 1
        return self.words[self.at - 1]

    def number(self, what, most=ANY, least=0):
        word = self.next(what)
        if not re.fullmatch("0|[1-9][0-9]{0,9}", word) or not least <= int(word) <= most:
            raise Bad(f"{word} is no {what} from {least} to {most}")
        return int(word)

    def named(self, what, names, most):
        """A name, or a number in its place."""
        if self.at < len(self.words) and self.words[self.at] in names:
            return names[self.next(what)]
        return self.number(what, most)

    def this(self, what, most, is_allowed):
        if self.has("this"):
            if not is_allowed:
                raise Bad("`this` is only for `on` lines")
            return None
        return self.number(what, most)

    def bytes(self, most, least=0):
        word = self.next("BYTES")
        if word == "-":
            word = ""
        if not re.fullmatch("(?:[0-9a-f]{2})*", word) or not least <= len(word) // 2 <= most:
            raise Bad(f"not {least} to {most} bytes in hexadecimal")
        return bytes.fromhex(word)

    def has(self, word):
        if self.at < len(self.words) and self.words[self.at] == word:
            self.at += 1
            return True
        return False

    def end(self):
        if self.at < len(self.words):
            raise Bad(f"{self.words[self.at]} isn't expected here")


def verdict_of(words):
    word = words.next("VERDICT")
    if word in VERDICTS:
        return VERDICTS[word]
    found = re.fullmatch("queue:(0|[1-9][0-9]{0,4})(:bypass)?", word)
    if found and int(found[1]) <= 65535:
        return int(found[1]) * 65536 + (32768 if found[2] else 0) + 3
    words.at -= 1
    return words.number("VERDICT")


def ask_of(words, is_answer):
    """The ask that words say."""
    start = words.at
    kind = words.next("ask")
    ask = Ask(kind, "")
    if kind == "raw":
        ask.parts["bytes"] = words.bytes(DATAGRAM, 1)
    elif kind == "config":
        ask.queue = words.this("queue", 65535, is_answer)
        config_parts(words, ask.parts)
    elif kind in ("verdict", "batch"):
        ask.queue = words.this("queue", 65535, is_answer)
        ask.verdict = verdict_of(words)
        ask.id = words.this("id", ANY, is_answer)
        if words.has("mark"):
            ask.parts["mark"] = words.number("mark")
        if kind == "verdict" and words.has("payload"):
            ask.parts["payload"] = words.bytes(PAYLOAD)
        if words.has("priority"):
            ask.parts["priority"] = words.number("priority")
    else:
        raise Bad(f"{kind} is no ask: config, verdict, batch or raw")
    ask.text = " ".join(words.words[start:words.at])
    return ask


def config_parts(words, parts):
    command = next((name for name in COMMANDS if words.has(name)), None)
    if command:
        parts["cmd"] = COMMANDS[command]
    elif words.has("cmd"):
        parts["cmd"] = words.number("command", 255)
    if words.has("params"):
        parts["params"] = words.named("mode", MODES, 255), words.number("range")
    for name in "maxlen", "flags", "mask":
        if words.has(name):
            parts[name] = words.number(name)


def condition_of(words):
    name = words.next("condition")
    if name == "any":
        return name, ()
    if name == "mark":
        found = re.fullmatch("([0-9]+)/([0-9]+)", words.next("VALUE/MASK"))
        if not found:
            raise Bad("mark takes VALUE/MASK")
        pair = Words(list(found.groups()))
        return name, (pair.number("mark"), pair.number("mask"))
    limits = {"id": (0, ANY), "queue": (0, 65535), "priority": (0, ANY), "proto": (0, 255),
              "every": (1, ANY), "longer": (0, ANY)}
    if name not in limits:
        raise Bad(f"there is no condition {name}")
    least, most = limits[name]
    return name, (words.number(name, most, least),)


def block_line(place, text, words):
    """A line of a port's block."""
    kind = words.next("word")
    line = Line(place, text, kind)
    if kind == "on":
        line.conditions.append(condition_of(words))
        while words.has("and"):
            line.conditions.append(condition_of(words))
        if not words.has("do"):
            raise Bad("`do` is missing")
        line.asks.append(ask_of(words, True))
        while words.has(";"):
            line.asks.append(ask_of(words, True))
        if len(line.asks) > ASKS:
            raise Bad(f"more than {ASKS} asks")
    elif kind == "end" and words.has("close"):
        line.kind = "close"
    elif kind in ("open", "end"):
        line.asks.append(ask_of(words, False))
    else:
        raise Bad(f"a line doesn't begin with {kind}")
    words.end()
    return line


def head_line(script, words):
    """A line before the first port."""
    name = words.next("word")
    if name == "down":
        device = words.number("device")
        if not words.has("after"):
            raise Bad("`after` is missing")
        script.downs.append((device, words.number("frame")))
        if len(script.downs) > DOWNS:
            raise Bad(f"more than {DOWNS} `down` lines")
    elif name in ("mail", "pace", "hashkey"):
        if name in script.settings:
            raise Bad(f"a second {name}")
        least, most = (1, 65536) if name == "mail" else (0, ANY)
        script.settings[name] = words.number(name, most, least)
    else:
        raise Bad(f"{name} isn't allowed before the first `port`")
    words.end()


def read_line(script, place, text, words):
    if words.words[0] == "port":
        words.at = 1
        number = words.number("port", ANY, 1)
        words.end()
        if any(port.number == number for port in script.ports):
            raise Bad(f"a second port {number}")
        if len(script.ports) == PORTS:
            raise Bad(f"more than {PORTS} ports")
        script.ports.append(Port(number, place))
        script.is_closed = False
    elif not script.ports:
        head_line(script, words)
    else:
        lines = script.ports[-1].lines
        line = block_line(place, text, words)
        if line.kind in ("end", "close") and script.is_closed:
            raise Bad("an `end` line after `end close`")
        script.is_closed = script.is_closed or line.kind == "close"
        lines.append(line)
        if len(lines) > LINES:
            raise Bad(f"more than {LINES} lines of a port")


def read_script(name):
    """The script of a file, or its first bad line."""
    script = Script()
    lines = runs.read_text(name).split("\n")
    is_ended = lines[-1] == ""
    if is_ended:
        lines.pop()
    for place, line in enumerate(lines, 1):
        # A CR directly before a LF is dropped; another one is refused below.
        text = line[:-1] if line.endswith("\r") and (place < len(lines) or is_ended) else line
        words = [word for word in text.replace("\t", " ").split(" ") if word]
        try:
            if re.search("[^ -~\t]", text):
                raise Bad("a byte that isn't printable ASCII")
            if words and not words[0].startswith("#"):
                read_line(script, place, " ".join(words), Words(words))
        except Bad as why:
            raise Refused(f"{name}:{place}: {why}") from None
    if not script.ports:
        raise Refused(f"{name}:{len(lines) + 1}: there is no `port` line")
    return script
