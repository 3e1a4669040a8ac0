"""What is wrong with an ask of a script (docs/FORMATS.md, Asks), word by word, and what to do about
it.
"""
import re

from text_lines import MOST, number_fault

MAX_PAYLOAD, MAX_RAW = 2048, 4096
VERDICTS = ("drop", "accept", "repeat", "stop")
MODES = ("none", "meta", "packet")
COMMANDS = ("bind", "unbind", "pfbind", "pfunbind")
FORMS = {
    "config": "config Q [bind | unbind | pfbind | pfunbind | cmd N] [params MODE RANGE] [maxlen N] "
              "[flags N] [mask N]",
    "verdict": "verdict Q VERDICT ID [mark N] [payload BYTES] [priority N]",
    "batch": "batch Q VERDICT MAX [mark N] [priority N]",
    "raw": "raw BYTES",
}
PARTS = {"config": ("params", "maxlen", "flags", "mask"),
         "verdict": ("mark", "payload", "priority"), "batch": ("mark", "priority")}


class Fault(Exception):
    """The first word that is wrong in a line, and what to do about it."""


def number(word, what="a number", least=0, most=MOST):
    if word is None:
        raise Fault(f"the line ends where {what} is missing")
    if why := number_fault(word, most, what):
        raise Fault(why)
    if int(word) < least:
        raise Fault(f"{word} is too small: {what} is {least} to {most}")


def lower(word):
    """A word in capital letters is what it is in small ones, but for those."""
    if word is not None and word != word.lower():
        raise Fault(f"words and bytes are written in lower case: {word.lower()}")


def bytes_in(word, least, most, what):
    if word is None:
        raise Fault(f"the line ends where {what} is missing: two hexadecimal digits a byte")
    if re.fullmatch("0[xX][0-9a-fA-F]*", word):
        raise Fault(f"numbers are decimal, and bytes have no 0x: write {word[2:].lower() or '-'}")
    lower(word)
    text = "" if word == "-" else word
    if not re.fullmatch("[0-9a-f]*", text):
        raise Fault(f"`{word[:40]}` isn't {what}: two hexadecimal digits a byte")
    if len(text) % 2:
        raise Fault(f"{what} has an odd number of hexadecimal digits, {len(text)}")
    if not least <= len(text) // 2 <= most:
        raise Fault(f"{what} has {len(text) // 2} bytes: it has {least} to {most}")


class Words:
    """The words of an ask, one after the other. `this` is a number only in `on` lines."""

    def __init__(self, words, has_this):
        self.words, self.at, self.has_this = words, 0, has_this

    def peek(self):
        return self.words[self.at] if self.at < len(self.words) else None

    def next(self):
        self.at += 1
        return self.words[self.at - 1] if self.at <= len(self.words) else None

    def number(self, what, most=MOST):
        word = self.next()
        if word == "this":
            if not self.has_this:
                raise Fault("`this` is allowed in `on` lines only: write the number")
            return
        lower(word)
        number(word, what, most=most)

    def parts(self, kind):
        """Parts that may be missing, in their order."""
        names, last = PARTS[kind], -1
        while (word := self.next()) is not None:
            lower(word)
            if word not in names:
                raise Fault(self.unexpected(kind, word))
            at = names.index(word)
            if at <= last:
                raise Fault(f"`{word}` comes at most once" if at == last else
                            f"`{word}` comes before `{names[last]}`: {FORMS[kind]}")
            last = at
            if word == "params":
                mode = self.next()
                lower(mode)
                if mode not in MODES and (mode is None or not mode.isdigit()):
                    raise Fault(f"`{mode or ''}` is no MODE: none, meta or packet, and then RANGE")
                if mode not in MODES:
                    number(mode, "MODE", most=255)
                number(self.next(), "RANGE")
            elif word == "payload":
                bytes_in(self.next(), 0, MAX_PAYLOAD, "a payload")
            else:
                number(self.next(), f"N of {word}")

    def unexpected(self, kind, word):
        if kind == "batch" and word == "payload":
            return "a batch has no payload: write a verdict for each packet"
        if kind == "config" and word in (*COMMANDS, "cmd"):
            return f"`{word}` comes right after Q, and once: {FORMS[kind]}"
        if kind == "config" and word in MODES:
            return f"`{word}` is a MODE: write params {word} RANGE"
        if word in ("do", "on"):
            return f"`{word}` isn't expected here: one `on` line is one line"
        if word in (*FORMS, *VERDICTS):
            return f"`;` is missing before `{word}`: ASK ; ASK"
        return f"`{word}` isn't expected here: {FORMS[kind]}"


def verdict(word):
    lower(word)
    if word is None:
        raise Fault("the line ends where VERDICT is missing")
    if word in VERDICTS:
        return
    if found := re.fullmatch("queue:([^:]*)(:bypass)?", word):
        return number(found[1], "a queue", most=65535)
    if word == "queue":
        raise Fault("write queue:N, in one word")
    if word.isdigit():
        return number(word, "VERDICT")
    raise Fault(f"there is no verdict `{word}`: they are drop, accept, repeat, stop, queue:N, "
                "queue:N:bypass and a number")


def ask(words, has_this):
    it = Words(words, has_this)
    kind = it.next()
    lower(kind)
    if kind is None:
        raise Fault("an ask is missing: config, verdict, batch or raw")
    if kind in VERDICTS or kind.startswith("queue:"):
        raise Fault(f"an answer is an ask: verdict this {kind} this" if has_this
                    else f"an answer is an ask: verdict Q {kind} ID")
    if kind not in FORMS:
        raise Fault(f"there is no ask `{kind}`: they are config, verdict, batch and raw")
    if kind == "raw":
        bytes_in(it.next(), 1, MAX_RAW, "raw")
        if (word := it.next()) is not None:
            raise Fault(f"`{word}` isn't expected here: raw has its bytes in one word")
        return
    it.number("a queue", 65535)
    if kind == "config":
        word = it.peek()
        lower(word)
        if word in COMMANDS:
            it.next()
        elif word == "cmd":
            it.next()
            number(it.next(), "N of cmd", most=255)
    else:
        verdict(it.next())
        it.number("an id")
    it.parts(kind)
