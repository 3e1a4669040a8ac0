"""Reads rules files (docs/FORMATS.md, Rules) for the tools beside it: the tables with their rules,
and what is wrong with a line that the program refuses, each fault with what to do about it.
"""
import re
from dataclasses import dataclass

from rule_words import PROTOCOLS, rule_faults, wide
from text_lines import lines_of, unprintable, words_of

MAX_TABLES, MAX_RULES = 16, 1000
LINES = "lines are *NAME, :NAME ACCEPT [N:N], -A FORWARD .. -j NFQUEUE .. and COMMIT"
RULE = ("a rule is -A FORWARD [-p PROTO] [-m mark [!] --mark VALUE[/MASK]] -j NFQUEUE OPTIONS, "
        "between a line *NAME and COMMIT")
ONE_FILE = "one rules file serves IPv4 and IPv6 alike"
ALL_BITS = (1 << 32) - 1


@dataclass
class Rule:
    """A rule: the number of its line and its text; `mark` is (value, mask, negated), and `queues`
    are the first queue and the last."""
    line: int
    text: str
    protocol: int | None
    mark: tuple | None
    queues: tuple

    def matches(self, protocol, mark):
        if self.protocol not in (None, protocol):
            return False
        if self.mark is None:
            return True
        value, mask, negated = self.mark
        return (mark & mask == value) != negated


def rule_of(line, text, words):
    """The rule that a line without a fault says."""
    protocol = mark = None
    if "-p" in words:
        name = words[words.index("-p") + 1]
        protocol = PROTOCOLS[name] if name in PROTOCOLS else int(name)
    if "--mark" in words:
        value, _, mask = words[words.index("--mark") + 1].partition("/")
        mark = wide(value), wide(mask) if mask else ALL_BITS, "!" in words
    first = last = "0"
    if "--queue-num" in words:
        first = last = words[words.index("--queue-num") + 1]
    elif "--queue-balance" in words:
        first, _, last = words[words.index("--queue-balance") + 1].partition(":")
    return Rule(line, text, protocol, mark, (int(first), int(last)))


def read_rules(data):
    """The tables of a rules file that the program takes: lists of rules."""
    tables = []
    for number, line in enumerate(lines_of(data), 1):
        words = words_of(line)
        if words and words[0].startswith("*"):
            tables.append([])
        elif words and words[0] == "-A" and tables and not rule_faults(words, (), "IN"):
            tables[-1].append(rule_of(number, " ".join(words), words))
    return tables


class File:
    """What the lines before a line say: the table that is open, with the number of its rules."""

    def __init__(self, lines):
        self.names, self.open, self.rules = [], None, 0
        for line in lines:
            words = words_of(line)
            if not words or words[0].startswith("#"):
                continue
            if words[0].startswith("*"):
                self.names.append(words[0][1:])
                self.open, self.rules = words[0], 0
            elif words[0] == "COMMIT":
                self.open = None
            elif words[0] == "-A":
                self.rules += 1


def table_faults(words, file):
    name = words[0][1:]
    faults = []
    if not 1 <= len(name) <= 31 or not re.fullmatch("[a-z0-9_-]*", name):
        faults.append("a table's name has 1 to 31 lower-case letters, digits, - or _")
    if len(words) > 1:
        faults.append(f"`{' '.join(words[1:])}` isn't expected here: *NAME is alone on its line")
    if file.open:
        faults.append(f"the table before, {file.open}, has no COMMIT")
    if name in file.names:
        faults.append(f"a table of this name came before: put the rules of both into one, since "
                      f"{ONE_FILE}")
    elif not file.open and len(file.names) >= MAX_TABLES:
        faults.append(f"at most {MAX_TABLES} tables")
    return faults


def policy_faults(words, file):
    name, rest = words[0][1:], words[1:]
    if rest[:1] == ["-"] or rest[:1] and not re.fullmatch("[A-Za-z]{1,31}", name):
        return ["chains of your own aren't followed: delete this line, and the chain's rules; "
                + "tools/rules SAVE follows them"]
    faults = []
    if rest[:1] and rest[0] != "ACCEPT":
        if name != "FORWARD":
            faults.append(f"only FORWARD is run, so {name}'s policy has no effect: delete this "
                          "line")
        elif rest[0].isalpha():
            faults.append("the only policy is ACCEPT: write ACCEPT here; what no rule queues is "
                          "then released (unhooked)")
        else:
            faults.append(f"the policy is missing: write :{name} ACCEPT [0:0]")
    elif not re.fullmatch("[A-Za-z]{1,31}", name):
        faults.append("a chain's name has 1 to 31 letters")
    elif not rest:
        faults.append(f"the policy is missing: write :{name} ACCEPT [0:0]")
    elif len(rest) == 1:
        faults.append("the counters are missing: write [0:0] after the policy")
    elif not re.fullmatch(r"\[[0-9]+:[0-9]+\]", rest[1]):
        faults.append(f"`{rest[1]}` isn't [N:N], the counters: write [0:0]")
    elif len(rest) > 2:
        faults.append(f"`{' '.join(rest[2:])}` isn't expected here")
    if not faults and not file.open:
        faults.append("this is outside of any table: a line *NAME comes first")
    return faults


def line_faults(lines, number, capture):
    """What is wrong with the line of this number, after good ones; nothing where it is good."""
    line, file = lines[number - 1], File(lines[:number - 1])
    words = words_of(line)
    if (faults := unprintable(line)) or not words or words[0].startswith("#"):
        return faults
    if re.fullmatch(r"\[[0-9]*:[0-9]*\]", words[0]):
        faults = ["counters before a rule, as `iptables-save -c` writes them: save without -c, or "
                  "let tools/rules SAVE leave them out"]
        words = words[1:] or [""]
    first = words[0]
    if first.startswith("*"):
        return faults + table_faults(words, file)
    if first.startswith(":"):
        return faults + policy_faults(words, file)
    if first == "-A":
        chains = {it[0][1:] for it in map(words_of, lines) if it[1:2] == ["-"]}
        faults += rule_faults(words, chains, capture)
        if not faults and not file.open:
            faults.append("this rule is outside of any table: a line *NAME comes first")
        elif not faults and file.rules >= MAX_RULES:
            faults.append(f"this is rule {file.rules + 1} of its table: at most {MAX_RULES}")
        return faults
    if first == "COMMIT":
        if len(words) > 1 or not file.open:
            faults.append("COMMIT is alone on its line, and ends a table that a line *NAME began")
        return faults
    if first in ("sudo", "iptables", "ip6tables", "-P", "-N", "-I", "-D", "-F", "-X"):
        faults.append("a rules file has the lines that iptables-save writes, and no commands: save "
                      "the rules first")
    elif first in ("table", "chain", "type", "flush", "add", "}", "nft") or first[:1] == "{":
        faults.append("this is nft's own form: tools/rules reads what `nft -j list ruleset` prints,"
                      " or save the rules with iptables-nft-save")
    return faults or [LINES]


def faults_at(lines, number, capture):
    """What is wrong with the line of this number, which the program refuses; and what to do."""
    return line_faults(lines, number, capture) or [RULE, LINES]


def end_faults():
    """What is missing at the end of a file that the program refuses there."""
    return ["the last table has no COMMIT: was the file cut short?"]
