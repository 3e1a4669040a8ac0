"""What is wrong with a rule of a rules file (docs/FORMATS.md, Rules), and what to do about it.

A rule is walked word by word as iptables-save(8) writes it, so that each word which is wrong is
named. What a filter of tcpdump can test in the place of a rule is such a filter, for Ethernet
frames with a VLAN tag, too: `vlan` moves what comes after it by the tag's four bytes.
"""
import re

from text_lines import number_fault

PROTOCOLS = {"tcp": 6, "udp": 17, "icmp": 1, "ipv6-icmp": 58}
OTHERS = {"sctp": 132, "dccp": 33, "igmp": 2, "esp": 50, "ah": 51, "gre": 47, "icmpv6": 58,
          "udplite": 136, "ospf": 89, "ipip": 4, "pim": 103, "vrrp": 112, "ipv6": 41}
FILTERS = {"tcp": "tcp", "udp": "udp", "icmp": "icmp", "ipv6-icmp": "icmp6", "icmpv6": "icmp6",
           "sctp": "sctp"}
HOOKS = ("INPUT", "OUTPUT", "PREROUTING", "POSTROUTING")
OPTIONS = "--queue-num N, --queue-balance A:B, --queue-cpu-fanout and --queue-bypass"
PORTS = {"--dport": "dst", "--destination-port": "dst", "--sport": "src", "--source-port": "src",
         "--dports": "dst", "--destination-ports": "dst", "--sports": "src",
         "--source-ports": "src", "--ports": ""}
ENDS = {"-s": "src", "--source": "src", "--src": "src", "-d": "dst", "--destination": "dst",
        "--dst": "dst"}
CARDS = ("-i", "-o", "--in-interface", "--out-interface")


def wide(word):
    """The number that a word of a mark is, decimal or after 0x, or None."""
    if re.fullmatch("0x[0-9a-fA-F]+", word):
        digits = word[2:].lstrip("0")
        return int(digits or "0", 16) if len(digits) <= 8 else None
    if re.fullmatch("0|[1-9][0-9]{0,9}", word) and int(word) < 1 << 32:
        return int(word)
    return None


def mark_fault(word):
    for part in word.split("/", 1):
        if wide(part) is None:
            if re.fullmatch("0[0-9]+", part):
                return f"numbers have no leading zero: `{part}`"
            if re.fullmatch("(0x)?[0-9a-fA-F]+", part):
                return f"{part} is too large, or lacks its 0x: a mark is below 4294967296"
            return f"`{part}` is no number: a mark is VALUE or VALUE/MASK"
    return None


def balance_fault(word):
    first, colon, last = word.partition(":")
    if not colon:
        return f"`{word}` isn't A:B, the first queue and the last"
    for part in (first, last):
        if fault := number_fault(part, 65535, "a queue"):
            return fault
    if int(first) >= int(last):
        return f"in A:B of --queue-balance A is below B, and {first} isn't below {last}"
    if int(last) - int(first) + 1 > 65535:
        return "0:65535 is one queue too many: with A 0 B is at most 65534"
    return None


def port_filter(name, word, is_not):
    side = PORTS[name]
    tests = []
    for part in word.split(","):
        first, colon, last = part.partition(":")
        if not re.fullmatch("[0-9]+(:[0-9]*)?|:[0-9]+", part):
            return None
        ports = f"portrange {first or 0}-{last or 65535}" if colon else f"port {part}"
        tests.append(f"{side} {ports}".strip())
    text = tests[0] if len(tests) == 1 else f"({' or '.join(tests)})"
    return f"not {text}" if is_not else text


def address_filter(name, word, is_not):
    host, slash, bits = word.partition("/")
    if not re.fullmatch("[0-9a-fA-F.:]+", host) or not re.fullmatch("[0-9a-fA-F.:]*", bits):
        return None
    if not slash or bits == ("128" if ":" in host else "32") or bits == "255.255.255.255":
        text = f"{ENDS[name]} host {host}"
    elif re.fullmatch("[0-9]+", bits):
        text = f"{ENDS[name]} net {host}/{bits}"
    else:
        text = f"{ENDS[name]} net {host} mask {bits}"
    return f"not {text}" if is_not else text


class Walk:
    """A rule's words after its chain, walked: the faults in their order, and the filter's parts."""

    def __init__(self, words, capture):
        self.words, self.capture, self.at = words, capture, 0
        self.faults, self.tests, self.base = [], [], None
        self.has_protocol = self.has_mark = self.is_cut = False
        self.is_whole = True        # whether the filter tests all that must be deleted
        self.deleted = {}           # kind: words

    def next(self):
        self.at += 1
        return self.words[self.at - 1] if self.at <= len(self.words) else None

    def values(self):
        """The words up to the next option; a text in quotes is passed over."""
        begin = self.at
        while self.at < len(self.words) and not re.match("-|!$", self.words[self.at]):
            word = self.next()
            if word.startswith('"') and not re.search(r'[^\\]"$', word):
                while (word := self.next()) is not None and not re.search(r'(^|[^\\])"$', word):
                    pass
        self.at = min(self.at, len(self.words))
        return self.words[begin:self.at]

    def fault(self, text):
        if text and text not in self.faults:
            self.faults.append(text)

    def delete(self, kind, words):
        self.deleted.setdefault(kind, []).extend(words)

    def protocol(self, is_not):
        word = self.next()
        self.base = FILTERS.get(word)
        if is_not:
            self.delete("a protocol can't be negated", ["!", "-p", word or ""])
            self.tests.append(f"not {self.base or 'proto ' + (word or 'N')}")
            self.base, self.is_cut = None, True
        elif word is None:
            self.fault("-p has no PROTO: tcp, udp, icmp, ipv6-icmp or a number")
        elif self.has_protocol:
            self.fault("-p comes at most once")
        elif word == "all":
            self.fault("-p all is no test: delete it")
        elif self.has_mark:
            self.fault("-p comes before -m mark")
        elif word not in PROTOCOLS and word in OTHERS:
            self.fault(f"PROTO is tcp, udp, icmp, ipv6-icmp or a number: {word} is {OTHERS[word]}")
        elif word not in PROTOCOLS and (why := number_fault(word, 255, "PROTO")):
            self.fault(f"PROTO is tcp, udp, icmp, ipv6-icmp or a number: {why}")
        self.has_protocol = True

    def match(self, is_not):
        name = self.next()
        if name == "mark":
            return self.mark()
        found = self.values()
        if name is None:
            return self.fault("-m names no match: the only matches are -p and -m mark")
        if name in ("tcp", "udp", "multiport", "sctp", "dccp", "udplite"):
            self.delete("ports aren't matched", ["-m", name])
        elif name == "comment":
            self.delete("comments aren't accepted", ["-m", name])
        else:
            self.delete("the only matches are -p and -m mark", ["-m", name, *found])
            self.is_whole = False
        return None

    def mark(self):
        is_not = self.at < len(self.words) and self.words[self.at] == "!"
        option = (self.next() and self.next()) if is_not else self.next()
        word = self.next() if option == "--mark" else None
        if self.has_mark:
            self.fault("-m mark comes at most once")
        elif word is None:
            self.fault("after -m mark comes [!] --mark VALUE[/MASK]")
        else:
            self.fault(mark_fault(word))
        self.has_mark = True

    def options(self):
        """The words after -j NFQUEUE."""
        seen = set()
        while (name := self.next()) is not None:
            kind = "pick" if name in ("--queue-num", "--queue-balance") else name
            if kind in seen:
                self.fault("--queue-num or --queue-balance comes at most once" if kind == "pick"
                           else f"{name} comes at most once")
            if name == "--queue-num":
                word = self.next()
                self.fault("--queue-num has no number" if word is None
                           else number_fault(word, 65535, "a queue"))
            elif name == "--queue-balance":
                word = self.next()
                self.fault("--queue-balance has no A:B" if word is None else balance_fault(word))
                seen.add("balance")
            elif name not in ("--queue-bypass", "--queue-cpu-fanout"):
                self.fault(f"`{name}` is no option of NFQUEUE: they are {OPTIONS}")
            seen.add(kind)
        if "--queue-cpu-fanout" in seen and "balance" not in seen:
            self.fault("--queue-cpu-fanout is allowed only with --queue-balance A:B")

    def run(self):
        while (word := self.next()) is not None:
            is_not = word == "!"
            if is_not and (word := self.next()) is None:
                break
            if word in ("-j", "--jump"):
                if word != "-j":
                    self.fault("write -j in the place of --jump")
                self.next()
                self.options()
            elif word in ("-p", "--protocol", "--proto"):
                if word != "-p":
                    self.fault(f"write -p in the place of {word}")
                self.protocol(is_not)
            elif word == "-m":
                self.match(is_not)
            else:
                self.other(word, is_not)
        self.tell()
        return self.faults

    def other(self, word, is_not):
        found = self.values()
        gone = [*["!"] * is_not, word, *found]
        test = None
        if word in PORTS:
            self.delete("ports aren't matched", gone)
            test = port_filter(word, found[0], is_not) if len(found) == 1 else None
        elif word in ENDS:
            self.delete("addresses aren't matched", gone)
            test = address_filter(word, found[0], is_not) if len(found) == 1 else None
            if self.base is None:
                self.base = "ip6" if ":" in "".join(found) else "ip"
        elif word in CARDS:
            return self.delete("interfaces aren't matched", gone)
        elif word == "--comment":
            return self.delete("comments aren't accepted", gone)
        elif word.startswith("-"):
            self.delete("the only matches are -p and -m mark", gone)
        else:
            return self.fault(f"`{' '.join(gone)}` isn't expected here")
        self.is_cut = self.is_cut or test is not None
        self.is_whole = self.is_whole and test is not None
        self.tests += [test] if test else []
        return None

    def tell(self):
        for kind, words in self.deleted.items():
            self.fault(f"{kind}: delete {' '.join(words)}")
        if not self.is_cut:
            return
        base = self.base or ("(tcp or udp or sctp)" if "ports aren't matched" in self.deleted
                             else "(ip or ip6)")
        test = " and ".join([base, *self.tests])
        rest = "" if self.is_whole else " (as far as a filter can tell them)"
        self.faults.append(f"and cut the capture, to have this rule's frames alone{rest}:")
        self.faults.append(f"tcpdump -r {self.capture} -w part.pcap '{test} or (vlan and {test})'")


def target_of(words):
    """The word after -j, where it isn't of a text in quotes."""
    is_quoted = False
    for word, after in zip(words, words[1:]):
        if is_quoted or word.startswith('"'):
            is_quoted = not re.search(r'[^\\]"$', word) if not is_quoted or word != '"' else False
        elif word in ("-j", "--jump", "-g", "--goto"):
            return after
    return None


def rule_faults(words, own_chains, capture):
    target, chain = target_of(words), words[1] if len(words) > 1 else None
    if target is None:
        return ["the rule has no target: -j NFQUEUE ends it"]
    if target != "NFQUEUE":
        return [f"{target} is a chain of its own, which isn't followed: tools/rules SAVE follows it"
                if target in own_chains else
                f"only rules with the target NFQUEUE are accepted: delete this one",
                "tools/rules SAVE writes a rules file of what iptables-save printed, and says of "
                "each line that it leaves out what this means"]
    faults = []
    if chain in HOOKS:
        faults.append("only the chain FORWARD is run: write -A FORWARD, and the whole capture "
                      "passes this rule")
    elif chain != "FORWARD":
        faults.append("chains of your own aren't followed: tools/rules SAVE follows them, or write "
                      "the rule with -A FORWARD")
    return faults + Walk(words[2:], capture).run()
