"""Reads what `nft -j list ruleset` prints into tables of saved_rules, one for each base chain, in
the order in which a packet of a hook meets them.
"""
import json
from dataclasses import replace

from formats import Refused
from saved_rules import ALL_BITS, Chain, Other, Rule, Table, number, protocol_of, queue_options

HOOKS = {"prerouting": "PREROUTING", "input": "INPUT", "forward": "FORWARD", "output": "OUTPUT",
         "postrouting": "POSTROUTING"}
PORTS = {"dport": "to port {}", "sport": "from port {}"}
ADDRESSES = {"saddr": "from {}", "daddr": "to {}"}
INTERFACES = {"iif": "in by {}", "iifname": "in by {}", "oif": "out by {}", "oifname": "out by {}"}


def value_words(value):
    """The right side of a match, as nft writes it."""
    if isinstance(value, dict) and len(value) == 1:
        kind, inner = next(iter(value.items()))
        if kind == "prefix" and isinstance(inner, dict):
            return f"{value_words(inner.get('addr'))}/{inner.get('len')}"
        if kind == "range" and isinstance(inner, list) and len(inner) == 2:
            return f"{inner[0]}-{inner[1]}"
        if kind == "set":
            return value_words(inner)
    if isinstance(value, list):
        return ",".join(map(value_words, value))
    return str(value) if isinstance(value, (str, int)) else json.dumps(value)


def key_of(left):
    """What a match looks at: the kind of expression, its protocol and its field."""
    if isinstance(left, dict) and len(left) == 1:
        kind, inner = next(iter(left.items()))
        if kind in ("meta", "ct") and isinstance(inner, dict):
            return kind, "", str(inner.get("key"))
        if kind == "payload" and isinstance(inner, dict):
            return kind, str(inner.get("protocol")), str(inner.get("field"))
    return "", "", ""


def mark_key(left):
    """The mask with which the mark is looked at, or None."""
    if key_of(left) == ("meta", "", "mark"):
        return ALL_BITS
    pair = left.get("&") if isinstance(left, dict) else None
    if isinstance(pair, list) and len(pair) == 2 and key_of(pair[0]) == ("meta", "", "mark"):
        return number(str(pair[1]), ALL_BITS, 0)
    return None


def nft_matches(left, right, is_not):
    """The alternatives that a match is, as changes of a rule."""
    key = key_of(left)
    values = right.get("set", right) if isinstance(right, dict) else right
    values = values if isinstance(values, list) else [values]
    if key in (("meta", "", "l4proto"), ("payload", "ip", "protocol"),
               ("payload", "ip6", "nexthdr")):
        numbers = [protocol_of(value) for value in values]
        if None not in numbers and not is_not:
            return [{"protocol": one} for one in numbers]
        if None not in numbers and len(numbers) == 1:
            return [{"not_protocol": numbers[0]}]
    mask = mark_key(left)
    marks = [number(str(value), ALL_BITS, 0) for value in values]
    if mask is not None and None not in marks and (len(marks) == 1 or not is_not):
        return [{"mark": (mark, mask, is_not)} for mark in marks]
    kind, protocol, name = key
    words, sort = name or json.dumps(left), ""
    if kind == "payload" and name in PORTS:
        words, sort = PORTS[name], "port"
    elif kind == "payload" and name in ADDRESSES:
        words, sort = ADDRESSES[name], "address"
    elif kind == "meta" and name in INTERFACES:
        words, sort = INTERFACES[name], "interface"
    elif (kind, name) == ("ct", "state"):
        words, sort = "conntrack {}", "state"
    else:
        words = f"{kind} {protocol} {words}".replace("  ", " ").strip() + " {}"
    value = value_words(right)
    change = {"other": Other(("not " if is_not else "") + words.replace("{}", value), sort, value)}
    if sort == "port" and protocol_of(protocol) is not None:
        change["protocol"] = protocol_of(protocol)
    return [change]


def changed(rule, change):
    """The rule with a further condition, or None where it then meets no packet."""
    rule = replace(rule)
    if "protocol" in change:
        if rule.protocol not in (None, change["protocol"]) \
                or rule.not_protocol == change["protocol"]:
            return None
        rule.protocol, rule.not_protocol = change["protocol"], None
    if "not_protocol" in change:
        if rule.protocol == change["not_protocol"]:
            return None
        if rule.protocol is None:
            rule.not_protocol = change["not_protocol"]
    if "mark" in change:
        rule.marks += (change["mark"],)
    if "other" in change:
        rule.others += (change["other"],)
    return rule


def ended(rule, kind, value):
    """The rule with what a statement makes of a packet, or None for one that lets it pass."""
    target = str(value.get("target")) if isinstance(value, dict) else ""
    if kind in ("jump", "goto"):
        return replace(rule, action="call" if kind == "jump" else "goto", target=target)
    if kind in ("accept", "drop", "reject"):
        return replace(rule, action="stop", target=kind.upper())
    if kind == "return":
        return replace(rule, action="return", target="RETURN")
    if kind == "queue":
        value = value if isinstance(value, dict) else {}
        wanted, flags = value.get("num", 0), value_words(value.get("flags", []))
        pair = wanted.get("range") if isinstance(wanted, dict) else [wanted, wanted]
        if not isinstance(pair, list) or len(pair) != 2:
            raise Refused(f"{rule.where}: the queue's number is computed")
        first, last = (number(str(one), 65535) for one in pair)
        options = queue_options(first, last, "bypass" in flags, "fanout" in flags)
        if options is None:
            raise Refused(f"{rule.where}: there are no such queues")
        return replace(rule, action="queue", target=options)
    return None


def nft_rules(rule, statements):
    """The rules that a rule of nft is: one for each alternative of its matches."""
    open_rules, made = [rule], []
    for statement in statements:
        if not isinstance(statement, dict) or len(statement) != 1:
            raise Refused(f"{rule.where}: not a statement of nft: {json.dumps(statement)[:80]}")
        kind, value = next(iter(statement.items()))
        if kind == "match" and isinstance(value, dict):
            ways = nft_matches(value.get("left"), value.get("right"), value.get("op") == "!=")
            open_rules = [new for one in open_rules for way in ways
                          if (new := changed(one, way)) is not None]
        elif kind == "vmap" and isinstance(value, dict):
            made += [end for one in open_rules for end in mapped(one, value)]
            # A packet that the map doesn't name goes on.
        elif kind in ("xt", "limit", "connlimit", "quota"):
            words = f"{kind} {value_words(value)}"
            open_rules = [changed(one, {"other": Other(words)}) for one in open_rules]
        elif kind == "mangle":
            open_rules = [replace(one, target=f"mangle {json.dumps(value)[:60]}")
                          for one in open_rules]
        else:
            ends = [ended(one, kind, value) for one in open_rules]
            if None not in ends:
                return made + ends
    return made + open_rules


def mapped(rule, value):
    """The rules of a map from values to verdicts."""
    pairs = value.get("data")
    pairs = pairs.get("set") if isinstance(pairs, dict) else None
    if not isinstance(pairs, list):
        yield changed(rule, {"other": Other("a named map")})
        return
    for pair in pairs:
        if not isinstance(pair, list) or len(pair) != 2 or not isinstance(pair[1], dict) \
                or len(pair[1]) != 1:
            raise Refused(f"{rule.where}: not a map of nft")
        for way in nft_matches(value.get("key"), pair[0], False):
            new = changed(rule, way)
            kind, inner = next(iter(pair[1].items()))
            end = new and ended(new, kind, inner)
            if end:
                yield end


def nft_text(statements):
    return json.dumps(statements, separators=(",", ":"))[:160]


def read_nft(name, text, families):
    """The base chains of these families that nft printed, each as a table with all chains of its
    own."""
    try:
        items = json.loads(text)["nftables"]
        if not isinstance(items, list):
            raise KeyError
    except (ValueError, KeyError, TypeError, RecursionError):
        raise Refused(f"{name}: not what nft -j list ruleset prints") from None
    chains, bases = {}, []
    for place, item in enumerate(items, 1):
        kind, value = next(iter(item.items()), ("", None)) if isinstance(item, dict) else ("", None)
        if not isinstance(value, dict):
            raise Refused(f"{name}: item {place} of the ruleset isn't one of nft")
        home = str(value.get("family")), str(value.get("table"))
        if home[0] not in families:
            continue
        if kind == "chain":
            chain = Chain(hook=HOOKS.get(str(value.get("hook")), ""))
            if chain.hook:
                chain.policy = str(value.get("policy", "accept")).upper()
                order = value.get("prio", 0)
                bases.append((order if isinstance(order, int) else 0, place, home,
                              str(value.get("name"))))
            chains.setdefault(home, {})[str(value.get("name"))] = chain
        elif kind == "rule":
            owner = chains.get(home, {}).get(str(value.get("chain")))
            statements = value.get("expr")
            if owner is None or not isinstance(statements, list):
                raise Refused(f"{name}: item {place} of the ruleset is a rule without its chain")
            where = f"{name}: {' '.join(home)} {value.get('chain')}, handle {value.get('handle')}"
            owner.rules += nft_rules(Rule(where, nft_text(statements)), statements)
    return [(Table(f"{home[1]}-{chain}", chains[home]), chain)
            for _, _, home, chain in sorted(bases, key=lambda base: base[:2])]
