"""Lines of JSON in the manner of Suricata's EVE, for the tools beside it: an object a line, with
timestamp, flow_id, pcap_cnt, vlan, src_ip, src_port, dest_ip, dest_port and proto where they are
known, and what nfq adds.
"""
import json
from datetime import datetime, timedelta, timezone

from formats import FATES, request_words, verdict_words
from packets import address, flow_id
from run_files import packets_of

BEGINNING = datetime(1970, 1, 1, tzinfo=timezone.utc)
PROTO = {58: "IPv6-ICMP"}  # as EVE has it
RELEASED = {True: "accept", False: "drop", None: None}


def timestamp(nanoseconds):
    """`2026-11-30T18:00:00.000500+0000`; None for a time that no date has."""
    try:
        time = BEGINNING + timedelta(microseconds=nanoseconds // 1000)
    except OverflowError:
        return None
    return time.strftime("%Y-%m-%dT%H:%M:%S.%f+0000").rjust(31, "0")


def ends_fields(ends, vlans):
    source, destination = ends.ports or (None, None)
    return {"flow_id": flow_id(ends, vlans),
            "src_ip": address(ends.source), "src_port": source,
            "dest_ip": address(ends.destination), "dest_port": destination,
            "proto": PROTO.get(ends.protocol, ends.proto())}


def packet_fields(number, first):
    """What is known of a packet: `first` is the First of a run, or None."""
    fields = {"timestamp": None, "flow_id": None, "pcap_cnt": number}
    if first is None:
        return fields
    fields["timestamp"] = timestamp(first.time)
    fields["vlan"] = first.vlans or None
    if first.ends:
        fields.update(ends_fields(first.ends, first.vlans))
    return fields


def ledger_fields(line, first):
    """A line of a ledger."""
    return {**packet_fields(line.number, first), "event_type": "fate", "fate": line.fate,
            "verdict": RELEASED[FATES[line.fate][0]], "queue": line.queue, "at": line.at,
            "mark": line.mark, "priority": line.priority, "length": line.length}


def request_fields(request):
    """What a message asks."""
    fields = {"event_type": request.kind, "asks": request_words(request)}
    if request.kind in ("verdict", "batch") and request.verdict is not None:
        name, *rest = verdict_words(request.verdict)[0].lower().split()
        fields["verdict"] = name
        if name == "queue":
            fields["to_queue"] = int(rest[0])
        fields["id"] = request.id
    fields["set_mark"] = request.value.get("mark")
    fields["set_priority"] = request.value.get("priority")
    return fields


def entry_fields(entry, firsts):
    """An entry of a queue's history. One about a single packet has what is known of that."""
    about = packets_of(entry)
    fields = {}
    if len(about) == 1:
        packet, visit = about[0]
        fields = {**packet_fields(packet, firsts.get(packet)), "visit": visit}
    if entry.kind == "A":
        fields |= {"event_type": "arrival", "outcome": entry.outcome, "id": entry.id,
                   "table": entry.table, "mark": entry.mark, "priority": entry.priority,
                   "length": len(entry.data)}
    elif entry.kind == "M":
        fields |= {**request_fields(entry.request), "port_id": entry.port, "message": entry.call,
                   "errno": entry.errno}
    elif entry.kind == "C":
        fields |= {"event_type": "close", "port_id": entry.port}
    else:
        fields |= {"event_type": "device_down", "device": entry.port}
    if entry.kind != "A":
        fields["packets"] = [packet for packet, _ in entry.left]
    return {**fields, "queue": entry.queue, "at": entry.at, "waiting": entry.waiting}


def logged_fields(line, firsts):
    """A line of a port's log."""
    if line.kind == "R":
        return {**packet_fields(line.packet, firsts.get(line.packet)), "event_type": "notice",
                "port_id": line.port, "queue": line.queue, "visit": line.visit}
    if line.kind == "X":
        return {"event_type": "closed", "port_id": line.port}
    fields = {**request_fields(line.request), "port_id": line.port, "message": line.call}
    if line.request.kind != "raw":
        fields["queue"] = line.request.queue
    return {**fields, "errno": line.answer}


def json_line(fields):
    """An object on one line, without the fields that aren't known."""
    return json.dumps({name: value for name, value in fields.items() if value is not None})
