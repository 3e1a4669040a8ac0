"""What to do about a capture that the program refuses (docs/FORMATS.md, Capture), and how many
frames each part of a large one may have.
"""
import mmap
import struct

MAX_FILE, MAX_FRAMES, MAX_FRAME = 67_108_864, 200_000, 262_144
FILE_HEADER, RECORD_HEADER = 24, 16
ORDERS = {b"\xd4\xc3\xb2\xa1": ("<", "pcap"), b"\xa1\xb2\xc3\xd4": (">", "pcap"),
          b"\x4d\x3c\xb2\xa1": ("<", "nsecpcap"), b"\xa1\xb2\x3c\x4d": (">", "nsecpcap")}
COOKED, RADIO, PLAIN = (113, 276), (105, 119, 127), (0, 12, 14, 108)


def quoted(name):
    """A name as a word of the shell."""
    safe = all(it.isalnum() or it in "_./-+,:@%" for it in name)
    return name if name and safe else "'" + name.replace("'", "'\\''") + "'"


def start_of(name):
    """A file's first four bytes, or fewer."""
    try:
        with open(name, "rb") as file:
            return file.read(4)
    except OSError:
        return b""


def link_remedy(word, name):
    link = int(word) if word.isascii() and word.isdigit() and len(word) < 11 else -1
    if link in COOKED:
        return ["this is a cooked capture, as `tcpdump -i any` makes: "
                f"tools/capture {name} new.pcap makes it Ethernet, or capture on one interface, "
                "by its name"]
    if link in RADIO:
        return ["this is a capture of radio frames: capture on an interface of Ethernet or raw IP"]
    if link in PLAIN:
        return [f"tools/capture {name} new.pcap makes it one that is supported"]
    return ["supported are the link types 1 (Ethernet), 101 (raw IP), 228 (IPv4) and 229 (IPv6)"]


def magic_remedy(file, name):
    start = start_of(file)
    if not start:
        return ["the file is empty"]
    if start[:2] == b"\x1f\x8b":
        return [f"this is compressed: tools/capture {name} new.pcap reads it, or gunzip it"]
    if start == bytes.fromhex("28b52ffd"):
        return ["this is compressed: unzstd it"]
    if start[:2] == b"BZ" or start == bytes.fromhex("fd377a58"):
        return [f"this is compressed: {'bunzip2' if start[:2] == b'BZ' else 'unxz'} it"]
    return ["this is no capture: tcpdump -w makes one, and editcap -F pcap makes one of other "
            "kinds"]


def capture_remedies(why, file, shown):
    """What to do about a capture of this name that was refused so."""
    name, words = quoted(shown), why.split()
    if why == "pcapng":
        return [f"this is pcapng: tools/capture {name} new.pcap, "
                f"or editcap -F pcap {name} new.pcap"]
    if why == "no pcap magic":
        return magic_remedy(file, name)
    if why == "version":
        return ["only version 2.4 of the format is supported: "
                f"editcap -F pcap {name} new.pcap"]
    if words[:2] == ["link", "type"]:
        return link_remedy(words[-1], name)
    if why.endswith(" is cut"):
        if words[1:2] == ["0"]:
            return ["the file ends within its header: it has no frame"]
        return ["the file is cut short, as if tcpdump was still writing; this keeps the whole "
                f"frames: tcpdump -r {name} -w new.pcap"]
    if why.endswith(" bytes"):
        return [f"no frame has more than {MAX_FRAME} bytes: the file is damaged"]
    return []


def sizes(file):
    """The bytes of each record of a pcap file, up to the first that isn't whole; and the format."""
    with open(file, "rb") as it, mmap.mmap(it.fileno(), 0, access=mmap.ACCESS_READ) as data:
        order, kind = ORDERS[data[:4]]
        length_of, at, found = struct.Struct(order + "I").unpack_from, FILE_HEADER, []
        while at + RECORD_HEADER <= len(data):
            size = RECORD_HEADER + length_of(data, at + 8)[0]
            if size > RECORD_HEADER + MAX_FRAME or at + size > len(data):
                break
            found.append(size)
            at += size
    return found, kind


def part_frames(records):
    """The largest number for which any so many records after each other make a part that isn't too
    large."""
    most, first, room = MAX_FRAMES, 0, MAX_FILE - FILE_HEADER
    for last, size in enumerate(records):
        room -= size
        while room < 0:
            most = min(most, last - first)
            room += records[first]
            first += 1
    return most


def split_remedy(file, shown):
    try:
        records, kind = sizes(file)
    except (OSError, KeyError, ValueError):
        return f"tools/capture --frames A-B {quoted(shown)} part.pcap writes the frames A to B"
    count = part_frames(records)
    parts = -(-len(records) // count)
    return (f"it has {len(records)} frames: editcap -F {kind} -c {count} {quoted(shown)} part.pcap "
            f"writes {parts} part{'s' * (parts != 1)} of at most {count}")


def large_remedies(what, file, shown):
    """What to do about an input that is too large."""
    if what in ("rules", "script"):
        return ["at most 1048576 bytes"]
    if what == "journal":
        return ["at most 536870912 bytes"]
    if what == "capture" and start_of(file) == b"\x0a\x0d\x0d\x0a":
        return [f"at most {MAX_FILE} bytes, and no pcapng: tools/capture --frames A-B "
                f"{quoted(shown)} part.pcap writes the frames A to B"]
    limit = f"at most {MAX_FILE} bytes" if what == "capture" else f"at most {MAX_FRAMES} frames"
    return [limit, split_remedy(file, shown)]
