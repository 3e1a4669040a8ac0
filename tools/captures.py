"""Reads captures for the tools beside it: pcap and pcapng, of either byte order, also gzipped; and
writes both. What isn't one is refused at its first bad record or block (pcap-savefile(5), the
draft of pcapng).
"""
import gzip
import shutil
import struct
import tempfile
import zlib
from contextlib import contextmanager
from typing import NamedTuple

from formats import Refused

BILLION = 10**9
MAX_BYTES = 1 << 24  # of a block or a record: more is a damaged length, as Wireshark has it
MAX_CAPTURED = 262144  # bytes of a frame that nfq takes
PCAP = {b"\xd4\xc3\xb2\xa1": ("<", 1000), b"\xa1\xb2\xc3\xd4": (">", 1000),
        b"\x4d\x3c\xb2\xa1": ("<", 1), b"\xa1\xb2\x3c\x4d": (">", 1)}  # and nanoseconds a unit
MAGIC = b"\x0a\x0d\x0d\x0a"  # of pcapng: the kind of its first block
SECTION, INTERFACE, OLD_PACKET, SIMPLE_PACKET, PACKET = 0x0A0D0D0A, 1, 2, 3, 6
ORDERS = {b"\x4d\x3c\x2b\x1a": "<", b"\x1a\x2b\x3c\x4d": ">"}
COMMENT, RESOLUTION, OFFSET = 1, 9, 14  # options of packets and interfaces
MAX_COMMENT = 65532
GZIP = b"\x1f\x8b"
OTHERS = {b"\x28\xb5\x2f\xfd": "unzstd", b"\xfd7zX": "unxz", b"BZh9": "bunzip2"}


class Cut(Refused):
    """The file ends within a record or a block; what came before it is whole."""


class Frame(NamedTuple):
    """A frame: its number from 1, its link type, its time in nanoseconds since 1970, its length on
    the wire, and the bytes that were captured of it."""
    number: int
    link: int
    time: int
    length: int
    data: bytes


class Interface(NamedTuple):
    """An interface of pcapng: its link type, the most bytes of a frame (0: all), how many units of
    time a second has, and what is added to the seconds."""
    link: int
    most: int
    units: int
    offset: int

    def time(self, high, low):
        return (high << 32 | low) * BILLION // self.units + self.offset * BILLION


class Source:
    """A file, unpacked where it is gzipped, and how many bytes of it were read."""

    def __init__(self, name, file):
        self.name, self.at, self.file = name, 0, file
        file.seek(0)
        if file.read(2) == GZIP:
            self.file = gzip.GzipFile(fileobj=file, mode="rb")
        file.seek(0)

    def take(self, count):
        """The next bytes; fewer at the end of the file."""
        try:
            data = self.file.read(count)
        except EOFError:
            raise Cut(f"{self.name}: the gzip file is cut, {self.at} bytes were unpacked") from None
        except (zlib.error, gzip.BadGzipFile):
            raise Refused(f"{self.name}: the gzip file is damaged, "
                          f"{self.at} bytes were unpacked") from None
        self.at += len(data)
        return data


@contextmanager
def opened(name):
    """A capture file, for `frames_of`. What can't be read twice is kept in a temporary file."""
    if name == "-":
        raise Refused("-: name a file, or /dev/stdin")
    try:
        file = open(name, "rb")
    except (OSError, ValueError) as error:
        raise Refused(f"{name}: {getattr(error, 'strerror', None) or error}") from None
    with file:
        if file.seekable():
            yield file
            return
        with tempfile.TemporaryFile() as kept:
            head = file.read(4)
            kept.write(head)
            if head in PCAP or head == MAGIC or head[:2] == GZIP:
                shutil.copyfileobj(file, kept)
            yield kept


def frames_of(name, file):
    """The frames of an opened capture, from its beginning."""
    try:
        source = Source(name, file)
        head = source.take(4)
        if head == MAGIC:
            return blocks(source)
        if head in PCAP:
            return records(source, *PCAP[head])
    except OSError as error:
        raise Refused(f"{name}: {error.strerror or error}") from None
    if not head:
        raise Refused(f"{name}: empty, and no capture")
    if head in OTHERS:
        raise Refused(f"{name}: this is compressed: {OTHERS[head]} it")
    raise Refused(f"{name}: not a capture: neither pcap nor pcapng")


def read_frames(name):
    """The frames of a capture by its name."""
    with opened(name) as file:
        yield from frames_of(name, file)


# ---- pcap


def records(source, end, unit):
    head = source.take(20)
    if len(head) < 20:
        raise Cut(f"{source.name}: the file's header is cut")
    major, minor, _, _, _, link = struct.unpack(f"{end}HHiIII", head)
    if (major, minor) != (2, 4):
        raise Refused(f"{source.name}: version {major}.{minor} of pcap, and not 2.4")
    header, link, number = struct.Struct(f"{end}IIII"), link & 0xFFFF, 0
    while head := source.take(16):
        number, at = number + 1, source.at - len(head)
        if len(head) == 16:
            seconds, parts, captured, length = header.unpack(head)
            if captured > MAX_BYTES:
                raise Refused(f"{source.name}: record {number} at byte {at} has {captured} bytes")
            data = source.take(captured)
        if len(head) < 16 or len(data) < captured:
            raise Cut(f"{source.name}: record {number} at byte {at} is cut")
        yield Frame(number, link, seconds * BILLION + parts * unit, length, data)


# ---- pcapng


class Bad(Exception):
    """What is wrong with a block, in words."""


def blocks(source):
    """The frames of a file's blocks. Blocks count from 1 over all sections."""
    end, interfaces, number, place, time = "<", [], 0, 0, 0
    head = MAGIC + source.take(4)
    while head:
        place, at = place + 1, source.at - len(head)
        where = f"{source.name}: block {place} at byte {at}"
        try:
            kind, end, body = block(source, head, end)
            if kind == SECTION:
                interfaces = []
            elif kind == INTERFACE:
                interfaces.append(interface(end, body))
            elif kind in (PACKET, OLD_PACKET, SIMPLE_PACKET):
                number += 1
                link, stamp, length, data = packet(end, kind, body, interfaces)
                time = time if stamp is None else stamp
                yield Frame(number, link, time, length, data)
        except EOFError:
            raise Cut(f"{where} is cut") from None
        except Bad as why:
            raise Refused(f"{where} {why}") from None
        except struct.error:
            raise Refused(f"{where} is too short for its kind") from None
        head = source.take(8)


def exactly(source, count):
    data = source.take(count)
    if len(data) < count:
        raise EOFError
    return data


def block(source, head, end):
    """A block's kind, its byte order, which a section sets, and its body."""
    if len(head) < 8:
        raise EOFError
    magic = b""
    if head[:4] == MAGIC:
        magic = exactly(source, 4)
        end = ORDERS.get(magic)
        if end is None:
            raise Bad("has no byte order of pcapng")
    kind, size = struct.unpack(f"{end}II", head)
    if size < 12 + len(magic) or size % 4 or size > MAX_BYTES:
        raise Bad(f"has the length {size}")
    body = magic + exactly(source, size - 8 - len(magic))
    again = struct.unpack(f"{end}I", body[-4:])[0]
    if again != size:
        raise Bad(f"begins with the length {size} and ends with {again}")
    if kind == SECTION and (major := struct.unpack_from(f"{end}H", body, 4)[0]) != 1:
        raise Bad(f"is of version {major} of pcapng, and not 1")
    return kind, end, body[:-4]


def interface(end, body):
    """What an interface block says."""
    link, _, most = struct.unpack_from(f"{end}HHI", body)
    units, offset, at = 10**6, 0, 8
    while len(body) >= at + 4:
        code, size = struct.unpack_from(f"{end}HH", body, at)
        value = body[at + 4:at + 4 + size]
        if code == 0:
            break
        if code == RESOLUTION and value:
            units = 1 << (value[0] & 127) if value[0] & 128 else 10**value[0]
        elif code == OFFSET and size == 8:
            offset = struct.unpack(f"{end}q", value)[0]
        at += 4 + (size + 3) // 4 * 4
    return Interface(link, most, units, offset)


def packet(end, kind, body, interfaces):
    """A packet block's link type, time, length and bytes; a simple one has no time."""
    if kind == SIMPLE_PACKET:
        index, at, length = 0, 4, struct.unpack_from(f"{end}I", body)[0]
    else:
        shape = f"{end}IIIII" if kind == PACKET else f"{end}HxxIIII"
        index, high, low, captured, length = struct.unpack_from(shape, body)
        at = 20
    if index >= len(interfaces):
        raise Bad(f"names interface {index} of {len(interfaces)}")
    origin = interfaces[index]
    if kind == SIMPLE_PACKET:
        captured = min(length, origin.most or length)
    if captured > len(body) - at:
        raise Bad(f"has no room for the {captured} bytes of its frame")
    time = None if kind == SIMPLE_PACKET else origin.time(high, low)
    return origin.link, time, length, body[at:at + captured]


# ---- writing


@contextmanager
def written(name):
    """A file to write. What can't be written is refused by its name."""
    if name == "-":
        raise Refused("-: name a file, or /dev/stdout")
    try:
        with open(name, "wb") as file:
            yield file
    except OSError as error:
        raise Refused(f"{name}: {error.strerror or error}") from None


def write_pcap(file, link, is_nano, frames):
    """Writes a capture that nfq takes, and answers how many frames it has."""
    magic, unit = (0xA1B23C4D, 1) if is_nano else (0xA1B2C3D4, 1000)
    file.write(struct.pack("<IHHiIII", magic, 2, 4, 0, 0, MAX_CAPTURED, link))
    count = 0
    for count, frame in enumerate(frames, 1):
        seconds, nanos = divmod(frame.time, BILLION)
        file.write(struct.pack("<IIII", seconds, nanos // unit, len(frame.data), frame.length))
        file.write(frame.data)
    return count


def padded(data):
    return data + bytes(-len(data) % 4)


def put_block(file, kind, body):
    size = struct.pack("<I", len(body) + 12)
    file.write(struct.pack("<I", kind) + size + body + size)


def option(code, value):
    return struct.pack("<HH", code, len(value)) + padded(value)


def write_pcapng(file, frames):
    """Writes (frame, comment) as pcapng, with an interface for each link type."""
    put_block(file, SECTION, struct.pack("<IHHq", 0x1A2B3C4D, 1, 0, -1))
    interfaces = {}
    for frame, comment in frames:
        if frame.link not in interfaces:
            interfaces[frame.link] = len(interfaces)
            nanoseconds = option(RESOLUTION, b"\x09") + option(0, b"")
            put_block(file, INTERFACE, struct.pack("<HHI", frame.link, 0, 0) + nanoseconds)
        head = struct.pack("<IIIII", interfaces[frame.link], frame.time >> 32 & 0xFFFFFFFF,
                           frame.time & 0xFFFFFFFF, len(frame.data), frame.length)
        text = comment.encode("utf-8", "replace")[:MAX_COMMENT].decode("utf-8", "ignore")
        put_block(file, PACKET, head + padded(frame.data) + option(COMMENT, text.encode())
                  + option(0, b""))
