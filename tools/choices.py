"""What several tools take as options: moments, ranges of numbers, and sides of flows. Each reader
refuses a word by argparse's own error, which is status 2.
"""
import re
from argparse import ArgumentTypeError
from datetime import datetime, timedelta, timezone
from ipaddress import ip_network
from typing import NamedTuple

BILLION = 10**9
SECONDS = re.compile(r"(\+?)([0-9]{1,12})(?:\.([0-9]{1,9}))?")
DATE = re.compile(r"([0-9]{4}-[0-9]{2}-[0-9]{2}[T ][0-9]{2}:[0-9]{2}:[0-9]{2})"
                  r"(?:\.([0-9]{1,9}))?(?:Z|([+-])([0-9]{2}):?([0-9]{2}))?")
RANGE = re.compile("([0-9]{1,12})(-?)([0-9]{0,12})")
SIDE = re.compile(r"(?:\[([^\]]*)\]|([^:]*))(?::([0-9]{1,5}))?")
MOMENTS = "seconds since 1970, a date and time as 2026-11-30T18:00:00 (UTC, or with a zone as " \
          "+01:00), or +SECONDS after the first frame"


class Moment(NamedTuple):
    """A time in nanoseconds, since 1970 or since the first frame."""
    nanoseconds: int
    is_relative: bool

    def since(self, start):
        return self.nanoseconds + (start if self.is_relative else 0)


def fraction(digits):
    return int((digits or "").ljust(9, "0"))


def moment(text):
    if found := SECONDS.fullmatch(text):
        sign, seconds, part = found.groups()
        return Moment(int(seconds) * BILLION + fraction(part), bool(sign))
    if found := DATE.fullmatch(text):
        date, part, sign, hours, minutes = found.groups()
        try:
            when = datetime.fromisoformat(date).replace(tzinfo=timezone.utc)
            zone = timedelta(hours=int(hours or 0), minutes=int(minutes or 0))
            when = when + zone if sign == "-" else when - zone
        except (ValueError, OverflowError):
            raise ArgumentTypeError(f"{text}: there is no such date or time") from None
        passed = when - datetime(1970, 1, 1, tzinfo=timezone.utc)
        return Moment((passed.days * 86400 + passed.seconds) * BILLION + fraction(part), False)
    raise ArgumentTypeError(f"{text}: a time is {MOMENTS}")


def is_between(time, start, first, last):
    """Whether a time is from `first` on and before `last`, each None for no limit."""
    return ((first is None or time >= first.since(start))
            and (last is None or time < last.since(start)))


def numbers(text):
    """The first and the last number of `A-B`, `A` or `A-`, which has no last one."""
    found = RANGE.fullmatch(text)
    first, last = (int(found[1]), int(found[3] or 0)) if found else (0, 0)
    if found and not found[2]:
        last = first
    elif found and not found[3]:
        last = None
    if not found or found[3] and not found[2] or not first or last is not None and last < first:
        raise ArgumentTypeError(f"{text}: numbers are A-B, A or A-, from 1 on")
    return first, last


class Side(NamedTuple):
    """A side of a flow: a network, or all where its bytes are 0, and a port or None."""
    size: int
    mask: int
    network: int
    port: int | None

    def has(self, address, port):
        return (self.port in (None, port)
                and (not self.size or len(address) == self.size
                     and int.from_bytes(address, "big") & self.mask == self.network))

    def is_of(self, ends):
        """Whether a packet comes from it or goes to it."""
        source, destination = ends.ports or (None, None)
        return self.has(ends.source, source) or self.has(ends.destination, destination)


def network(text):
    try:
        net = ip_network(text, strict=False)
    except ValueError:
        raise ArgumentTypeError(f"{text}: neither an address nor a network") from None
    return Side(net.max_prefixlen // 8, int(net.netmask), int(net.network_address), None)


def port(text):
    if not re.fullmatch("[0-9]{1,5}", text) or int(text) > 65535:
        raise ArgumentTypeError(f"{text}: a port is 0 to 65535")
    return Side(0, 0, 0, int(text))


def side(text):
    """The side that `A:P`, `[A]:P`, `A` or `:P` names."""
    found = SIDE.fullmatch(text)
    if not found:  # an IPv6 address without brackets has no port
        return network(text)
    host, number = found[1] or found[2], found[3]
    if not host and number is None:
        raise ArgumentTypeError(f"{text}: a side of a flow is A:P, [A]:P, A or :P")
    place = network(host) if host else Side(0, 0, 0, None)
    return place if number is None else place._replace(port=port(number).port)
