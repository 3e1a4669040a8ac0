"""Runs a program under inspection over the notices of a run, in a process of its own in which
stand_in/netfilterqueue.py is the module that it is written for, and hears what it asks.
"""
import os
import pickle
import shutil
import subprocess
import sys
from collections import defaultdict
from contextlib import suppress
from pathlib import Path
from threading import Thread, Timer

from answers import Ask
from formats import Refused

TOP = Path(__file__).resolve().parent
NO_PART = "iptables", "ip6tables", "nft", "sysctl", "modprobe"


def name_of(packet):
    return f"packet {packet.packet}" + (f", visit {packet.visit}" if packet.visit > 1 else "")


def ask_of(said):
    return Ask(said[0], said[1], settings=said[2:]) if said[0] == "bind" else Ask(*said)


def record(notice, keys):
    """A notice for the program's process."""
    return pickle.dumps((keys[notice.port], notice.queue, notice.id, notice.mark, notice.protocol,
                         notice.time, notice.shown))


def records(file):
    """What the program's process writes, until its end."""
    while True:
        try:
            yield pickle.load(file)
        except (EOFError, pickle.UnpicklingError):
            return


def send(source, value):
    try:
        return source.send(value)
    except StopIteration:
        return None


class Heard:
    """What a program asked in a run: as its ports open, at each notice, and at the end. Ports are
    known by the first queue that they bind."""

    def __init__(self, notices, asked, keys):
        self.opens, self.ends = defaultdict(list), defaultdict(list)
        self.answers, self.ended, self.moved = [[] for _ in notices], None, 0
        following = self.following(notices, keys)
        for place, key, ask in asked:
            if key is None:
                self.ended = place
                continue
            ask = ask_of(ask)
            if place == 0:
                self.opens[key].append(ask)
                continue
            own = following(place, key)
            if own is None:
                self.ends[key].append(ask)
            else:
                self.moved += own != place - 1
                self.answers[own].append(ask)

    @staticmethod
    def following(notices, keys):
        """A function to the place of the next notice of a port, from that of the last notice that
        was handed out on."""
        places = defaultdict(list)
        for place, notice in enumerate(notices):
            places[keys[notice.port]].append(place)
        at = defaultdict(int)

        def follow(given, key):
            if given < 0:
                return None
            own = places[key]
            while at[key] < len(own) and own[at[key]] < given - 1:
                at[key] += 1
            return own[at[key]] if at[key] < len(own) else None

        return follow


class Inspector:
    """The program under inspection."""

    def __init__(self, asked, folder):
        self.asked, self.folder = asked, folder
        tools = Path(folder, "bin")
        tools.mkdir()
        for name in NO_PART:
            (tools / name).symlink_to(shutil.which("true") or "/bin/true")
        self.environment = {**os.environ, "PYTHONPATH": os.pathsep.join(
            [str(TOP / "stand_in"), *filter(None, [os.environ.get("PYTHONPATH")])]),
            "PYTHONDONTWRITEBYTECODE": "1", "PYTHONHASHSEED": "0",
            "PATH": f"{tools}{os.pathsep}{os.environ.get('PATH', '')}"}

    def hear(self, source, keys):
        """Runs the program over a list of notices, or over those of a generator, to which what is
        asked at each is sent back. Answers the notices and what was heard; of a generator, whose
        notices may never come, until the program failed."""
        is_forecast = not isinstance(source, list)
        down, up = os.pipe(), os.pipe()
        command = [sys.executable, "-c", "import sys, netfilterqueue; "
                   "netfilterqueue.main(*sys.argv[1:])", str(down[0]), str(up[1]),
                   " ".join(map(str, keys.values())), self.asked.program, *self.asked.arguments]
        with open(f"{self.folder}/said", "wb") as said, \
                open(f"{self.folder}/errors", "wb") as errors:
            child = subprocess.Popen(command, env=self.environment, stdin=subprocess.DEVNULL,
                                     stdout=said, stderr=errors, pass_fds=(down[0], up[1]))
        os.close(down[0]), os.close(up[1])
        limit = Timer(self.asked.seconds, child.kill)
        limit.start()
        try:
            with open(down[1], "wb") as notices, open(up[0], "rb") as asked:
                talk = self.talk if is_forecast else self.tell
                notices, asked = talk(source, keys, notices, asked)
            status = child.wait()
        finally:
            is_late = not limit.is_alive()
            limit.cancel()
            child.kill()
            child.wait()
        heard = Heard(notices, asked, keys)
        heard.has_failed = status not in (0, -2, 130) or heard.ended in (None, 0)
        if not heard.has_failed or is_forecast and not is_late:
            return notices, heard
        self.show()
        raise Refused(f"{self.asked.program}: "
                      f"{self.failure(None if is_late else status, heard, notices)}")

    @staticmethod
    def tell(source, keys, notices, asked):
        """Hands out a list of notices. Answers it, and what was asked until the program's end."""
        def write():
            # A program may end before the last of them.
            with suppress(BrokenPipeError):
                for notice in source:
                    notices.write(record(notice, keys))
            with suppress(BrokenPipeError):
                notices.close()

        writer = Thread(target=write)
        writer.start()
        heard = [one for one in records(asked) if one[2] != "done"]
        writer.join()
        return source, heard

    @staticmethod
    def talk(source, keys, notices, asked):
        """Hands out notices one by one. Answers them, and what was asked until the program's
        end."""
        ports = {key: port for port, key in keys.items()}
        given, heard, pending = [], [], []
        notice = next(source, None)
        with suppress(BrokenPipeError):
            while notice is not None:
                notices.write(record(notice, keys))
                notices.flush()
                given.append(notice)
                for place, key, ask in records(asked):
                    if ask == "done":
                        break
                    heard.append((place, key, ask))
                    if key in ports:
                        pending.append((ports[key], ask_of(ask)))
                else:
                    break
                notice, pending = send(source, pending), []
        with suppress(BrokenPipeError):
            notices.close()
        heard += [one for one in records(asked) if one[2] != "done"]
        return given, heard

    def failure(self, status, heard, notices):
        """Why what the program asked can't be taken."""
        if status is None:
            return f"it didn't end within {self.asked.seconds} seconds"
        if status == 0:
            if heard.ended is None:
                return "it ended without a word of what it asked"
            return "it ended before it waited for a packet" if heard.opens else "it binds no queue"
        if heard.ended is None:
            return f"it ended with status {status}"
        if heard.ended < 0:
            return f"it ended with status {status}, after the last packet"
        where = f"at {name_of(notices[heard.ended - 1])}" if heard.ended else "before any packet"
        return f"it ended with status {status}, {where}"

    def show(self):
        """Prints what the program printed in its last run."""
        for name, out in ("said", sys.stdout), ("errors", sys.stderr):
            with open(f"{self.folder}/{name}", "rb") as file:
                shutil.copyfileobj(file, out.buffer)
            out.flush()
