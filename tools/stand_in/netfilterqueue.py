"""Stands in for the module `netfilterqueue` while tools/inspect runs a program that is written for
it: the notices are those of a run of `nfq`, which are handed out in their order, and what the
program asks is written down with the number of notices that it had by then.

Where no notice is left the program gets the signal of Ctrl-C. Its clock (`time.time`) shows the
time of the frame whose notice came last, its random numbers begin at the same seed, and it seems to
be root. `tools/inspect --help` says what else there is to know. A socket is known by the first
queue that it binds.
"""
import atexit
import os
import pickle
import random
import runpy
import signal
import socket
import sys
import threading
import time

COPY_NONE, COPY_META, COPY_PACKET = 0, 1, 2
DROP, ACCEPT, REPEAT = 0, 1, 4
NAMES = {1: "ICMP", 6: "TCP", 17: "UDP", 58: "ICMPv6"}
END = -1      # where an ask stands that comes after the last notice
LATE = 0.02   # seconds for which another thread may answer before the next notice comes
PATIENCE = 2  # seconds after which a socket that nobody reads is passed over
LARGEST = 65531  # bytes of a packet that a notice shows
clock = time.monotonic


class Packet:
    """A packet that waits for a verdict."""

    def __init__(self, owner, notice):
        _, self._queue, self.id, self.mark, self.hw_protocol, self._time, shown = notice
        self.hook, self.indev, self.outdev, self.physindev, self.physoutdev = 2, 1, 2, 0, 0
        self._owner, self._shown, self._length = owner, shown, len(shown or b"")
        self._kept = self._new = self._new_mark = None
        self._is_answered = False

    def __str__(self):
        data = self._new or self._kept or self._shown or b""
        place = 6 if data[:1] and data[0] >> 4 == 6 else 9
        name = NAMES.get(data[place], "Unknown protocol") if len(data) > place else \
            "Unknown protocol"
        return f"{name} packet, {self._length} bytes"

    def get_hw(self):
        return None

    def get_payload(self):
        if self._new:
            return self._new
        if self._kept is not None:
            return self._kept
        if self._shown:
            return self._shown
        if not self._length:
            raise RuntimeError("Packet has no payload -- perhaps you're using COPY_META mode?")
        raise RuntimeError("Payload data is no longer available. You must call retain() within the "
                           "user_callback in order to copy the payload if you need to expect it "
                           "after your callback has returned.")

    payload = property(get_payload)

    def get_payload_len(self):
        return self._length

    def get_timestamp(self):
        return self._time

    def get_mark(self):
        return self.mark if self._new_mark is None else self._new_mark

    def set_mark(self, mark):
        self._new_mark = _number(mark, 32)

    def set_payload(self, payload):
        if not isinstance(payload, bytes):
            raise TypeError(f"Argument 'payload' has incorrect type (expected bytes, got "
                            f"{type(payload).__name__})")
        self._new = payload

    def retain(self):
        self._kept = self.get_payload()

    def accept(self):
        self._answer(ACCEPT)

    def drop(self):
        self._answer(DROP)

    def repeat(self):
        self._answer(REPEAT)

    def _answer(self, verdict):
        if self._is_answered:
            raise RuntimeError("Verdict already given for this packet")
        if self._queue not in self._owner._queues:
            raise RuntimeError("Parent queue has already been unbound")
        self._is_answered = True
        # As the module does it, an empty payload is none.
        _run.say(self._owner, ("verdict", self._queue, self.id, verdict, self._new_mark,
                               self._new or None))


class NetfilterQueue:
    """A socket that listens to queues."""

    def __init__(self, **_):
        self._key, self._callback, self._queues, self._ends = None, None, [], None

    def bind(self, queue_num, user_callback, max_len=1024, mode=COPY_PACKET, range=65535,
             sock_len=None):
        _number(queue_num, 16), _number(max_len, 32), _number(mode, 8), _number(range, 16)
        self._callback = user_callback
        if not _run.bind(self, queue_num):
            raise OSError(f"Failed to create queue {queue_num}.")
        _run.say(self, ("bind", queue_num, mode, min(range, LARGEST), max_len))

    def unbind(self):
        if self._queues:
            _run.unbind(self, self._queues[-1])

    def get_fd(self):
        if self._ends is None:
            self._ends = socket.socketpair()
            _run.watch()
        return self._ends[0].fileno()

    def run(self, block=True):
        while _run.hand_over(self, block):
            pass

    def run_socket(self, s):
        self.run(s.gettimeout() != 0)


def _number(value, bits):
    """The number, where a field of so many bits has it."""
    value = value.__index__()
    if not 0 <= value < 1 << bits:
        raise OverflowError(f"{value} doesn't fit {bits} bits")
    return value


class _Run:
    """The notices that are left, and what was asked."""

    def __init__(self, notices, asked, expected):
        for descriptor in int(notices), int(asked):
            os.set_inheritable(descriptor, False)
        self.notices = open(int(notices), "rb")
        self.asked = open(int(asked), "wb", buffering=0)
        self.turn = threading.Condition(threading.RLock())
        # the queues that were bound before the first notice, when the program ran before
        self.expected = set(map(int, expected.split()))
        self.bound, self.deaf = {}, set()
        self.given, self.takers, self.is_busy, self.is_over = 0, 0, False, False
        self.watcher = None
        self.advance()
        self.now = self.head[5] if self.head else 0.0

    def advance(self):
        try:
            self.head = pickle.load(self.notices)
        except EOFError:
            self.head = None
        self.moved = clock()

    def write(self, *record):
        self.asked.write(pickle.dumps(record))

    def say(self, owner, ask):
        with self.turn:
            self.write(END if self.is_over else self.given, owner._key, ask)
            self.moved = clock()
            self.turn.notify_all()

    def bind(self, owner, queue):
        with self.turn:
            if queue in self.bound:
                return False
            self.bound[queue] = owner
            owner._queues.append(queue)
            if owner._key is None:
                owner._key = queue
            return True

    def unbind(self, owner, queue):
        with self.turn:
            self.say(owner, ("unbind", queue))
            owner._queues.remove(queue)
            del self.bound[queue]

    # ---- notices

    def hand_over(self, owner, block):
        """Hands a notice to the callback of its socket. False where the caller's loop ends."""
        with self.turn:
            self.takers += 1
            try:
                notice = self.take(owner, block)
            finally:
                self.takers -= 1
        if notice is None:
            return False
        packet = Packet(owner, notice)
        try:
            if owner._callback is not None:
                owner._callback(packet)
        finally:
            packet._shown = None
            with self.turn:
                others = threading.active_count() - 1 - self.takers - (self.watcher is not None)
                if others > 0:
                    self.turn.wait_for(lambda: packet._is_answered, LATE)
                self.is_busy = False
                self.go_on()
                self.signal()
                self.turn.notify_all()
        return True

    def take(self, owner, block):
        self.deaf.discard(owner._key)
        if self.expected:
            # Other threads may still bind.
            self.turn.wait_for(lambda: self.expected <= self.bound.keys(), PATIENCE)
            self.expected = set()
        while True:
            if not self.is_busy:
                while self.head is not None and self.head[0] in self.deaf:
                    self.pass_over()
                if self.head is None:
                    return self.end(block)
                if self.head[0] == owner._key:
                    return self.give(owner)
            if not block:
                self.watch()
                return None
            self.turn.wait(PATIENCE)
            self.drop_deaf()

    def give(self, owner):
        notice = self.head
        if owner._ends is not None:
            owner._ends[0].setblocking(False)
            try:
                owner._ends[0].recv(64)
            except BlockingIOError:
                pass
        self.is_busy = True
        self.given += 1
        self.now = notice[5]
        return notice

    def go_on(self):
        """The notice that was handed out last is dealt with: the next one is asked for."""
        self.write(self.given, None, "done")
        self.advance()

    def pass_over(self):
        """The next notice is of a socket that nobody reads."""
        self.given += 1
        self.go_on()

    def drop_deaf(self):
        if not self.is_busy and self.head is not None and clock() - self.moved >= PATIENCE:
            self.deaf.add(self.head[0])
            self.pass_over()

    def signal(self):
        """Makes the descriptor of the socket whose notice is next readable."""
        owner = self.head and self.bound.get(self.head[0])
        if owner and owner._ends is not None:
            owner._ends[1].send(b"n")

    # ---- the end

    def end(self, block):
        if threading.active_count() - self.takers - (self.watcher is not None) > 0 and block:
            # Another thread may still bind or answer.
            while self.turn.wait(0.2):
                pass
        self.is_over = True
        if block and threading.current_thread() is threading.main_thread():
            signal.raise_signal(signal.SIGINT)
            raise KeyboardInterrupt
        self.watch()
        if block:
            raise SystemExit
        return None

    def watch(self):
        """Starts what sends the signal where a program doesn't wait in `run` for its end."""
        with self.turn:
            if self.watcher is None:
                self.watcher = threading.Thread(target=self.interrupt, daemon=True)
                self.watcher.start()
            self.signal()

    def interrupt(self):
        while True:
            time.sleep(0.1)
            with self.turn:
                self.drop_deaf()
                is_idle = self.head is None and not self.is_busy and clock() - self.moved > 0.1
                self.is_over = self.is_over or is_idle
            if is_idle:
                signal.pthread_kill(threading.main_thread().ident, signal.SIGINT)
                time.sleep(0.5)

    def finish(self):
        """The program ends: the sockets that it leaves open are closed."""
        if not self.is_over:
            for queue, owner in list(self.bound.items()):
                self.unbind(owner, queue)
        self.write(END if self.is_over else self.given, None, "ended")


def _quiet(kind, value, trace):
    """An interrupt at the end is no fault of the program."""
    if not (_run.is_over and issubclass(kind, KeyboardInterrupt)):
        sys.__excepthook__(kind, value, trace)


def main(notices, asked, expected, program, *arguments):
    """Runs the program, in a process of its own."""
    global _run
    _run = _Run(notices, asked, expected)
    atexit.register(_run.finish)
    sys.excepthook = _quiet
    signal.signal(signal.SIGINT, signal.default_int_handler)
    time.time = lambda: _run.now
    time.time_ns = lambda: round(_run.now * 1e9)
    os.getuid = os.geteuid = lambda: 0
    random.seed(0)
    sys.argv = [program, *arguments]
    sys.path[0] = os.path.dirname(os.path.abspath(program))
    runpy.run_path(program, run_name="__main__")
