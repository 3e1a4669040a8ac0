#!/bin/sh
# A benchmark, not a test: what grows with which input. For each input it runs the program on it, on twice as much and on
# four times as much, and prints processor time and peak memory, and how often the time and memory of the half.
# usage: bench/growth.sh [PROGRAM]
set -eu
top=$(cd "$(dirname "$0")/.." && pwd)
program=${1:-$top/crates/nfq_cli/out/nfq_cli}
case $program in /*) ;; *) program=$PWD/$program ;; esac
[ -x "$program" ] || "$top/nfq" build
work=$(mktemp -d)
trap 'rm -rf "$work"' EXIT
cd "$work"
python3 - "$program" <<'PY'
import os, struct, subprocess, sys

PROGRAM = sys.argv[1]
FILES = ["rules", "script", "in", "out", "ledger", "journal"]
ONE_RULE = "*filter\n-A FORWARD -j NFQUEUE --queue-num 0\nCOMMIT\n"
OPENED = "port 7\nopen config 0 bind params packet 0 maxlen 200000\n"
ACCEPTED = OPENED + "on any do verdict this accept this\n"

def capture(frames, size=60):
    packet = bytes([0x45, 0, size >> 8, size & 255]) + bytes([0, 0, 0, 0, 64, 6, 0, 0, 10, 0, 0, 1, 10, 0, 0, 2])
    packet += bytes(size - 20)
    return struct.pack("<IHHIIII", 0xA1B2C3D4, 2, 4, 0, 0, 0, 101) + b"".join(
        struct.pack("<IIII", n, 0, size, size) + packet for n in range(1, frames + 1))

def rules(count):
    return "*filter\n" + "-A FORWARD -m mark --mark 0x1 -j NFQUEUE --queue-num 1\n" * (count - 1) \
        + "-A FORWARD -j NFQUEUE --queue-num 0\nCOMMIT\n"

def lines(count):
    return OPENED + "on proto 200 do verdict this drop this\n" * (count - 3) + "on any do verdict this accept this\n"

def waiting(count):
    """All wait; then each is accepted from the youngest to the oldest, by messages of 32 bytes."""
    raws = []
    for first in range(count, 0, -128):
        ids = range(first, max(first - 128, 0), -1)
        raws.append("raw " + b"".join(struct.pack("<IHHII", 32, 0x0301, 1, 0, 7) + struct.pack(">BBHHHII", 0, 0, 0, 0x0c00,
                    0x0200, 1, n) for n in ids).hex())
    text = ["mail 65536", "pace 0", OPENED.rstrip()]
    for at in range(0, len(raws), 8):
        text.append(f"on id {at // 8 + 1} do " + " ; ".join(raws[at:at + 8]))
    return "\n".join(text) + "\n"

SHAPES = [
    ("frames of a capture, each answered", (50_000, 100_000, 200_000), lambda n: (ONE_RULE, ACCEPTED, capture(n))),
    ("bytes of frames, 20,000 of them", (400, 800, 1600), lambda n: (ONE_RULE, ACCEPTED, capture(20_000, n))),
    ("rules of a table, 20,000 frames", (250, 500, 1000), lambda n: (rules(n), ACCEPTED, capture(20_000))),
    ("lines of a port, 20,000 frames", (250, 500, 1000), lambda n: (ONE_RULE, lines(n), capture(20_000))),
    ("packets that wait, answered from the youngest", (4_000, 8_000, 16_000), lambda n: (ONE_RULE, waiting(n), capture(n))),
    ("messages of one answer, 1,000 frames", (1, 2, 4), lambda n: (ONE_RULE, OPENED + "on any do " + " ; ".join(
        ["raw " + ("14000000020305000100000007000000" + "00000000") * 100] * n) + "\n", capture(1_000))),
]

def measured(words):
    """The least processor time of three runs, with its peak memory in MiB."""
    runs = []
    for _ in range(3):
        child = subprocess.Popen([PROGRAM, *words], stdout=subprocess.DEVNULL)
        _, status, usage = os.wait4(child.pid, 0)
        if status != 0:
            sys.exit(f"{words} ended with {status >> 8}")
        runs.append((usage.ru_utime + usage.ru_stime, usage.ru_maxrss / 1024))
    return min(runs)

def write(name, data):
    child = os.fork()
    if child == 0:
        with open(name, "wb") as it:
            it.write(data() if callable(data) else data)
        os._exit(0)
    os.waitpid(child, 0)

def told(name, sizes, command, make):
    print(name)
    before = None
    for size in sizes:
        make(size)
        now = measured(command)
        growth = "" if before is None else f"; {now[0] / before[0]:.1f} times the time of the half, {now[1] / before[1]:.1f} times its memory"
        print(f"  {size:7}: {now[0]:.3f} s of processor time, {now[1]:.0f} MiB at the peak{growth}")
        before = now

for name, sizes, shape in SHAPES:
    def make(size):
        for at, file in enumerate(("rules", "script", "in")):
            write(file, lambda: it if isinstance(it := shape(size)[at], bytes) else it.encode())
    told(name, sizes, ["play", *FILES], make)

def journal(size):
    line = "A 0 1 1 1 n y 0 0 1 0 2048 - 4500001400010000400600000a0000010a000002 noqueue\n"
    write("old", lambda: ("nfq-journal 2\n" + line * size + "end\n").encode())

told("lines of a journal, migrated", (500_000, 1_000_000, 2_000_000), ["migrate", "old", "new"], journal)
PY
