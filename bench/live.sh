#!/bin/sh
# A benchmark, not a test: `nfq live` beside `nfq play` on the same inputs, the least of so many runs: one port; eight
# ports over 1 and 8 places with 1, 2 and 4 feeders, also where queues go by feeder; 32 ports of which each hands its
# packets on to the next one's queue; no frame at all over 32 ports; 64 queues where nobody answers; and a script of
# 1,000 lines with a pool of 1, 2 and 4 workers. It prints the time and the processor time of each, how often those of
# `play` they are, and how many packets were lost for want of room. What threads gain depends on how many processors are
# free: the first line says so.
# usage: bench/live.sh [PROGRAM [RUNS]]    without PROGRAM nfq is built, and without RUNS there are nine
set -eu
top=$(cd "$(dirname "$0")/.." && pwd)
# As ./nfq has it, so that each run takes its memory alike.
export GLIBC_TUNABLES=glibc.malloc.hugetlb=1
if [ $# -gt 0 ]; then
    program=$(cd "$(dirname "$1")" && pwd)/$(basename "$1")
else
    program=$top/nfq
    "$program" build
fi
work=$(mktemp -d)
trap 'rm -rf "$work"' EXIT
cd "$work"
python3 - "$program" "${2:-9}" <<'PY'
import os, struct, subprocess, sys, time

PROGRAM, RUNS = sys.argv[1], int(sys.argv[2])
FILES = ["rules", "script", "in.pcap", "out.pcap", "ledger", "journal"]
LOST = ("overflow", "userfull")

def rules(queues):
    over = "num 0" if queues == 1 else f"balance 0:{queues - 1}"
    return f"*filter\n-A FORWARD -j NFQUEUE --queue-{over}\nCOMMIT\n"

def ports(count, answer):
    """So many ports, each with a queue of its own, which answer each packet so."""
    return "".join(
        f"port {7 + q}\nopen config {q} bind params packet 0 maxlen 65536\n{answer(q)}" for q in range(count))

# A packet goes to the queue of its feeder.
FAN_OUT = rules(8).replace("0:7", "0:7 --queue-cpu-fanout")

def accept(queue):
    return "on any do verdict this accept this\n"

def onward(queue):
    """Handed on to the next port's queue, and accepted by the last."""
    return f"on any do verdict this queue:{queue + 1} this\n" if queue < 31 else accept(queue)

# No line but the last holds of a UDP packet of 60 bytes.
DEAR = "port 7\nopen config 0 bind params packet 60\n" \
    + "on longer 20 and proto 6 do verdict this drop this\n" * 998 + accept(0)

UNANSWERED = "port 7\n" + "".join(f"open config {q} bind params packet 0\n" for q in range(64))

def capture(frames):
    """Packets of 60 bytes, each of an address of its own."""
    head = struct.pack("<IHHIIII", 0xA1B2C3D4, 2, 4, 0, 0, 262144, 101)
    packet = ">HHIBBHII"
    return head + b"".join(
        struct.pack("<IIII", n, 0, 60, 60)
        + struct.pack(packet, 0x4500, 60, 0, 64, 17, 0, 0x0A000000 + n, 0x0A000001) + bytes(40)
        for n in range(1, frames + 1))

def measured(words):
    """The least time of the runs, in seconds, with its processor time, and how many packets were lost at most."""
    runs, lost = [], 0
    for _ in range(RUNS):
        start = time.monotonic()
        child = subprocess.Popen([PROGRAM, *words], stdout=subprocess.DEVNULL)
        _, status, usage = os.wait4(child.pid, 0)
        if status != 0:
            sys.exit(f"{' '.join(words)} ended with {status >> 8}")
        runs.append((time.monotonic() - start, usage.ru_utime + usage.ru_stime))
        with open("ledger") as ledger:
            lost = max(lost, sum(line.split()[1] in LOST for line in ledger))
    return *min(runs), lost

SHAPES = [
    # name, frames, rules, script, sizes of the run
    ("1 port", 200_000, rules(1), ports(1, accept), ("1",)),
    ("8 ports", 200_000, rules(8), ports(8, accept), ("1", "8", "8 2", "8 4")),
    ("8 ports, queues by feeder", 200_000, FAN_OUT, ports(8, accept), ("8", "8 2", "8 4")),
    ("32 hops", 6_250, rules(1), "mail 8192\n" + ports(32, onward), ("8 4",)),
    ("no frame, 32 ports", 0, rules(32), ports(32, accept), ("64",)),
    ("nobody answers, 64 queues", 4_000, rules(64), UNANSWERED, ("64", "64 4")),
    ("a script of 1,000 lines", 50_000, rules(1), DEAR, ("8 1 1", "8 1 2", "8 1 4")),
]
print(f"{os.cpu_count()} processors, load {os.getloadavg()[0]:.1f}; the least of {RUNS} runs")
for name, frames, rules_text, script, sizes in SHAPES:
    for path, text in zip(FILES, (rules_text.encode(), script.encode(), capture(frames))):
        with open(path, "wb") as out:
            out.write(text)
    took, spent, lost = measured(["play", *FILES])
    print(f"{name}, {frames} frames: play {took:.3f} s, {spent:.3f} s of processor time, {lost} lost")
    for size in sizes:
        its, own, lost = measured(["live", *FILES, *size.split()])
        print(f"  live {size:6} {its:.3f} s, {own:.3f} s; {its / took:.2f} and {own / spent:.2f} times; {lost} lost")
PY
