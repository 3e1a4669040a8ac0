#!/bin/sh
# A benchmark, not a test: many short runs of `nfq live` over many shapes, each of which must end and be accounted for.
# A shape is drawn by a seed: 1 to 8 ports with a queue each, 1 to 64 places, 1 to 4 feeders, a pool of 1 to 3, small and
# large mailboxes, answers that accept, drop, repeat, hand on or say nothing, devices that go down. Of each run: it ends
# with status 0 within its time; the ledger has each frame once, and OUT the frames whose fate is a release; one order of
# all events of all queues is found by a search of its own; and with one feeder and no pool its audit finds nothing.
# With LOAD so many other processes keep the processors busy meanwhile.
# usage: bench/runs.sh PROGRAM [RUNS [LOAD]]    without RUNS there are 1,000, without LOAD none
set -eu
program=$(cd "$(dirname "$1")" && pwd)/$(basename "$1")
top=$(cd "$(dirname "$0")/.." && pwd)
work=$(mktemp -d)
trap 'rm -rf "$work"' EXIT
cd "$work"
PYTHONPATH=$top/tools exec python3 - "$program" "${2:-1000}" "${3:-0}" <<'PY'
import collections, os, random, struct, subprocess, sys, time
from formats import read_journal, read_ledger

PROGRAM, RUNS, LOAD = sys.argv[1], int(sys.argv[2]), int(sys.argv[3])
FILES = ["rules", "script", "in.pcap", "out.pcap", "ledger", "journal"]
RELEASES = {"unhooked", "accept", "stop", "repeat", "failopen", "bypass"}
SECONDS = 60  # that a run may take, under load too

def packet(number, protocol, length):
    return struct.pack(">HHIBBHII", 0x4500, length, 0, 64, protocol, 0, 0x0A000000 + number, 0x0A000001) \
        + bytes(length - 20)

def capture(dice):
    head = struct.pack("<IHHIIII", 0xA1B2C3D4, 2, 4, 0, 0, 262144, 101)
    frames = [packet(n, dice.choice((1, 6, 17)), dice.choice((20, 28, 60))) for n in range(dice.choice((0, 3, 40, 400)))]
    return frames, head + b"".join(
        struct.pack("<IIII", n, 0, len(f), len(f)) + f for n, f in enumerate(frames))

def rules(dice, queues):
    over = "num 0" if queues == 1 else f"balance 0:{queues - 1}" + dice.choice(("", " --queue-cpu-fanout"))
    return f"*filter\n-A FORWARD -j NFQUEUE --queue-{over}\nCOMMIT\n"

def answers(dice, queue, queues):
    onward = f"verdict this queue:{(queue + 1) % queues} this"
    return "".join(f"on {when} do {dice.choice(('verdict this accept this', 'verdict this drop this', onward))}\n"
                   for when in ("proto 6", "proto 17")) \
        + dice.choice(("on any do verdict this accept this\n", "on any do verdict this repeat this\n",
                       "on every 3 do batch this accept this\non every 3 do verdict this drop this\n", ""))

def script(dice, queues, frames):
    lines = [f"mail {dice.choice((1, 8, 64, 4096))}\n"] if dice.random() < 0.5 else []
    lines += [f"down {dice.choice((2, 9))} after {dice.randint(0, len(frames))}\n" for _ in range(dice.choice((0, 0, 2)))]
    for queue in range(queues):
        lines.append(f"port {7 + queue}\n"
                     f"open config {queue} bind params packet {dice.choice((0, 40))} maxlen {dice.choice((8, 1024, 65536))}\n"
                     + answers(dice, queue, queues) + dice.choice(("", "end close\n")))
    return "".join(lines)

def has_one_order(entries, logged):
    """Takes whatever may come next, again and again: whether all is taken."""
    queues, logs = collections.defaultdict(list), collections.defaultdict(list)
    for entry in entries:
        queues[entry.queue].append(entry)
    asked = {(e.port, e.call) for e in entries if e.kind == "M"}
    for line in logged:
        logs[line.port].append(line)
    at, heard = collections.Counter(), collections.Counter()
    left, taken = set(), set()
    waits = collections.defaultdict(set)
    look = set(queues) | {("log", p) for p in logs}
    def wake(key):
        look.update(waits.pop(key, ()))
    def go_log(port):
        moved = False
        while heard[port] < len(logs[port]):
            line = logs[port][heard[port]]
            if line.kind == "R":
                name = (line.queue, line.packet, line.visit)
                if name not in taken:
                    waits["taken", name].add(("log", port))
                    return moved
            elif line.kind == "S" and (port, line.call) in asked:
                waits["asks", port, line.call].add(("log", port))
                wake(("at", port, line.call))
                return moved
            elif line.kind == "X":
                wake(("closed", port))
            heard[port] += 1
            moved = True
        return moved
    def may_go(entry):
        if entry.kind == "A":
            if entry.visit > 1 and (entry.packet, entry.visit - 1) not in left:
                return "left", (entry.packet, entry.visit - 1)
        elif entry.kind == "M":
            port = entry.port
            here = logs[port][heard[port]] if heard[port] < len(logs[port]) else None
            if here is None or here.kind != "S" or here.call != entry.call:
                return "at", port, entry.call
        elif entry.kind == "C":
            if heard[entry.port] < len(logs[entry.port]):
                return "closed", entry.port
        return None
    while look:
        one = look.pop()
        if isinstance(one, tuple):
            go_log(one[1])
            continue
        while at[one] < len(queues[one]):
            entry = queues[one][at[one]]
            if lacks := may_go(entry):
                waits[lacks].add(one)
                break
            at[one] += 1
            if entry.kind == "A":
                if entry.outcome == "taken":
                    taken.add((one, entry.packet, entry.visit))
                    wake(("taken", (one, entry.packet, entry.visit)))
                else:
                    left.add((entry.packet, entry.visit))
                    wake(("left", (entry.packet, entry.visit)))
            elif entry.kind == "M":
                heard[entry.port] += 1
                look.add(("log", entry.port))
            for name in entry.left:
                left.add(name)
                wake(("left", name))
    return all(at[q] == len(queues[q]) for q in queues)

def judge(seed):
    dice = random.Random(seed)
    frames, data = capture(dice)
    queues = dice.randint(1, 8)
    places, feeders, pool = dice.choice((1, 2, 8, 64)), dice.randint(1, 4), dice.choice((1, 1, 2, 3))
    open("rules", "w").write(rules(dice, queues))
    open("script", "w").write(script(dice, queues, frames))
    open("in.pcap", "wb").write(data)
    run = subprocess.run([PROGRAM, "live", *FILES, str(places), str(feeders), str(pool)], timeout=SECONDS,
                         stdout=subprocess.PIPE, stderr=subprocess.PIPE, text=True)
    if run.returncode:
        return f"status {run.returncode}: {run.stdout}{run.stderr}"
    ledger = list(read_ledger("ledger"))
    if [line.number for line in ledger] != list(range(1, len(frames) + 1)):
        return "the ledger hasn't each frame once"
    kept = b"".join(struct.pack("<IIII", n, 0, len(f), len(f)) + f for n, f in enumerate(frames)
                    if ledger[n].fate in RELEASES)
    if open("out.pcap", "rb").read()[24:] != kept:
        return "OUT isn't what the ledger says"
    found = list(read_journal("journal"))
    if not has_one_order([e for e in found if e.kind in "AMCD"], [l for l in found if l.kind in "RSX"]):
        return "no order of all events"
    if feeders == 1 and pool == 1:
        audit = subprocess.run([PROGRAM, "audit", "rules", "script", "in.pcap", "journal"], timeout=SECONDS,
                               stdout=subprocess.PIPE, stderr=subprocess.PIPE, text=True)
        if audit.returncode:
            return f"audit: status {audit.returncode}: {audit.stdout}{audit.stderr}"
    return None

busy = [subprocess.Popen([sys.executable, "-c", "while True: pass"]) for _ in range(LOAD)]
begun, slowest, failed = time.monotonic(), 0.0, 0
try:
    for seed in range(RUNS):
        one = time.monotonic()
        why = judge(seed)
        slowest = max(slowest, time.monotonic() - one)
        if why:
            failed += 1
            print(f"seed {seed}: {why}", flush=True)
finally:
    for it in busy:
        it.kill()
print(f"{RUNS} runs, {LOAD} beside them: {failed} failed; {time.monotonic() - begun:.0f} s, the slowest {slowest:.2f} s")
sys.exit(1 if failed else 0)
PY
