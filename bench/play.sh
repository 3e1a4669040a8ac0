#!/bin/sh
# A benchmark, not a test: plays captures that it makes itself, and prints for each shape the processor time and the
# peak memory of `nfq play`, and their ratios to a floor, a program of baselines.c that reads the inputs and writes files
# of the outputs' sizes; for three shapes also to two by hand, which write the same bytes without a proof, one of them
# with each output kept whole until the last is made. Then comes `live` over 1, 2, 4 and 8 places beside `play`. Last
# come `gen`, `play` of what it writes, and `trial`, of 200,000 packets.
set -eu
top=$(cd "$(dirname "$0")/.." && pwd)
# As ./nfq has it, so that each program takes its memory alike.
export GLIBC_TUNABLES=glibc.malloc.hugetlb=1
work=$(mktemp -d)
trap 'rm -rf "$work"' EXIT
"$top/nfq" build
cc -O2 -o "$work/baselines" "$top/bench/baselines.c"
cd "$work"
python3 - "$top/nfq" <<'PY'
import os, random, struct, subprocess, sys, time

INPUTS = ["rules", "script", "in.pcap"]
OUTPUTS = ["out.pcap", "ledger", "journal"]
BY_HAND = ["out.hand", "ledger.hand", "journal.hand"]
ONE_RULE = "*filter\n-A FORWARD -j NFQUEUE --queue-num 0\nCOMMIT\n"
OPENED = "port 7\nopen config 0 bind\nopen config 0 params packet 0\n"
ACCEPTED = OPENED + "on any do verdict this accept this\n"

def header():
    return struct.pack("<IHHIIII", 0xA1B2C3D4, 2, 4, 0, 0, 262144, 101)

def alike(frames, size):
    """A capture of packets that are the same but for their time."""
    body = bytes([0x45]) + bytes(i % 251 for i in range(size - 1))
    return header() + b"".join(struct.pack("<IIII", n, 0, size, size) + body for n in range(1, frames + 1))

def mixed(frames):
    """Flows of TCP and UDP between two networks, of 20 to 83 bytes."""
    draw = random.Random(7)
    parts = [header()]
    for n in range(1, frames + 1):
        word = draw.getrandbits(64)
        size = 20 + (word >> 24) % 64
        packet = struct.pack(">HHIBBHIBBBB", 0x4500, size, 0, 0x40, 17 if word & 1 else 6, 0, 0x0A000000 | word >> 8 & 255,
                             10, 0, 1, word >> 16 & 255)
        parts.append(struct.pack("<IIII", n, 0, size, size) + packet + bytes(size - 20))
    return b"".join(parts)

def balanced():
    lines = ["hashkey 1"]
    for k in range(4):
        lines.append(f"port {101 + k}")
        lines += [f"open config {q} bind params packet 64" for q in (2 * k, 2 * k + 1)]
        lines += ["on proto 17 do verdict this drop this", "on any do verdict this accept this"]
    return "\n".join(lines) + "\n"

# Queued from the last of 1,000 rules, of which the others want a mark that no packet has.
LAST_RULE = "*filter\n" + "-A FORWARD -m mark --mark 0x1 -j NFQUEUE --queue-num 1\n" * 999 \
    + "-A FORWARD -j NFQUEUE --queue-num 0\nCOMMIT\n"
def backwards(waiting, backward):
    """All packets wait, then as many are accepted one by one from the youngest to the oldest, 128 messages a datagram
    and 8 datagrams a line, and the rest by a batch."""
    ids = range(waiting, waiting - backward, -1)
    verdicts = [struct.pack("<IHHIIBBHHHII", 32, 0x0301, 1, 0, 7, 0, 0, 0, 12, 2, 0x01000000, 0)[:24]
                + struct.pack(">II", 1, n) for n in ids]
    raws = [b"".join(verdicts[at:at + 128]).hex() for at in range(0, backward, 128)]
    lines = ["mail 65536", "pace 0", "port 7", "open config 0 bind params packet 0 maxlen 65536"]
    for line, at in enumerate(range(0, len(raws), 8)):
        lines.append(f"on id {line + 1} do " + " ; ".join("raw " + raw for raw in raws[at:at + 8]))
    lines.append(f"on id {waiting} do batch 0 accept {waiting}")
    return "\n".join(lines) + "\n"

SHAPES = [
    # name, frames, rules, script, capture, whether the programs by hand do the same
    ("frames of 60 bytes", 200_000, ONE_RULE, ACCEPTED, lambda n: alike(n, 60), True),
    ("64 MiB", 200_000, ONE_RULE, ACCEPTED, lambda n: alike(n, 319), True),
    ("frames of 1,500 bytes", 44_000, ONE_RULE, ACCEPTED, lambda n: alike(n, 1500), True),
    ("flows over eight queues", 200_000, "*filter\n-A FORWARD -j NFQUEUE --queue-balance 0:7\nCOMMIT\n", balanced(), mixed, False),
    ("the last of 1,000 rules", 20_000, LAST_RULE, ACCEPTED, lambda n: alike(n, 60), False),
    ("32 repeats a packet", 6_000, ONE_RULE, OPENED + "on any do verdict this repeat this\n", lambda n: alike(n, 60), False),
    ("batches of 100", 200_000, ONE_RULE, "pace 100\n" + OPENED + "on every 100 do batch this accept this\n",
     lambda n: alike(n, 60), False),
    ("20,000 that wait, 16,000 of them answered backwards", 20_000, ONE_RULE, backwards(20_000, 16_000),
     lambda n: alike(n, 60), False),
]

def measured(words):
    """The least processor time of five runs, in seconds, with its wall time and peak memory in MiB."""
    runs = []
    for _ in range(5):
        start = time.monotonic()
        child = subprocess.Popen(words, stdout=subprocess.DEVNULL)
        _, status, usage = os.wait4(child.pid, 0)
        if status != 0:
            sys.exit(f"{words[0]} ended with {status >> 8}")
        took = time.monotonic() - start
        runs.append((usage.ru_utime + usage.ru_stime, took, usage.ru_maxrss / 1024))
    return min(runs)

def write_inputs(rules, script, capture, frames):
    """Writes the inputs in a process of its own: what this one has in memory would count as a peak of each that it starts."""
    child = os.fork()
    if child != 0:
        if os.waitpid(child, 0)[1] != 0:
            sys.exit("the inputs weren't written")
        return
    for path, text in (("rules", rules.encode()), ("script", script.encode()), ("in.pcap", capture(frames))):
        with open(path, "wb") as out:
            out.write(text)
    os._exit(0)

for name, frames, rules, script, capture, by_hand in SHAPES:
    write_inputs(rules, script, capture, frames)
    play = measured([sys.argv[1], "play", *INPUTS, *OUTPUTS])
    others = []
    if by_hand:
        for who, mode in (("by hand", "tuned"), ("kept whole", "whole")):
            others.append((who, measured(["./baselines", mode, *INPUTS, *BY_HAND])))
            for ours, theirs in zip(OUTPUTS, BY_HAND):
                subprocess.check_call(["cmp", ours, theirs])
    sizes = [str(os.path.getsize(it)) for it in OUTPUTS]
    others.append(("floor", measured(["./baselines", "floor", *INPUTS, *BY_HAND, *sizes])))
    print(f"{name}, {frames} frames, {os.path.getsize('in.pcap') / 1e6:.1f} MB in, {sum(map(int, sizes)) / 1e6:.1f} MB out")
    for who, it in (("nfq play", play), *others):
        print(f"  {who:10} {it[0]:.3f} s of processor time, {it[1]:.3f} s in all, {it[2]:.0f} MiB at the peak; "
              f"nfq play takes {play[0] / it[0]:.1f} times the time and {play[2] / it[2]:.1f} times the memory")

print("flows over eight queues, as above: play, and live over so many places")
write_inputs(*[it[2:5] for it in SHAPES if it[0] == "flows over eight queues"][0], 200_000)
play = measured([sys.argv[1], "play", *INPUTS, *OUTPUTS])
print(f"  {'play':10} {play[0]:.3f} s of processor time, {play[1]:.3f} s in all, {play[2]:.0f} MiB at the peak")
for places in (1, 2, 4, 8):
    it = measured([sys.argv[1], "live", *INPUTS, *OUTPUTS, str(places)])
    print(f"  {'live ' + str(places):10} {it[0]:.3f} s of processor time, {it[1]:.3f} s in all, {it[2]:.0f} MiB at the peak; "
          f"{it[0] / play[0]:.1f} times play's processor time, {it[1] / play[1]:.1f} times its time in all")

print("generated from the number 7, 200,000 packets")
for name, words in (("gen", ["gen", "7", "200000", *INPUTS]), ("play", ["play", *INPUTS, *OUTPUTS]),
                    ("live 8", ["live", *INPUTS, *OUTPUTS, "8"]), ("trial", ["trial", "7", "200000"])):
    it = measured([sys.argv[1], *words])
    print(f"  {name:10} {it[0]:.3f} s of processor time, {it[1]:.3f} s in all, {it[2]:.0f} MiB at the peak")
PY
