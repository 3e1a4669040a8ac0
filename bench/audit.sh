#!/bin/sh
# A benchmark, not a test: audits the journals of runs, of generated packets, of packets that are repeated up to their
# 32nd queue, and of 20,000 packets that wait. It prints the time and the peak memory of each run and of its audit, and
# how often the run's processor time the audit takes; of 200,000 generated packets at most three times.
set -eu
top=$(cd "$(dirname "$0")/.." && pwd)
# As ./nfq has it, so that memory is taken alike.
export GLIBC_TUNABLES=glibc.malloc.hugetlb=1
work=$(mktemp -d)
trap 'rm -rf "$work"' EXIT
"$top/nfq" build
cd "$work"
python3 - "$top/crates/nfq_cli/out/nfq_cli" <<'PY'
import os, struct, subprocess, sys, time

SEED = "7"
INPUTS = ["rules", "script", "in.pcap"]
ONE_RULE = "*filter\n-A FORWARD -j NFQUEUE --queue-num 0\nCOMMIT\n"
OPENED = "port 7\nopen config 0 bind params packet 0 maxlen 200000\n"

def run(*arguments):
    """The wall and processor time of a run, in seconds, and its peak memory in MiB."""
    start = time.monotonic()
    child = subprocess.Popen([sys.argv[1], *arguments])
    _, status, usage = os.wait4(child.pid, 0)
    if status != 0:
        sys.exit(f"{arguments[0]} ended with {status >> 8}")
    return time.monotonic() - start, usage.ru_utime + usage.ru_stime, usage.ru_maxrss / 1024

def write(frames, script):
    """So many packets of 60 bytes that are the same but for their time, all queued at queue 0."""
    packet = bytes([0x45]) + bytes(59)
    with open("rules", "w") as rules, open("script", "w") as it, open("in.pcap", "wb") as capture:
        rules.write(ONE_RULE)
        it.write(script)
        capture.write(struct.pack("<IHHIIII", 0xA1B2C3D4, 2, 4, 0, 0, 262144, 101))
        for n in range(1, frames + 1):
            capture.write(struct.pack("<IIII", n, 0, 60, 60) + packet)

def generate(frames):
    run("gen", SEED, str(frames), *INPUTS)

def line(what, told):
    took, processor, peak = told
    size = os.path.getsize("journal") / 1e6
    print(f"  {what:6} {size:6.0f} MB, {took:6.2f} s, {processor:6.2f} s of processor time, {peak:6.0f} MiB at the peak")

SHAPES = [
    ("50,000 generated packets", lambda: generate(50_000)),
    ("200,000 generated packets", lambda: generate(200_000)),
    ("3,000 packets, 32 repeats each", lambda: write(3_000, OPENED + "on any do verdict this repeat this\n")),
    ("6,000 packets, 32 repeats each", lambda: write(6_000, OPENED + "on any do verdict this repeat this\n")),
    ("20,000 packets that wait", lambda: write(20_000, "mail 65536\n" + OPENED)),
    ("40,000 packets that wait", lambda: write(40_000, "mail 65536\n" + OPENED)),
]

ratios = {}
for name, inputs in SHAPES:
    print(name)
    inputs()
    play = run("play", *INPUTS, "out.pcap", "ledger", "journal")
    audit = run("audit", *INPUTS, "journal")
    line("play", play)
    line("audit", audit)
    ratios[name] = audit[1] / play[1]
    print(f"  the audit takes {ratios[name]:.1f} times the processor time")
if ratios["200,000 generated packets"] > 3:
    sys.exit("the audit takes more than three times the processor time of play")
PY
