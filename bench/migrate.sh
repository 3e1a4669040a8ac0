#!/bin/sh
# A benchmark, not a test: makes a journal of version 1 of some 500 MB, of 32 visits of each of 200,000 packets that are
# batched on, migrates it, and migrates what was written once more. It prints the time and the peak memory of each run,
# and the same of a journal of a quarter of the packets.
set -eu
top=$(cd "$(dirname "$0")/.." && pwd)
# As ./nfq has it, so that memory is taken alike.
export GLIBC_TUNABLES=glibc.malloc.hugetlb=1
work=$(mktemp -d)
trap 'rm -rf "$work"' EXIT
"$top/nfq" build
cd "$work"
python3 - "$top/crates/nfq_cli/out/nfq_cli" <<'PY'
import os, subprocess, sys, time

VISITS = 32
BYTES = "450000140001000040060000"

def old_journal(packets):
    """Each packet arrives and is sent on by a batch of its own, visit by visit."""
    with open("old", "w") as out:
        out.write("nfq-journal 1\nM 0 7 1 config 0 cmd 1 = 0 0\n")
        call = 1
        for visit in range(1, VISITS + 1):
            for first in range(1, packets + 1, 1000):
                last = min(first + 999, packets)
                base = (visit - 1) * packets
                out.writelines(f"A 0 {n} {visit} 1 n y 0 {n} 0 2048 - {BYTES} taken:{base + n}\n"
                               for n in range(first, last + 1))
                call += 1
                out.write(f"M 0 7 {call} batch 0 4 {base + last} = 0 {last + 1 - first}\n")
        out.write("end\n")

def run(old, new):
    start = time.monotonic()
    child = subprocess.Popen([sys.argv[1], "migrate", old, new])
    _, status, usage = os.wait4(child.pid, 0)
    if status != 0:
        sys.exit(f"the program ended with {status >> 8}")
    return time.monotonic() - start, usage.ru_utime + usage.ru_stime, usage.ru_maxrss / 1024

def line(what, name, told):
    size = os.path.getsize(name) / 1e6
    took, processor, peak = told
    print(f"  {what:22} {size:6.0f} MB, {took:6.2f} s, {processor:6.2f} s of processor time, {peak:6.0f} MiB at the peak")

for packets in (50_000, 200_000):
    print(f"{packets} packets, {VISITS} visits of each")
    old_journal(packets)
    line("version 1 migrated", "old", run("old", "new"))
    line("version 2 migrated", "new", run("new", "newer"))
    if subprocess.call(["cmp", "-s", "new", "newer"]) != 0:
        sys.exit("a journal of version 2 didn't migrate to itself")
PY
