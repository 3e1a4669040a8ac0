#!/bin/sh
# Not in the gate: runs the program with its n-th allocation refused, for each n from 1 up to the first run that asks for
# less memory. Each run must end with status 8, every output as it was, or with the answers that it has with memory. A
# preloaded library counts the allocations and refuses one. Prints how many each run makes.
# usage: bench/memory.sh [PROGRAM]
set -eu
top=$(cd "$(dirname "$0")/.." && pwd)
program=${1:-$top/crates/nfq_cli/out/nfq_cli}
case $program in /*) ;; *) program=$PWD/$program ;; esac
work=$(mktemp -d)
trap 'rm -rf "$work"' EXIT
[ -x "$program" ] || "$top/nfq" build
cd "$work"
cat >refuse.c <<'C'
// Counts allocations in a shared word, and refuses the one with the number that REFUSE has.
#include <errno.h>
#include <fcntl.h>
#include <stdatomic.h>
#include <stdlib.h>
#include <sys/mman.h>
#include <unistd.h>

extern void *__libc_malloc(size_t);
extern void *__libc_calloc(size_t, size_t);
extern void *__libc_realloc(void *, size_t);
extern void *__libc_memalign(size_t, size_t);

static _Atomic long *count;
static long refused;

__attribute__((constructor)) static void begin(void)
{
    int file = open(getenv("COUNT"), O_RDWR);
    void *at = mmap(0, sizeof *count, PROT_READ | PROT_WRITE, MAP_SHARED, file, 0);
    refused = atol(getenv("REFUSE"));
    if (at != MAP_FAILED)
        count = at;
}

static int is_refused(void)
{
    if (!count || atomic_fetch_add(count, 1) + 1 != refused)
        return 0;
    errno = ENOMEM;
    return 1;
}

void *malloc(size_t size) { return is_refused() ? 0 : __libc_malloc(size); }
void *calloc(size_t each, size_t size) { return is_refused() ? 0 : __libc_calloc(each, size); }
void *realloc(void *old, size_t size) { return is_refused() ? 0 : __libc_realloc(old, size); }
void *aligned_alloc(size_t to, size_t size) { return is_refused() ? 0 : __libc_memalign(to, size); }
void *memalign(size_t to, size_t size) { return is_refused() ? 0 : __libc_memalign(to, size); }

int posix_memalign(void **out, size_t to, size_t size)
{
    void *made = is_refused() ? 0 : __libc_memalign(to, size);
    if (made)
        *out = made;
    return made ? 0 : ENOMEM;
}
C
cc -O1 -shared -fPIC -o refuse.so refuse.c
python3 - "$program" <<'PY'
import os, struct, subprocess, sys

PROGRAM = sys.argv[1]
OUTPUTS = ["out", "ledger", "journal"]
U = "*filter\n-A FORWARD -j NFQUEUE --queue-num 0\nCOMMIT\n"
OPENED = "port 7\nopen config 0 bind\nopen config 0 params packet 0\n"
ANSWERS = OPENED + "on id 2 do verdict this drop this\non any do verdict this accept this\n"
HEADING = "record fate queue at mark priority bytes\n"

TWO = "*filter\n-A FORWARD -p tcp -j NFQUEUE --queue-num 0\n-A FORWARD -p udp -j NFQUEUE --queue-num 1\nCOMMIT\n"
CLOSED = "port 7\n" + "".join(f"open config {q} bind params packet 0\n" for q in (0, 1)) + "end close\n"
THREE = (6, 6, 6)

def packet(n, protocol):
    return bytes([0x45, 0, 0, 20, 0, n, 0, 0, 0x40, protocol, 0, 0, 10, 0, 0, 1, 10, 0, 0, 2])

def capture(protocols, numbers=None):
    """The frames with these numbers, counted from 1, of packets of these protocols; all without numbers."""
    head = struct.pack("<IHHIIII", 0xA1B2C3D4, 2, 4, 0, 0, 262144, 101)
    if numbers is None:
        numbers = range(1, len(protocols) + 1)
    return head + b"".join(struct.pack("<IIII", n, 0, 20, 20) + packet(n, protocols[n - 1]) for n in numbers)

def fates(ledger):
    return [line.split()[1] for line in ledger.decode().splitlines()[1:]]

def answers(journal):
    """What each message came to: its errno, and how many packets it took."""
    return [tuple(map(int, line.split()[-2:])) for line in journal.decode().splitlines() if line.startswith("M ")]

# What the runs have where there is memory: the written capture, the fates, and the answers of the last messages.
RUNS = [
    # name, rules, protocols of the packets, script, arguments, released, fates, answers
    ("play: three packets answered", U, THREE, ANSWERS, ["play"], (1, 3), ["accept", "drop", "accept"],
     [(0, 1), (0, 1), (0, 1)]),
    ("play: a queue that is unbound", U, THREE, OPENED + "end config 0 unbind\nend batch 0 accept 3\n", ["play"], (),
     ["unbind"] * 3, [(0, 3), (19, 0)]),
    ("play: a port that is closed", TWO, (6, 17), CLOSED, ["play"], (), ["portclosed"] * 2, [(0, 0), (0, 0)]),
    ("play: a device that goes down", U, THREE, "down 1 after 2\n" + OPENED, ["play"], (),
     ["devicedown", "devicedown", "waiting"], [(0, 0), (0, 0)]),
    ("live: three packets answered, one place", U, THREE, ANSWERS, ["live", "1"], (1, 3), ["accept", "drop", "accept"],
     [(0, 1), (0, 1), (0, 1)]),
    ("live: three packets answered, eight places", U, THREE, ANSWERS, ["live", "8"], (1, 3),
     ["accept", "drop", "accept"], [(0, 1), (0, 1), (0, 1)]),
    ("live: a port that is closed, one place", TWO, (6, 17), CLOSED, ["live", "1"], (), ["portclosed"] * 2,
     [(0, 0), (0, 0)]),
]
OLD = b"nfq-journal 1\nA 0 1 1 1 n y 0 1 0 2048 - 4500001400010000400600000a0000010a000002 noqueue\nend\n"
NEW = b"nfq-journal 2\nA 0 1 1 1 n y 0 0 1 0 2048 - 4500001400010000400600000a0000010a000002 noqueue\nend\n"
BEFORE = b"before"

def write(name, data):
    with open(name, "wb") as it:
        it.write(data)

def read(name):
    with open(name, "rb") as it:
        return it.read()

def status_of(words, refused):
    """The status of a run whose allocation with this number is refused, and how many it asked for."""
    write("count", bytes(8))
    env = {**os.environ, "LD_PRELOAD": "./refuse.so", "COUNT": "count", "REFUSE": str(refused)}
    ended = subprocess.run([PROGRAM, *words], env=env, capture_output=True, timeout=60)
    if ended.stdout:
        sys.exit(f"{words} with allocation {refused} refused printed {ended.stdout!r}")
    return ended.returncode, struct.unpack("<q", read("count"))[0]

def tried(name, words, outputs, is_right):
    """Refuses each allocation in turn."""
    refused = told = 0
    while True:
        refused += 1
        for output in outputs:
            write(output, BEFORE)
        status, count = status_of(words, refused)
        if status == 8:
            told += 1
            if any(read(output) != BEFORE for output in outputs):
                sys.exit(f"{name}: allocation {refused} refused: status 8 and another output")
        elif status != 0 or not is_right():
            sys.exit(f"{name}: allocation {refused} refused: status {status}")
        if count < refused:
            break
    print(f"{name}: {refused - 1} allocations; with one of them refused {told} runs ended with status 8, the others as with memory")

for name, rules, protocols, script, (command, *places), released, wanted, last in RUNS:
    write("rules", rules.encode())
    write("in", capture(protocols))
    write("script", script.encode())
    tried(name, [command, "rules", "script", "in", *OUTPUTS, *places], OUTPUTS,
          lambda: read("out") == capture(protocols, released) and fates(read("ledger")) == wanted
          and answers(read("journal"))[-len(last):] == last)
write("old", OLD)
tried("migrate: one arrival", ["migrate", "old", "new"], ["new"], lambda: read("new") == NEW)
PY
