#!/bin/sh
# A benchmark, not a test: makes the histories of 200,000 packets at one queue, once with each packet answered before
# the next one comes, and once with 1,000 that wait and are answered from the youngest to the oldest. It prints how many
# frames a second their fates, the texts of these and of the histories, and the reading of the journal take, each alone,
# and the peak memory up to there.
set -eu
top=$(cd "$(dirname "$0")/.." && pwd)
work=$(mktemp -d)
trap 'rm -rf "$work"' EXIT
mkdir -p "$work/crates/told/src" "$work/crates/told/proofs/ask"
mkdir -p "$work/crates/told/proofs/arrive_all" "$work/crates/told/proofs/answer_all" "$work/crates/told/proofs/happen"
cp "$top/HANDLES" "$work"
below="packet_entry netlink_codec ip_fields pcap_io text_lines hook_chain nfqa_headers nfqa_msgs queue_core histories place_history journals journal_reading fate_ledger"
for name in $below; do
    mkdir "$work/crates/$name"
    for part in src specs proofs; do
        [ ! -d "$top/crates/$name/$part" ] || cp -R "$top/crates/$name/$part" "$work/crates/$name/"
    done
    grep "^$name:" "$top/crates.txt" >>"$work/crates.txt"
done
echo 'told: packet_entry pcap_io nfqa_msgs queue_core histories place_history journals fate_ledger' >>"$work/crates.txt"
cat >"$work/crates/told/src/main.rt" <<'RT'
//! Histories of packets at one queue, and what is told of them.
#![tactic(auto)]
ghost use Rattle.std.specs.Prelude.{◌≡◌, ◌≤◌, IfOk, IfSome, length};
ghost use Rattle.packet_entry.specs.Numbers.{longest_payload};
ghost use Rattle.histories.specs.Happenings.{payload_of};
ghost use Rattle.histories.specs.History.{AreLegal};
ghost use Rattle.place_history.specs.Calls.{IsOnly};

use fate_ledger::{counts_text, fates, journal_text, ledger_text, read_journal};
use nfqa_msgs::{BIND, Head, PACKET, Params, Request};
use packet_entry::{Bytes, IPV4, NoMemory, Packet, Sequence};
use pcap_io::{Capture, Frame, Frames};
use place_history::{Entries, Histories, Place};
use queue_core::{Begun, Handed, NoRoom, Settled};
use std::alloc::Global;
use std::env;
use std::io;
use std::time::Instant;

const FRAMES: u32 = 200_000;
const WAITING: u32 = 1_000;
/// An IPv4 packet without content.
const BYTES: [u8; 20] = [
    0x45, 0, 0, 20, 0, 1, 0, 0, 0x40, 6, 0, 0, 10, 0, 0, 1, 10, 0, 0, 2,
];

fn config(command: Option<u8>, params: Option<Params>, maxlen: Option<u32>) -> Request
    ensures { IfSome (payload_of result) (λ bytes. length bytes ≤ longest_payload) }
{
    Request::Config {
        queue: 0,
        command,
        params,
        maxlen,
        flags: None,
        mask: None,
    }
}

fn accept(id: u32) -> Request
    ensures { IfSome (payload_of result) (λ bytes. length bytes ≤ longest_payload) }
{
    Request::Verdict {
        queue: 0,
        head: Some(Head { verdict: 1, id }),
        mark: None,
        payload: None,
        priority: None,
    }
}

fn visiting(alloc: Global, number: u32) -> Result<Packet, NoMemory>
    ensures { IfOk result (λ packet. 1 ≤ packet.visit) }
{
    let mut packet = Packet::new(alloc, number.max(1), 1, 0, IPV4, &[], &BYTES)?;
    packet.queued(1);
    Ok(packet)
}

fn arrive(place: &mut Place, alloc: Global, packet: Packet) -> Result<(), NoMemory>
    requires only { IsOnly place.old }
    requires visited { 1 ≤ packet.visit }
    ensures { IsOnly place.new }
{
    match place.begin(alloc, 0, false, packet) {
        Ok(Begun::Offered { port: _, letter: _ }) => match place.settle(true) {
            Settled::Waiting { id: _ } => Ok(()),
            Settled::Back { outcome: _, packet } => {
                packet.destroy();
                Ok(())
            }
        },
        Ok(Begun::Back { outcome: _, packet }) => {
            packet.destroy();
            Ok(())
        }
        Err(NoRoom { packet }) => {
            packet.destroy();
            Err(NoMemory)
        }
    }
}

fn ask(place: &mut Place, alloc: Global, asked: Request) -> Result<(), NoMemory>
    requires only { IsOnly place.old }
    requires payload { IfSome (payload_of asked) (λ bytes. length bytes ≤ longest_payload) }
    ensures { IsOnly place.new }
{
    let mut handed = Handed::new(alloc);
    let answered = place.ask(alloc, 7, 1, asked, &mut handed);
    while let Some((packet, _)) = handed.take() {
        packet.release();
    }
    handed.finish();
    answered?;
    Ok(())
}

fn arrive_all(place: &mut Place, alloc: Global, before: u32, count: u32) -> Result<(), NoMemory>
    requires { IsOnly place.old }
    ensures { IsOnly place.new }
{
    for one in 0..count {
        let packet = visiting(alloc, before.saturating_add(one).saturating_add(1))?;
        arrive(place, alloc, packet)?;
    }
    Ok(())
}

/// From the youngest to the oldest.
fn answer_all(place: &mut Place, alloc: Global, before: u32, count: u32) -> Result<(), NoMemory>
    requires { IsOnly place.old }
    ensures { IsOnly place.new }
{
    for one in 0..count {
        let id = before.saturating_add(count).saturating_sub(one);
        ask(place, alloc, accept(id))?;
    }
    Ok(())
}

fn happen(place: &mut Place, alloc: Global, waiting: u32) -> Result<(), NoMemory>
    requires { IsOnly place.old }
    ensures { IsOnly place.new }
{
    let mode = PACKET;
    ask(place, alloc, config(Some(BIND), None, None))?;
    ask(place, alloc, config(None, Some(Params { range: 0, mode }), Some(waiting)))?;
    for round in 0..FRAMES / waiting.max(1) {
        let before = round.saturating_mul(waiting);
        arrive_all(place, alloc, before, waiting)?;
        answer_all(place, alloc, before, waiting)?;
    }
    Ok(())
}

fn entries_of(alloc: Global, waiting: u32) -> Result<Entries, NoMemory>
    ensures { IfOk result (λ entries. AreLegal entries) }
{
    let mut place = Place::new(alloc, 0, 1);
    let done = happen(&mut place, alloc, waiting);
    place.leave_waiting();
    let entries = place.into_entries();
    match done {
        Ok(_) => Ok(entries),
        Err(_) => Err(NoMemory),
    }
}

fn capture_of(alloc: Global) -> Result<Capture, NoMemory> {
    let mut frames = Frames::new(alloc);
    for seconds in 0..FRAMES {
        let bytes = Bytes::copy(alloc, &BYTES)?;
        let frame = Frame {
            seconds,
            fraction: 0,
            original: 20,
            bytes,
        };
        frames.push(frame).map_err(|_| NoMemory)?;
    }
    Ok(Capture {
        big: false,
        nanos: false,
        zone: 0,
        sigfigs: 0,
        snap: 262_144,
        link: 101,
        frames,
    })
}

/// Which step is timed, by the number of words behind the first, and whether many wait.
fn main(rt: HostRuntime) -> io::Result<()> {
    let alloc = rt.alloc();
    let step = env::args(&rt)?.count().saturating_sub(1) % 8;
    let waiting = if step >= 4 { WAITING } else { 1 };
    let (Ok(capture), Ok(entries)) = (capture_of(alloc), entries_of(alloc, waiting)) else {
        return Ok(());
    };
    let (logs, lost) = (Sequence::new(alloc), Sequence::new(alloc));
    let histories = Histories {
        entries,
        logs,
        lost,
    };
    if capture.frames.len() > 1_000_000 {
        return Ok(());
    }
    let start = Instant::now(&rt)?;
    if step % 4 == 1 {
        if let Ok(lines) = fates(alloc, &capture, &histories) {
            let took = start.elapsed(&rt)?.as_micros();
            println!(rt; "{took} {}", lines.len())?;
        }
        return Ok(());
    }
    if step % 4 == 2 {
        let Ok(lines) = fates(alloc, &capture, &histories) else {
            return Ok(());
        };
        let start = Instant::now(&rt)?;
        let mut text = Vec::new(alloc);
        if ledger_text(alloc, &lines, &mut text).is_ok() {
            if counts_text(alloc, &lines, &mut text).is_ok() {
                let took = start.elapsed(&rt)?.as_micros();
                println!(rt; "{took} {}", text.len())?;
            }
        }
        return Ok(());
    }
    let mut text = Vec::new(alloc);
    if journal_text(alloc, &histories, &mut text).is_err() {
        return Ok(());
    }
    let took = start.elapsed(&rt)?.as_micros();
    if step % 4 == 3 {
        println!(rt; "{took} {}", text.len())?;
        return Ok(());
    }
    drop(histories);
    if text.len() < 1_000_000_000 {
        let start = Instant::now(&rt)?;
        if let Ok(read) = read_journal(alloc, text.as_slice()) {
            let took = start.elapsed(&rt)?.as_micros();
            println!(rt; "{took} {}", read.entries.len())?;
        }
    }
    Ok(())
}
RT
for name in arrive_all:one answer_all:one happen:round; do
    cat >"$work/crates/told/proofs/${name%:*}/Invariants.antt" <<ANTT
use Rattle.place_history.specs.Calls.{IsOnly}
use Rattle.told.proofs.${name%:*}.Given as goal

abbrev pub invariant-loop-${name#*:} : goal.invariant-loop-${name#*:}
invariant-loop-${name#*:} l = IsOnly l.place
ANTT
done
cat >"$work/crates/told/proofs/ask/Invariants.antt" <<'ANTT'
use Rattle.std.proofs.Common.{length}
use Rattle.told.proofs.ask.Given as goal

abbrev pub decreases-loop-packet : goal.decreases-loop-packet
decreases-loop-packet l = length l.handed.items
ANTT
(cd "$work/crates/told" && rt run >"$work/log" 2>&1) || { tail -n 30 "$work/log" >&2; exit 1; }
python3 - "$work/crates/told/out/told" <<'PY'
import os, subprocess, sys

STEPS = [(1, "fates"), (2, "ledger and counts"), (3, "journal"), (0, "journal read back")]

def told(step):
    """The least microseconds of three runs, the size of what was made, and the peak memory in MiB."""
    runs = []
    for _ in range(3):
        child = subprocess.Popen([sys.argv[1]] + ["step"] * step, stdout=subprocess.PIPE, text=True)
        micros, size = child.stdout.read().split()
        _, status, usage = os.wait4(child.pid, 0)
        if status != 0:
            sys.exit(f"the program ended with {status >> 8}")
        runs.append((int(micros), int(size), usage.ru_maxrss / 1024))
    return min(runs)

for add, shape in ((0, "each answered at once"), (4, "1,000 wait, and the youngest is answered first")):
    print(f"200,000 frames, {shape}")
    for step, name in STEPS:
        micros, size, peak = told(step + add)
        print(f"  {name:17} {micros / 1e6:.3f} s, {200_000 / micros:.2f} million frames a second, {peak:.0f} MiB at the peak, "
              f"{size} lines, bytes or entries")
PY
