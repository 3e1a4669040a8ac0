#!/bin/sh
# A benchmark, not a test: eight threads take turns at one lock for a second each, each turn adding 1 to a number, and
# it prints the turns of all of them per second; and beside it, where rustc is at hand, those of std's Mutex in Rust.
# Then 1, 2 and 4 threads take 2,000 turns each through `feed` and `message` of a plane over 1, 2, 8 and 64 places, and
# of one plane behind a mutex. That program is built unproved, with checks: its figures compare with each other alone.
set -eu
top=$(cd "$(dirname "$0")/.." && pwd)
work=$(mktemp -d)
trap 'rm -rf "$work"' EXIT
mkdir -p "$work/crates/turns/src" "$work/crates/turn_lock"
cp "$top/HANDLES" "$work"
for part in src specs proofs; do cp -R "$top/crates/turn_lock/$part" "$work/crates/turn_lock/"; done
printf 'turn_lock: atomic_table crossbeam_utils\nturns may_wait=5: turn_lock\n' >"$work/crates.txt"
cat >"$work/crates/turns/src/main.rt" <<'RT'
//! Eight threads that take turns at one lock.
#![tactic(auto)]
ghost use Rattle.std.specs.Prelude.{◌≡◌, ℕ, []};
ghost use Rattle.std.specs.Thread.{IsSync};
ghost use Rattle.turn_lock.specs.declared.view.Turn.TheVariants.{Outside};
ghost use Rattle.turn_lock.specs.Passes.{view_of, IsOf};

use std::io;
use std::sync::Wait;
use std::thread::{Threads, join};
use std::time::{Clock, Duration, Instant};
use turn_lock::{Pass, Storied, TurnLock};

#[derive(Drop)]
struct Count {
    turns: u64,
}

impl Storied for Count {
    type Entry = u64;

    ghost Label = { ℕ };

    ghost entries = { λ _. [] };

    ghost label = { λ _. 0 };
}

fn turn<R: Wait>(rt: &R, lock: &TurnLock<Count>, pass: &mut Pass<Count>)
    requires { IsOf lock.now pass.old × ((view_of pass.old).turn ≡ Outside) }
    ensures { IsOf lock.now pass.new × ((view_of pass.new).turn ≡ Outside) }
{
    let mut held = lock.enter(rt, pass);
    let count = held.state();
    count.turns = count.turns.wrapping_add(1);
    lock.leave(pass, held);
}

/// Takes turns for a second, and says how many.
fn one<R: Wait + Clock>(rt: &R, lock: &TurnLock<Count>, mut pass: Pass<Count>) -> u64
    requires { IsOf lock.now pass × ((view_of pass).turn ≡ Outside) }
{
    let Ok(start) = Instant::now(rt) else {
        return 0;
    };
    let mut turns = 0u64;
    for _ in rt.forever() {
        turn(rt, lock, &mut pass);
        turns = turns.wrapping_add(1);
        if turns % 16 == 0 && !start.elapsed(rt).is_ok_and(|d| d < Duration::from_secs(1)) {
            break;
        }
    }
    turns
}

fn two<R: Threads + Wait + Clock + Sync>(rt: &R, lock: &TurnLock<Count>, mut pass: Pass<Count>) -> u64
    requires { IsOf lock.now pass × ((view_of pass).turn ≡ Outside) }
{
    let Ok(other) = lock.split(&mut pass) else {
        return 0;
    };
    let (a, b) = join(rt, move || one(rt, lock, pass), move || one(rt, lock, other));
    a.wrapping_add(b)
}

fn four<R: Threads + Wait + Clock + Sync>(rt: &R, lock: &TurnLock<Count>, mut pass: Pass<Count>) -> u64
    requires { IsOf lock.now pass × ((view_of pass).turn ≡ Outside) }
{
    let Ok(other) = lock.split(&mut pass) else {
        return 0;
    };
    let (a, b) = join(
        rt,
        move || -> u64
            requires { IsSync R.row × IsOf lock.now pass × ((view_of pass).turn ≡ Outside) }
        { two(rt, lock, pass) },
        move || -> u64
            requires { IsSync R.row × IsOf lock.now other × ((view_of other).turn ≡ Outside) }
        { two(rt, lock, other) },
    );
    a.wrapping_add(b)
}

fn eight<R: Threads + Wait + Clock + Sync>(rt: &R, lock: &TurnLock<Count>, mut pass: Pass<Count>) -> u64
    requires { IsOf lock.now pass × ((view_of pass).turn ≡ Outside) }
{
    let Ok(other) = lock.split(&mut pass) else {
        return 0;
    };
    let (a, b) = join(
        rt,
        move || -> u64
            requires { IsSync R.row × IsOf lock.now pass × ((view_of pass).turn ≡ Outside) }
        { four(rt, lock, pass) },
        move || -> u64
            requires { IsSync R.row × IsOf lock.now other × ((view_of other).turn ≡ Outside) }
        { four(rt, lock, other) },
    );
    a.wrapping_add(b)
}

fn main(rt: HostRuntime) -> io::Result<()> {
    if let Ok((lock, pass)) = TurnLock::new(rt.alloc(), Count { turns: 0 }) {
        let turns = eight(&rt, &lock, pass);
        println!(rt; "turn_lock: {turns} turns in a second")?;
    }
    Ok(())
}
RT
mkdir -p "$work/crates/turns/proofs/one"
cat >"$work/crates/turns/proofs/one/Invariants.antt" <<'ANTT'
use Rattle.std.proofs.Common.{◌≡◌}
use Rattle.turn_lock.specs.declared.view.Turn.TheVariants.{Outside}
use Rattle.turn_lock.specs.Passes.{view_of, IsOf}
use Rattle.turns.proofs.one.Given as goal

abbrev pub invariant-loop : goal.invariant-loop
invariant-loop g l = IsOf l.lock l.pass × ((view_of l.pass).turn ≡ Outside)
ANTT
cat >"$work/turns.rs" <<'RS'
use std::sync::Mutex;
use std::thread::scope;
use std::time::{Duration, Instant};

fn main() {
    let count = Mutex::new(0u64);
    let one = || {
        let start = Instant::now();
        let mut turns = 0u64;
        while turns % 16 != 0 || start.elapsed() < Duration::from_secs(1) {
            *count.lock().unwrap() += 1;
            turns += 1;
        }
        turns
    };
    let turns: u64 = scope(|s| {
        let threads: Vec<_> = (0..8).map(|_| s.spawn(&one)).collect();
        threads.into_iter().map(|t| t.join().unwrap()).sum()
    });
    println!("std::sync::Mutex: {turns} turns in a second");
}
RS
(cd "$work/crates/turns" && rt run >"$work/log" 2>&1) || { tail -n 30 "$work/log" >&2; exit 1; }
grep '^turn_lock:' "$work/log"
if command -v rustc >/dev/null; then
    rustc -O -o "$work/mutex" "$work/turns.rs"
    "$work/mutex"
fi
mkdir -p "$work/planes/crates/plane_turns/src"
cp "$top/HANDLES" "$work/planes"
for crate in "$top"/crates/*/; do
    name=$(basename "$crate")
    mkdir -p "$work/planes/crates/$name"
    for part in src specs proofs; do
        [ ! -d "$crate$part" ] || cp -R "$crate$part" "$work/planes/crates/$name/"
    done
done
{
    cat "$top/crates.txt"
    echo 'plane_turns: packet_entry hook_chain nfqa_msgs solo_plane plane'
} >"$work/planes/crates.txt"
cat >"$work/planes/crates/plane_turns/src/main.rt" <<'RT'
//! Threads that feed planes and send them messages, and threads that do the same work on one plane
//! behind a mutex.

use hook_chain::{Tables, read_tables};
use nfqa_msgs::{BIND, Head, PACKET, Params, Request, encode_request};
use packet_entry::{IPV4, NoMemory, Packet, Sequence};
use plane::{FeederPass, OpenGate, Opened, Plane, PortPass, Refused};
use solo_plane::SoloPlane;
use std::alloc::Global;
use std::io;
use std::sync::{Mutex, Wait};
use std::thread::{Threads, join};
use std::time::{Clock, Instant};

/// How many turns each thread takes.
const TURNS: u32 = 2_000;

/// Every packet is queued at queue 0.
const ONE_RULE: &[u8] = b"*filter\n-A FORWARD -j NFQUEUE --queue-num 0\nCOMMIT\n";

/// The ports of the threads, of which the one with number i binds queue i - 1.
const PORTS: [u32; 4] = [1, 2, 3, 4];

fn tables(alloc: Global) -> Result<Tables, NoMemory> {
    match read_tables(alloc, ONE_RULE) {
        Ok(tables) => Ok(tables),
        Err(_) => Err(NoMemory),
    }
}

/// A packet of 20 bytes.
fn packet(alloc: Global, number: u32) -> Result<Packet, NoMemory> {
    const BYTES: &[u8] = &[
        0x45, 0, 0, 20, 0, 1, 0, 0, 0x40, 6, 0, 0, 10, 0, 0, 1, 10, 0, 0, 2,
    ];
    Packet::new(alloc, number.max(1), 1, 0, IPV4, &[], BYTES)
}

/// A message that binds a queue.
fn bind(alloc: Global, port: u32, queue: u16) -> Result<Vec<u8>, NoMemory> {
    config(alloc, port, queue, Some(BIND), None)
}

/// One that asks a queue for whole packets.
fn whole(alloc: Global, port: u32, queue: u16) -> Result<Vec<u8>, NoMemory> {
    let params = Params {
        range: 0,
        mode: PACKET,
    };
    config(alloc, port, queue, None, Some(params))
}

fn config(
    alloc: Global,
    port: u32,
    queue: u16,
    command: Option<u8>,
    params: Option<Params>,
) -> Result<Vec<u8>, NoMemory> {
    let request = Request::Config {
        queue,
        command,
        params,
        maxlen: None,
        flags: None,
        mask: None,
    };
    let mut text = Vec::new(alloc);
    encode_request(port, 1, &request, &mut text)?;
    Ok(text)
}

/// One that accepts what waits at queue 0 under this id.
fn accept(alloc: Global, id: u32) -> Result<Vec<u8>, NoMemory> {
    let request = Request::Verdict {
        queue: 0,
        head: Some(Head { verdict: 1, id }),
        mark: None,
        payload: None,
        priority: None,
    };
    let mut text = Vec::new(alloc);
    encode_request(1, 1, &request, &mut text)?;
    Ok(text)
}

/// A port sends a message.
fn send<R: Wait>(
    rt: &R,
    alloc: Global,
    plane: &Plane,
    pass: &mut PortPass,
    text: &[u8],
) -> Result<(), NoMemory> {
    let mut replies = Vec::new(alloc);
    plane.message(rt, alloc, pass, &OpenGate, text, &mut replies)?;
    Ok(())
}

/// Port 1 sets queue 0 up; then packets are fed, and each is accepted.
fn feeds<R: Wait>(
    rt: &R,
    alloc: Global,
    plane: &Plane,
    feeder: &mut FeederPass,
    pass: &mut PortPass,
) -> Result<(), NoMemory> {
    send(rt, alloc, plane, pass, &bind(alloc, 1, 0)?)?;
    send(rt, alloc, plane, pass, &whole(alloc, 1, 0)?)?;
    for id in 1..TURNS / 2 {
        if let Err(Refused { packet }) = plane.feed(
            rt,
            alloc,
            feeder,
            &OpenGate,
            packet(alloc, id)?,
        ) {
            packet.destroy();
            return Err(NoMemory);
        }
        plane.receive(rt, pass)?;
        send(rt, alloc, plane, pass, &accept(alloc, id)?)?;
    }
    Ok(())
}

/// A port binds a queue, and asks it for whole packets again and again.
fn asks<R: Wait>(
    rt: &R,
    alloc: Global,
    plane: &Plane,
    pass: &mut PortPass,
    queue: u16,
) -> Result<(), NoMemory> {
    let port = pass.port();
    send(rt, alloc, plane, pass, &bind(alloc, port, queue)?)?;
    for _ in 1..TURNS {
        send(rt, alloc, plane, pass, &whole(alloc, port, queue)?)?;
    }
    Ok(())
}

/// Both of these.
fn both(one: Result<(), NoMemory>, two: Result<(), NoMemory>) -> Result<(), NoMemory> {
    one?;
    two
}

/// So many threads act on a plane, each by a port of its own, and the first one feeds too.
fn act<R: Threads + Wait + Sync>(
    rt: &R,
    alloc: Global,
    plane: &Plane,
    feeder: &mut FeederPass,
    ports: &mut [PortPass],
) -> Result<(), NoMemory> {
    let (first, others) = ports.split_at_mut(1);
    let (one, two) = join(
        rt,
        || feeds(rt, alloc, plane, feeder, &mut first[0]),
        || others_ask(rt, alloc, plane, others),
    );
    both(one, two)
}

fn others_ask<R: Threads + Wait + Sync>(
    rt: &R,
    alloc: Global,
    plane: &Plane,
    ports: &mut [PortPass],
) -> Result<(), NoMemory> {
    if ports.is_empty() {
        return Ok(());
    }
    let (first, others) = ports.split_at_mut(1);
    let queue = (first[0].port() - 1) as u16;
    if others.is_empty() {
        return asks(rt, alloc, plane, &mut first[0], queue);
    }
    let (one, two) = join(
        rt,
        || asks(rt, alloc, plane, &mut first[0], queue),
        || others_ask(rt, alloc, plane, others),
    );
    both(one, two)
}

/// The turns per second of so many threads over so many places.
fn over<R: Threads + Wait + Clock + Sync>(
    rt: &R,
    alloc: Global,
    places: u8,
    threads: usize,
) -> Result<u64, NoMemory> {
    let Opened {
        plane,
        mut feeder,
        ports,
        gauge: _,
    } = Plane::new(alloc, places, &PORTS[..threads], 1024, tables(alloc)?, 0)?;
    let mut ports = ports.into_vec();
    let start = Instant::now(rt);
    let done = act(rt, alloc, &plane, &mut feeder, &mut ports);
    let took = match start {
        Ok(start) => start.elapsed(rt).map_or(0, |d| d.as_micros()),
        Err(_) => 0,
    };
    let histories = plane.close(
        alloc,
        feeder,
        Sequence::from_vec(ports),
        Sequence::new(alloc),
    );
    done?;
    Ok(histories?.entries.len() as u64 * 1_000_000 / (took as u64).max(1))
}

/// Port 1 of a plane behind a mutex sets queue 0 up; then packets are fed, and each is accepted.
fn feeds_one<R: Wait>(rt: &R, alloc: Global, plane: &Mutex<SoloPlane>) -> Result<(), NoMemory> {
    send_one(rt, alloc, plane, 1, &bind(alloc, 1, 0)?)?;
    send_one(rt, alloc, plane, 1, &whole(alloc, 1, 0)?)?;
    for id in 1..TURNS / 2 {
        let packet = packet(alloc, id)?;
        if let Err(Refused { packet }) = plane.lock(rt).feed(alloc, packet) {
            packet.destroy();
            return Err(NoMemory);
        }
        plane.lock(rt).receive(1)?;
        send_one(rt, alloc, plane, 1, &accept(alloc, id)?)?;
    }
    Ok(())
}

fn send_one<R: Wait>(
    rt: &R,
    alloc: Global,
    plane: &Mutex<SoloPlane>,
    port: u32,
    text: &[u8],
) -> Result<(), NoMemory> {
    let mut replies = Vec::new(alloc);
    plane.lock(rt).message(alloc, port, text, &mut replies)?;
    Ok(())
}

/// Another port of it binds a queue, and asks it for whole packets again and again.
fn asks_one<R: Wait>(
    rt: &R,
    alloc: Global,
    plane: &Mutex<SoloPlane>,
    port: u32,
) -> Result<(), NoMemory> {
    let queue = (port - 1) as u16;
    send_one(rt, alloc, plane, port, &bind(alloc, port, queue)?)?;
    for _ in 1..TURNS {
        send_one(rt, alloc, plane, port, &whole(alloc, port, queue)?)?;
    }
    Ok(())
}

/// The turns from port `port` on, each in a thread of its own.
fn from<R: Threads + Wait + Sync>(
    rt: &R,
    alloc: Global,
    plane: &Mutex<SoloPlane>,
    port: u32,
    threads: u32,
) -> Result<(), NoMemory> {
    if port > threads {
        return Ok(());
    }
    let (one, two) = join(
        rt,
        || if port == 1 {
            feeds_one(rt, alloc, plane)
        } else {
            asks_one(rt, alloc, plane, port)
        },
        || from(rt, alloc, plane, port + 1, threads),
    );
    both(one, two)
}

/// The turns per second of so many threads at one plane behind a mutex.
fn behind<R: Threads + Wait + Clock + Sync>(
    rt: &R,
    alloc: Global,
    threads: u32,
) -> Result<u64, NoMemory> {
    let plane = SoloPlane::new(alloc, &PORTS[..threads as usize], 1024, tables(alloc)?, 0)?;
    let plane = Mutex::new(plane);
    let start = Instant::now(rt);
    let done = from(rt, alloc, &plane, 1, threads);
    let took = match start {
        Ok(start) => start.elapsed(rt).map_or(0, |d| d.as_micros()),
        Err(_) => 0,
    };
    let histories = plane.into_inner().close(alloc);
    done?;
    Ok(histories?.entries.len() as u64 * 1_000_000 / (took as u64).max(1))
}

fn main(rt: HostRuntime) -> io::Result<()> {
    for threads in [1usize, 2, 4] {
        if let Ok(turns) = behind(&rt, rt.alloc(), threads as u32) {
            println!(rt; "mutex: {threads} threads: {turns} turns a second")?;
        }
        for places in [1u8, 2, 8, 64] {
            if let Ok(turns) = over(&rt, rt.alloc(), places, threads) {
                println!(rt; "plane: {places} places, {threads} threads: {turns} turns a second")?;
            }
        }
    }
    Ok(())
}
RT
cd "$work/planes/crates/plane_turns"
rt try --steps 1 --seconds 600 >"$work/planes.out" 2>"$work/planes.log" || true
grep -E '^(mutex|plane): ' "$work/planes.out" || { tail -n 30 "$work/planes.log" >&2; exit 1; }
