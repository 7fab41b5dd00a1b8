"""Measures a kept object below its server: how long a call of `cell` takes with its lines; how long the recovery of 60,000
calls takes; and how long a change of epochs takes of an object of a megabyte, with its front written, synced and renamed.

usage: gate/bench_kept [FOLDER]    FOLDER, or the current one, is on the disk that is measured

Writes a program into a temporary copy of the repository in FOLDER, builds it there without its proof, as tools/make_ready
builds the program, and runs it. It is no part of the gate.
"""
import os
import pathlib
import subprocess
import sys

from gate.benched import copy_crates, write
from gate.tried import TOP, new_folder
from tools import make_ready

USES = (
    "path_tree value_core decl_core decl_read path_count live_core guest_core keep_loop recover_core "
)
MAIN = r'''//! Times of a kept object.
#![tactic(auto)]

use decl_core::object::Object;
use decl_read::read::read_objects;
use live_core::source::source_of;
use guest_core::guests::Guests;
use live_core::hosted::{HostedStart, Hosted};
use keep_loop::folder::FolderFile;
use keep_loop::journal::Journal;
use live_core::call::Limits;
use live_core::lines::push_all;
use live_core::live::Live;
use recover_core::recover::House;
use recover_core::text_recover::recover;
use std::alloc::Global;
use std::process::ExitCode;
use std::time::Instant;
use value_core::text::Text;
use value_core::datum::Datum;
use value_core::value::Value;

const CELL: &[u8] = b"object cell;
  path 1:([get], put) end;
  var v : array [1] of integer;
  entry function get : integer; begin get := v[0] end;
  entry procedure put(x : integer); begin v[0] := x end;
end;
";

const BOOK: &[u8] = b"object book;
  path 1:(write) end;
  var t : table of text;
  entry procedure write(k, x : text); begin store(t, k, x) end;
end;
";

const LIMITS: Limits = Limits {
    sessions: 64,
    waiting: 64,
};

// So many calls, and the least of so many times.
const CALLS: u32 = 60_000;
const TIMES: u32 = 5;

fn object(alloc: Global, text: &[u8]) -> Option<Object> {
    for (_, object) in read_objects(alloc, text).ok()? {
        return Some(object);
    }
    None
}

fn live(alloc: Global, text: &[u8]) -> Option<Live> {
    let object = object(alloc, text)?;
    let mut values = Vec::new(alloc);
    for part in &object.parts {
        values.push(Value::opening(alloc, part.kind).ok()?).ok()?;
    }
    Live::behind(alloc, object, &[], values, Vec::new(alloc), LIMITS).ok()?
}

fn hosted(alloc: Global, text: &[u8]) -> Option<Hosted> {
    let live = live(alloc, text)?;
    let source = source_of(live.object());
    let begun = HostedStart {
        live,
        guests: Guests::new(alloc, LIMITS.sessions, 64).ok()?,
        past: Vec::new(alloc),
        epoch: 1,
        source,
        base: 0,
        sessions: LIMITS.sessions,
        waiting: LIMITS.waiting,
    };
    Hosted::new(alloc, begun).ok()
}

fn one(alloc: Global, datum: Datum) -> Option<Vec<Datum>> {
    let mut all = Vec::new(alloc);
    all.push(datum).ok()?;
    Some(all)
}

// Nanoseconds of a call of an operation with its lines.
fn calls(rt: &HostRuntime, operation: u16) -> Option<u64> {
    let alloc = rt.alloc();
    let mut least = u64::MAX;
    for _ in 0..TIMES {
        let mut live = live(alloc, CELL)?;
        let mut lines = Vec::with_capacity(alloc, 8_388_608).ok()?;
        let begin = Instant::now(rt).ok()?;
        for number in 0..CALLS {
            let arguments = if operation == 1 { one(alloc, Datum::Integer(number))? } else { Vec::new(alloc) };
            let taken = live.submit(1, operation, arguments).ok()?;
            push_all(&mut lines, live.object(), &taken.ran).ok()?;
        }
        let taken = begin.elapsed(rt).ok()?.as_nanos() as u64;
        least = least.min(taken / u64::from(CALLS));
    }
    Some(least)
}

// Milliseconds of the recovery of 60,000 calls.
fn recovery(rt: &HostRuntime) -> Option<u64> {
    let alloc = rt.alloc();
    let mut hosted = hosted(alloc, CELL)?;
    let mut text = Vec::new(alloc);
    hosted.push_first(&mut text).ok()?;
    let session = hosted.seat()?;
    for number in 0..CALLS {
        let arguments = one(alloc, Datum::Integer(number))?;
        hosted.reserve().ok()?;
        hosted.call(false, session, 1, arguments, &mut text).ok()?.ok()?;
    }
    let object = object(alloc, CELL)?;
    let house = House {
        sessions: 64,
        names: 64,
        now: 0,
    };
    let mut least = u64::MAX;
    for _ in 0..TIMES {
        let begin = Instant::now(rt).ok()?;
        let recovered = recover(alloc, &object, house, &text).ok()?.ok()?;
        let taken = begin.elapsed(rt).ok()?.as_nanos() as u64;
        if recovered.ended != u64::from(CALLS) {
            return None;
        }
        least = least.min(taken);
    }
    Some(least / 1_000_000)
}

// Milliseconds of a change of epochs of an object of a megabyte, and the bytes of its front.
fn change(rt: &HostRuntime) -> Option<(u64, usize)> {
    let alloc = rt.alloc();
    let mut hosted = hosted(alloc, BOOK)?;
    let mut front = Vec::new(alloc);
    hosted.push_first(&mut front).ok()?;
    let file = FolderFile::open(*rt, ".", "book").ok()?;
    let Ok(mut journal) = Journal::begin(alloc, file, &front, 8_388_608) else {
        return None;
    };
    let session = hosted.seat()?;
    let long = [b'x'; 1_000];
    for number in 0..1_024u32 {
        let mut lines = Vec::new(alloc);
        let key = format!(in alloc; "{number}").ok()?;
        let mut arguments = Vec::new(alloc);
        arguments.push(Datum::Text(Text::from_bytes(key.as_bytes())?)).ok()?;
        arguments.push(Datum::Text(Text::from_bytes(long.as_slice())?)).ok()?;
        hosted.reserve().ok()?;
        hosted.call(false, session, 0, arguments, &mut lines).ok()?.ok()?;
        journal.append(&lines).ok()?;
    }
    let mut least = u64::MAX;
    for _ in 0..TIMES {
        journal.sync().ok()?;
        let begin = Instant::now(rt).ok()?;
        if !hosted.write_next(&mut front).ok()? {
            return None;
        }
        journal.change(alloc, &front, 8_388_608).ok()?;
        if !hosted.begin_next(&front).ok()? {
            return None;
        }
        let taken = begin.elapsed(rt).ok()?.as_nanos() as u64;
        least = least.min(taken);
    }
    Some((least / 1_000_000, front.len()))
}

fn run(rt: &HostRuntime) -> Option<()> {
    for (name, operation) in [("get", 0), ("put", 1)] {
        println!(rt; "{name} of cell with its lines: {} ns", calls(rt, operation)?).ok()?;
    }
    println!(rt; "recovery of 60,000 calls of put of cell: {} ms", recovery(rt)?).ok()?;
    let (milliseconds, bytes) = change(rt)?;
    println!(rt; "a change of epochs with a front of {bytes} bytes: {milliseconds} ms").ok()?;
    Some(())
}

fn main(rt: HostRuntime) -> ExitCode {
    match run(&rt) {
        Some(()) => ExitCode::from(0),
        None => ExitCode::from(1),
    }
}
'''


def main() -> int:
    os.chdir(TOP)
    where = pathlib.Path(sys.argv[1] if len(sys.argv) > 1 else ".").absolute()
    with new_folder(room=where) as folder:
        copy_crates(folder / "repo", USES)
        write(folder / "repo", MAIN)
        program = make_ready.built(folder, "bench")
        return subprocess.run([program], cwd=folder).returncode
