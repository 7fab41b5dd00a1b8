"""Measures a desk of `cell`: how long a call takes from its submission to its finish after 1, 1,000 and 60,000 finished
calls, how long a submission and its cancel take beside 1 and 255 waiting calls, and how much memory 65,536 finished
calls of `put` take.

usage: gate/bench_desk

Writes a program into a temporary copy of the repository and runs it there by `rt try`: compiled, with its checks, and not
proved. So the figures say how one grows with the other, more than how fast a desk is. It is no part of the gate.
"""
import os

from gate.benched import copy_crates, run
from gate.tried import TOP, new_folder

USES = (
    "value_core decl_core decl_read device_core page_core apply_core "
    "run_core word_core guest_core board_core desk_core"
)
MAIN = r'''//! Times of a desk, and the memory that it takes.
#![tactic(auto)]

use decl_read::read::read_objects;
use board_core::answer::Collected;
use guest_core::answer::Cancelled;
use desk_core::desk::Desk;
use decl_core::analyse::{Accepted, analyse};
use device_core::memory::MemHand;
use device_core::whole::put;
use page_core::page_list::PageList;
use page_core::pins::Pins;
use run_core::perform::perform;
use run_core::run::Run;
use std::alloc::Global;
use std::fs;
use std::process::ExitCode;
use std::time::Instant;
use value_core::datum::Datum;

const CELL: &[u8] = b"object cell;
  path 1:([get], put, bump) end;
  var v : array [1] of integer;
  entry function get : integer; begin get := v[0] end;
  entry procedure put(x : integer); begin v[0] := x end;
  entry procedure bump(x : integer); begin v[0] := v[0] + x end;
end;
";

const ZERO: &[u8] = b"\x02\x01\x00\x01\x00\x00\x00\x00";

// So many rounds are timed at once.
const TIMED: u32 = 100;

// Rows of figures take the least of so many times.
const TIMES: u32 = 5;

fn cell(alloc: Global) -> Option<Accepted> {
    for (_, object) in read_objects(alloc, CELL).ok()? {
        return analyse(alloc, object).ok();
    }
    None
}

fn desk(alloc: Global, hand: &mut MemHand) -> Option<Desk> {
    let pins = Pins::new(&[PageList::new(&[put(hand, ZERO).ok()?]).ok()?]);
    Desk::open(alloc, cell(alloc)?, pins).ok()
}

// Makes a call of session 1 from beginning to end.
fn round(alloc: Global, desk: &mut Desk, hand: &mut MemHand, op: &str, args: &[Datum]) -> Option<()> {
    let number = desk.submit(1, op, args).ok()?;
    match desk.collect(number) {
        Collected::Ticket(ticket) => {
            let outcome = perform(Run::new(alloc, ticket), hand);
            desk.finish(outcome).ok()?;
            Some(())
        }
        Collected::Waiting => None,
        Collected::Cancelled => None,
        Collected::Unknown => None,
    }
}

// Nanoseconds of a round after so many finished calls.
fn rounds(rt: &HostRuntime, after: u32) -> Option<u64> {
    let mut least = u64::MAX;
    let mut hand = MemHand::new(rt.alloc());
    let mut desk = desk(rt.alloc(), &mut hand)?;
    for _ in 0..after {
        round(rt.alloc(), &mut desk, &mut hand, "get", &[])?;
    }
    for _ in 0..TIMES {
        let begin = Instant::now(rt).ok()?;
        for _ in 0..TIMED {
            round(rt.alloc(), &mut desk, &mut hand, "get", &[])?;
        }
        let taken = begin.elapsed(rt).ok()?.as_nanos() as u64;
        least = least.min(taken / TIMED as u64);
    }
    Some(least)
}

// Nanoseconds of a submission and its cancel, where so many calls wait with it.
fn cancels(rt: &HostRuntime, waiting: u32) -> Option<u64> {
    let mut least = u64::MAX;
    let mut hand = MemHand::new(rt.alloc());
    let mut desk = desk(rt.alloc(), &mut hand)?;
    for session in 0..waiting {
        desk.submit(session + 1, "put", &[Datum::Integer(7)]).ok()?;
    }
    for _ in 0..TIMES {
        let begin = Instant::now(rt).ok()?;
        for _ in 0..TIMED {
            let number = desk.submit(1000, "put", &[Datum::Integer(7)]).ok()?;
            if desk.cancel(number) != Cancelled::Cancelled {
                return None;
            }
        }
        let taken = begin.elapsed(rt).ok()?.as_nanos() as u64;
        least = least.min(taken / TIMED as u64);
    }
    Some(least)
}

// The bytes of this process that are in memory.
fn resident(rt: &HostRuntime) -> Option<u64> {
    let text = fs::read_to_string(rt, "/proc/self/statm").ok()?;
    let mut words = text.split_whitespace();
    let _size = words.next()?;
    let pages: u64 = words.next()?.parse().ok()?;
    Some(pages * 4096)
}

// Bytes that 65,536 files of a hand take.
fn of_files(rt: &HostRuntime) -> Option<u64> {
    let before = resident(rt)?;
    let mut hand = MemHand::new(rt.alloc());
    for _ in 0..65_536 {
        put(&mut hand, ZERO).ok()?;
    }
    let after = resident(rt)?;
    Some(after.saturating_sub(before))
}

// Bytes that 65,536 finished calls of `put` take with their files.
fn of_calls(rt: &HostRuntime) -> Option<u64> {
    let mut hand = MemHand::new(rt.alloc());
    let mut desk = desk(rt.alloc(), &mut hand)?;
    let before = resident(rt)?;
    for number in 0..65_536u32 {
        round(rt.alloc(), &mut desk, &mut hand, "put", &[Datum::Integer(number + 1)])?;
    }
    let after = resident(rt)?;
    if desk.history().len() != 65_536 {
        return None;
    }
    Some(after.saturating_sub(before))
}

fn run(rt: &HostRuntime) -> Option<()> {
    // What is freed stays in memory, so this comes first, and the larger of the two before the other.
    let calls = of_calls(rt)?;
    println!(rt; "65,536 finished calls of put with their files: {} bytes a call", calls / 65_536).ok()?;
    for after in [1, 1_000, 60_000] {
        println!(rt; "get from submission to finish after {after} finished calls: {} ns", rounds(rt, after)?).ok()?;
    }
    for waiting in [1, 255] {
        println!(rt; "put submitted and cancelled, with {waiting} calls before it: {} ns", cancels(rt, waiting)?).ok()?;
    }
    Some(())
}

fn files(rt: &HostRuntime) -> Option<()> {
    println!(rt; "65,536 files alone: {} bytes a file", of_files(rt)? / 65_536).ok()
}

fn main(rt: HostRuntime) -> ExitCode {
    let done = if ONLY_FILES { files(&rt) } else { run(&rt) };
    match done {
        Some(()) => ExitCode::from(0),
        None => ExitCode::from(1),
    }
}

const ONLY_FILES: bool = false;
'''


def main() -> int:
    os.chdir(TOP)
    with new_folder() as top:
        copy_crates(top, USES)
        status = run(top, MAIN)
        # Memory is counted in a process of its own.
        return status or run(top, MAIN.replace("ONLY_FILES: bool = false", "ONLY_FILES: bool = true"))
