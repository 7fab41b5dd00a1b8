"""Measures an office of `cell`: how long 16 and 64 threads take for 65,536 calls in all, each from its submission to its
receipt, where all are `get`, which never wait, and where all are `put`, of which one runs and the others wait; and the same
with one bed for all waiters in place of 64. Then how long the seat of a name takes, with its next key, and how long to park
it, where 1,000 names have one.

usage: gate/bench_office

Writes a program into a temporary copy of the repository and runs it there by `rt try`: compiled, with its checks, and not
proved. So the figures say how one grows with the other, more than how fast an office is. It is no part of the gate.
"""
import os
import sys

from gate.benched import copy_crates, run
from gate.tried import TOP, new_folder

USES = (
    "path_tree value_core decl_core decl_read device_core page_core apply_core "
    "run_core board_core desk_core office_core"
)
MAIN = r'''//! Times of an office.
#![tactic(auto)]

use board_core::receipt::Receipt;
use decl_read::read::read_objects;
use decl_core::analyse::{Accepted, analyse};
use office_core::office::Office;
use office_core::inside::Inside;
use office_core::seat::{Seat, Started, Submitted};
use device_core::memory::MemHand;
use device_core::whole::put;
use page_core::page_list::PageList;
use page_core::pins::Pins;
use path_tree::name::Name;
use run_core::perform::perform;
use run_core::run::Run;
use std::alloc::Global;
use std::process::ExitCode;
use std::rt::Clock;
use std::sync::{Mutex, Wait};
use std::thread;
use std::thread::Threads;
use std::time::Instant;
use value_core::datum::Datum;

const CELL: &[u8] = b"object cell;
  path 1:([get], put) end;
  var v : array [1] of integer;
  entry function get : integer; begin get := v[0] end;
  entry procedure put(x : integer); begin v[0] := x end;
end;
";

const ZERO: &[u8] = b"\x02\x01\x00\x01\x00\x00\x00\x00";

fn cell(alloc: Global) -> Option<Accepted> {
    for (_, object) in read_objects(alloc, CELL).ok()? {
        return analyse(alloc, object).ok();
    }
    None
}

fn office(alloc: Global, hand: &mut MemHand) -> Option<Office> {
    let pins = Pins::new(&[PageList::new(&[put(hand, ZERO).ok()?]).ok()?]);
    Office::open(alloc, Inside::open(alloc, cell(alloc)?, pins).ok()?).ok()
}

fn stuck<R: Wait>(rt: &R, submitted: Submitted) -> Option<Receipt> {
    let mut submitted = submitted;
    for _ in rt.forever() {
        submitted = same(submitted);
    }
    unreachable!()
}

fn same(submitted: Submitted) -> Submitted {
    submitted
}

#[derive(Drop)]
struct Worked {
    seat: Seat,
    receipts: Vec<Receipt>,
}

fn call<R: Wait>(rt: &R, alloc: Global, office: &Office, hand: &Mutex<MemHand>, seat: &mut Seat, op: &str, args: &[Datum]) -> Option<Receipt> {
    let submitted = office.submit(rt, seat, op, args).ok()?;
    match office.await_start(rt, submitted) {
        Started::Ticket(ticket) => {
            let outcome = perform(Run::new(alloc, ticket), &mut *hand.lock(rt));
            office.complete(rt, seat, outcome).ok()
        }
        Started::Cancelled => None,
        Started::Stranger(back) => stuck(rt, back),
    }
}

fn work<R: Wait>(rt: &R, alloc: Global, office: &Office, hand: &Mutex<MemHand>, calls: u32, puts: bool) -> Option<Worked> {
    let mut worked = Worked { seat: office.seat(rt).ok()?, receipts: Vec::new(alloc) };
    for number in 0..calls {
        let receipt = if puts {
            call(rt, alloc, office, hand, &mut worked.seat, "put", &[Datum::Integer(number)])?
        } else {
            call(rt, alloc, office, hand, &mut worked.seat, "get", &[])?
        };
        worked.receipts.push(receipt).ok()?;
    }
    Some(worked)
}

// Milliseconds that so many threads take for 65,536 calls in all, and to close.
fn taken<R: Threads + Wait + Sync + Clock + AllocGlobal>(rt: &R, threads: u32, puts: bool) -> Option<(u64, u64)> {
    let alloc = rt.alloc();
    let mut files = MemHand::new(alloc);
    let office = office(alloc, &mut files)?;
    let hand = Mutex::new(files);
    let begin = Instant::now(rt).ok()?;
    let all = thread::map_indices(rt, alloc, threads as usize, &|_| work(rt, alloc, &office, &hand, 65_536 / threads, puts)).ok()?;
    let calls = begin.elapsed(rt).ok()?.as_millis() as u64;
    let mut seats = Vec::new(alloc);
    let mut receipts = Vec::new(alloc);
    for one in all {
        let Worked { seat, receipts: own } = one?;
        seats.push(seat).ok()?;
        for receipt in own {
            receipts.push(receipt).ok()?;
        }
    }
    let begin = Instant::now(rt).ok()?;
    let closed = office.close(seats, &receipts).ok()?;
    if closed.desk.history().len() != 65_536 {
        return None;
    }
    Some((calls, begin.elapsed(rt).ok()?.as_millis() as u64))
}

// A name for each number below 10,000.
fn name(alloc: Global, number: u32) -> Option<Name> {
    let digit = |value: u32| b'0' + (value % 10) as u8;
    let bytes = [b'n', digit(number / 1000), digit(number / 100), digit(number / 10), digit(number)];
    Name::read(alloc, &bytes).ok()?
}

// Nanoseconds that the seat of a name takes at most, and on average, with its next key, and those of parking it.
fn named<R: Wait + Clock + AllocGlobal>(rt: &R) -> Option<(u64, u64, u64, u64)> {
    let alloc = rt.alloc();
    let mut files = MemHand::new(alloc);
    let office = office(alloc, &mut files)?;
    for number in 0..1000 {
        let seat = office.seat_named(rt, &name(alloc, number)?).ok()?;
        office.park(rt, seat).ok()?;
    }
    let (mut most, mut sum, mut most_parked, mut sum_parked) = (0, 0, 0, 0);
    for number in 0..1000 {
        let name = name(alloc, number)?;
        let begin = Instant::now(rt).ok()?;
        let seat = office.seat_named(rt, &name).ok()?;
        if office.next_key(rt, &seat) != 1 {
            return None;
        }
        let taken = begin.elapsed(rt).ok()?.as_nanos() as u64;
        let begin = Instant::now(rt).ok()?;
        office.park(rt, seat).ok()?;
        let parked = begin.elapsed(rt).ok()?.as_nanos() as u64;
        most = most.max(taken);
        sum += taken;
        most_parked = most_parked.max(parked);
        sum_parked += parked;
    }
    Some((most, sum / 1000, most_parked, sum_parked / 1000))
}

fn run<R: Threads + Wait + Sync + Clock + AllocGlobal + Print>(rt: &R) -> Option<()> {
    let (most, mean, most_parked, mean_parked) = named(rt)?;
    println!(rt; "1,000 names: seat {mean} ns, at most {most}; to park it {mean_parked} ns, at most {most_parked}").ok()?;
    for threads in [16, 64] {
        for puts in [false, true] {
            let name = if puts { "put" } else { "get" };
            let (calls, close) = taken(rt, threads, puts)?;
            println!(rt; "{threads} threads, 65,536 calls of {name}: {calls} ms, then close: {close} ms").ok()?;
        }
    }
    Some(())
}

fn main(rt: HostRuntime) -> ExitCode {
    match run(&rt) {
        Some(()) => ExitCode::from(0),
        None => ExitCode::from(1),
    }
}
'''


def main() -> int:
    os.chdir(TOP)
    with new_folder() as top:
        copy_crates(top, USES)
        status = run(top, MAIN)
        office = top / "crates" / "office_core" / "src" / "office.rt"
        text = office.read_text()
        one = text.replace("session as usize % BEDS", "session as usize % BEDS * 0")
        if one == text:
            sys.exit("bench_office: the line that picks a bed is gone")
        office.write_text(one)
        print("with one bed for all waiters:", flush=True)
        return status or run(top, MAIN)
