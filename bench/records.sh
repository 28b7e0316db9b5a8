#!/bin/sh
# Measures how long it takes to write a view of many bans as bytes, and to read it again, on one core. Makes a program of its own over the
# crate record_codec in a folder that it removes. Needs the kit's command rt.
. "$(dirname "$0")/program.sh"
program_over records_bench f2b_base f2b_model record_fields record_codec <<'PROGRAM'
//! Writes and reads views of as many bans as each word says, and prints what that took.
#![tactic(auto)]

use f2b_base::{Addr, Ban, Bytes, Until, View};
use record_codec::{read_view, view_len, write_view};
use std::alloc::Global;
use std::time::CpuClock;
use std::{env, io};

/// A view of one jail with no logs, no patterns and no actions.
const ONE_JAIL: [u8; 38] = [
    0, 0, 1, 1, b'a', 0, 0, 0, 0, 0, 0, 0, 1, 1, 0, 2, 0, 1, 0, 1, 0, 0, 0, 0, 1, 1, b'a', 0, 0, 0,
    0, 0, 0, 0, 0, 0, 0, 0,
];

fn ban(serial: u64) -> Ban {
    let place = serial.wrapping_mul(0x9e37_79b1) % (1 << 24);
    Ban {
        serial,
        addr: Addr::V4(0x0a00_0000 + place as u32),
        begin: 1_700_000_000,
        until: Until::At(1_700_000_600),
        count: 0,
        failures: 5,
    }
}

fn filled(alloc: Global, count: u64) -> Option<View> {
    let (mut view, _) = read_view(alloc, &ONE_JAIL).ok()?;
    if view.jails.is_empty() {
        return None;
    }
    let mut jail = view.jails.remove(0);
    for serial in 0..count {
        jail.bans.push(ban(serial)).ok()?;
    }
    view.jails.push(jail).ok()?;
    view.next_ban = count;
    Some(view)
}

fn measure(rt: &(impl Print + AllocGlobal + CpuClock), count: u64) -> io::Result<()> {
    let alloc = rt.alloc();
    let Some(view) = filled(alloc, count) else {
        return println!(rt; "no view");
    };
    let begin = rt.thread_cpu_time()?;
    let len = view_len(&view);
    let counted = rt.thread_cpu_time()?;
    let mut out = Bytes::new(alloc);
    let Ok(()) = write_view(alloc, &view, &mut out) else {
        return println!(rt; "no memory");
    };
    let written = rt.thread_cpu_time()?;
    let same = match read_view(alloc, out.as_slice()) {
        Ok((read, _)) => read == view,
        Err(_) => false,
    };
    let read = rt.thread_cpu_time()?;
    let lengths = counted.saturating_sub(begin).as_micros();
    let writing = written.saturating_sub(counted).as_micros();
    let reading = read.saturating_sub(written).as_micros();
    println!(rt; "{count} bans, {len} bytes, read again {same}: length {lengths} us, written {writing} us, read {reading} us")
}

fn main(rt: HostRuntime) -> io::Result<()> {
    for word in env::args(&rt)?.skip(1) {
        if let Ok(count) = word.as_str().parse::<u64>() {
            measure(&rt, count)?;
        }
    }
    Ok(())
}
PROGRAM
"$program" 1000 10000 30000 100000
