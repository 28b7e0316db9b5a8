#!/bin/sh
# Measures a reply of the server in code: how long it takes to reply to a ping with nobody banned and with ten thousand addresses banned, and to a status, on
# one core, and how much memory a million replies to a ping ask for at most. Makes a program of its own over the crate client_replies in a folder that it
# removes. Needs the kit's command rt.
. "$(dirname "$0")/program.sh"
program_over reply_bench f2b_base f2b_model action_queue fail_window ban_table jail_moves ini_interp tag_subst lane_moves jail_rooms jail_core host_ident date_words jail_conf f2b_world \
    client_frames client_words date_detect iso_moment client_replies <<'PROGRAM'
//! Replies to requests over a state, and prints how long that took.
#![tactic(auto)]

ghost use Rattle.std.specs.Prelude.{◌≤◌, map, bytes_eq, IfOk};
ghost use Rattle.f2b_base.specs.declared.jail.WatchDef.{WatchDef};
ghost use Rattle.f2b_model.specs.Lists.{AreDistinct};
ghost use Rattle.f2b_model.specs.Sound.{same_kind};
ghost use Rattle.f2b_base.specs.Limits.{last_moment};
ghost use Rattle.f2b_model.specs.Bounds.{IsBounded, IsTakenInput};

use client_replies::reply;
use client_words::Request;
use f2b_base::{
    Addr, BanRule, Bytes, DateSpec, Defs, Failure, Input, JailDef, NoMemory, Place, Seq, Text,
    WatchDef, What,
};
use jail_core::Core;
use std::alloc::Global;
use std::fs::Files;
use std::time::CpuClock;
use std::{env, fs, io};

/// 2024-03-02T00:00:00Z.
const BEGIN: u64 = 1_709_337_600;

const JAIL: &str = "sshd";

const PATH: &str = "/var/log/auth.log";

const HEAD: &str = "Mar  2 00:00:00 host sshd[1]: Server listening on 0.0.0.0 port 2";

fn watches(alloc: Global) -> Result<Seq<WatchDef>, NoMemory>
    ensures { IfOk result (λ watches. AreDistinct bytes_eq (map (λ (w : WatchDef). w.path) watches)) }
{
    let mut watches = Seq::new(alloc);
    watches.push(WatchDef {
        path: Text::from_str(alloc, PATH)?,
        tail: true,
    })?;
    Ok(watches)
}

/// A jail that bans for ten minutes at the first failure.
fn jail(alloc: Global) -> Result<JailDef, NoMemory>
    ensures bounded { IfOk result IsBounded }
    ensures paths { IfOk result (λ jail. AreDistinct bytes_eq (map (λ (w : WatchDef). w.path) jail.watches)) }
    ensures actions { IfOk result (λ jail. AreDistinct same_kind jail.actions) }
{
    let watches = watches(alloc)?;
    Ok(JailDef {
        name: Text::from_str(alloc, JAIL)?,
        watches,
        zone: 0,
        date: DateSpec::Default,
        pref: None,
        fail: Seq::new(alloc),
        ignore_lines: Seq::new(alloc),
        ignore: Seq::new(alloc),
        findtime: 600,
        maxretry: 1,
        maxmatches: 5,
        rule: BanRule {
            base: 600,
            increment: false,
            factor: 1000,
            multipliers: Seq::new(alloc),
            maxtime: 600,
            rndtime: 0,
        },
        actions: Seq::new(alloc),
    })
}

fn configuration(alloc: Global) -> Result<Input, NoMemory>
    ensures { IfOk result IsTakenInput }
{
    let mut jails = Seq::new(alloc);
    jails.push(jail(alloc)?)?;
    Ok(Input {
        secs: BEGIN,
        word: 0,
        what: What::Config {
            defs: Defs { purge: 0, jails },
        },
    })
}

/// A look at which one failure of that address was found.
fn reading(alloc: Global, number: u32) -> Result<Input, NoMemory>
    ensures { IfOk result IsTakenInput }
{
    let mut found = Seq::new(alloc);
    found.push(Failure {
        addr: Addr::V4(0x0a00_0000 | number),
        time: BEGIN,
        line: Text::new(alloc),
    })?;
    Ok(Input {
        secs: BEGIN,
        word: 0,
        what: What::Read {
            jail: Text::from_str(alloc, JAIL)?,
            path: Text::from_str(alloc, PATH)?,
            place: Place::Pos {
                position: u64::from(number),
                head: Bytes::from_slice(alloc, HEAD.as_bytes())?,
            },
            found,
        },
    })
}

/// A state in which so many addresses are banned.
fn banning(alloc: Global, count: u32) -> Result<Core, NoMemory> {
    let (mut core, _) = Core::empty(alloc).take(&configuration(alloc)?)?;
    for number in 0..count {
        let (next, _) = core.take(&reading(alloc, number)?)?;
        core = next;
    }
    Ok(core)
}

/// Replies so often, and gives how many bytes that came to.
fn replies(alloc: Global, core: &Core, request: &Request, times: u32) -> Result<u64, NoMemory> {
    let mut bytes: u64 = 0;
    for _ in 0..times {
        let answer = reply(alloc, core, BEGIN, request)?;
        bytes = bytes.saturating_add(answer.text.as_str().len() as u64);
    }
    Ok(bytes)
}

fn measure(
    rt: &(impl Print + AllocGlobal + CpuClock + Files),
    count: u32,
    request: &Request,
    times: u32,
) -> io::Result<()> {
    let alloc = rt.alloc();
    let Ok(core) = banning(alloc, count) else {
        return println!(rt; "no memory");
    };
    let begin = rt.thread_cpu_time()?;
    let Ok(bytes) = replies(alloc, &core, request, times) else {
        return println!(rt; "no memory");
    };
    let end = rt.thread_cpu_time()?;
    println!(rt; "bans {count}, {times} replies of {bytes} bytes: {} microseconds", end.saturating_sub(begin).as_micros())
}

fn main(rt: HostRuntime) -> io::Result<()> {
    for word in env::args(&rt)?.skip(1) {
        match word.as_str() {
            "none" => measure(&rt, 0, &Request::Ping, 1_000_000)?,
            "many" => measure(&rt, 10_000, &Request::Ping, 1_000_000)?,
            "built" => measure(&rt, 10_000, &Request::Ping, 0)?,
            "status" => measure(&rt, 10_000, &Request::Status, 1_000)?,
            _ => (),
        }
        print!(rt; "{}", fs::read_to_string(&rt, "/proc/self/status")?)?;
    }
    Ok(())
}
PROGRAM
for row in none built many status; do
    "$program" "$row" | grep -E '^bans|^VmHWM|^no memory'
done
