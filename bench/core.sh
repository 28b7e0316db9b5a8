#!/bin/sh
# Measures the step of the server in code: how many inputs of a busy day the core takes, on one core, and how much memory it has for
# active bans and open failures. Makes a program of its own over the crate jail_core in a folder that it removes. Needs the kit's
# command rt, and python3.
. "$(dirname "$0")/program.sh"
program_over core_bench f2b_base f2b_model action_queue fail_window ban_table jail_moves ini_interp tag_subst lane_moves jail_rooms jail_core <<'PROGRAM'
//! Takes the inputs of days by the core, and prints what they did, what that took, and what stands at the end.
#![tactic(auto)]

ghost use Rattle.std.specs.Prelude.{◌≤◌, ◌<◌, ◌^◌, map, bytes_eq, IfOk};
ghost use Rattle.f2b_base.specs.declared.jail.WatchDef.{WatchDef};
ghost use Rattle.f2b_model.specs.Lists.{AreDistinct};
ghost use Rattle.f2b_model.specs.Sound.{same_kind};
ghost use Rattle.f2b_base.specs.Limits.{last_moment};
ghost use Rattle.f2b_model.specs.Bounds.{IsBounded, IsTakenInput};

use f2b_base::{
    ActionDef, Addr, BanRule, Bytes, DateSpec, Defs, Failure, Family, Input, JailDef, LAST_MOMENT,
    NoMemory, Outcome, Place, Seq, Text, WatchDef, What,
};
use f2b_model::Happening;
use jail_core::Core;
use std::alloc::Global;
use std::fs::Files;
use std::time::CpuClock;
use std::{env, fs, io};

/// 2024-03-02T00:00:00Z, when each day begins.
const BEGIN: u64 = 1_709_337_600;

const ADDRESSES: u64 = 50_000;

/// How many seconds a failure counts for.
const FINDTIME: u64 = 600;

const JAIL: &str = "sshd";

const PATH: &str = "/var/log/auth.log";

const HEAD: &str = "Mar  2 00:00:00 host sshd[1]: Server listening on 0.0.0.0 port 2";

const BAN: &str = "nft add element inet f2b-table addr-set-<name> { <ip> }";

/// The same, with the lines of the failures that led to the ban.
const SHOW: &str = "nft add element inet f2b-table addr-set-<name> { <ip> comment '<matches>' }";

const UNBAN: &str = "nft delete element inet f2b-table addr-set-<name> { <ip> }";

/// A line of 110 bytes.
const LINE: &str =
    "Mar  2 00:00:00 host sshd[811]: Failed password for invalid user administrator from 198.18.0.1 port 40222 ssh2";

/// What a day is like.
#[derive(Clone, Copy)]
struct Day {
    inputs: u64,
    /// How many inputs there are in a second.
    pace: u64,
    maxretry: u64,
    purge: u64,
    /// Whether failures have lines, which the command that bans shows.
    shows: bool,
    /// Whether each failure is of another address.
    apart: bool,
    /// Whether all failures get too old at the end, and are swept.
    swept: bool,
}

/// A day of this pace, whose jail bans after so many failures and counts bans that are over for so long.
fn plain_day(pace: u64, maxretry: u64, purge: u64) -> Day
    requires least { 1 ≤ maxretry }
    requires most { maxretry < 2 ^ 32 }
    ensures least { 1 ≤ result.maxretry }
    ensures most { result.maxretry < 2 ^ 32 }
{
    Day {
        inputs: 1_000_000,
        pace,
        maxretry,
        purge,
        shows: false,
        apart: false,
        swept: false,
    }
}

/// What the inputs of a day did.
#[derive(Drop)]
struct Tally {
    counted: u64,
    begun: u64,
    ended: u64,
}

fn day_of(name: &str) -> Day
    ensures least { 1 ≤ result.maxretry }
    ensures most { result.maxretry < 2 ^ 32 }
{
    match name {
        "busy" => plain_day(250, 5, 86_400),
        "lines" => Day {
            shows: true,
            ..plain_day(250, 5, 86_400)
        },
        "failures" => plain_day(40, 5, 86_400),
        "bans" => plain_day(55, 1, 0),
        "fewer" => plain_day(11, 1, 0),
        "once" => Day {
            apart: true,
            ..plain_day(10_000, 5, 86_400)
        },
        "swept" => Day {
            apart: true,
            swept: true,
            ..plain_day(10_000, 5, 86_400)
        },
        _ => Day {
            inputs: 0,
            ..plain_day(1, 5, 86_400)
        },
    }
}

fn watches(alloc: Global) -> Result<Seq<WatchDef>, NoMemory>
    ensures { IfOk result (λ watches. AreDistinct bytes_eq (map (λ (w : WatchDef). w.path) watches)) }
{
    let mut watches = Seq::new(alloc);
    watches.push(WatchDef {
        path: Text::from_str(alloc, PATH)?,
        tail: true,
    })?;
    Ok(watches)
}

fn actions(alloc: Global, ban: &str) -> Result<Seq<ActionDef>, NoMemory>
    ensures { IfOk result (λ actions. AreDistinct same_kind actions) }
{
    let mut actions = Seq::new(alloc);
    actions.push(ActionDef {
        name: Text::from_str(alloc, "nftables")?,
        family: Family::Both,
        start: Text::new(alloc),
        stop: Text::new(alloc),
        ban: Text::from_str(alloc, ban)?,
        unban: Text::from_str(alloc, UNBAN)?,
        check: Text::new(alloc),
        timeout: 60,
    })?;
    Ok(actions)
}

/// A jail whose bans last ten minutes, after so many failures within ten minutes.
fn jail(alloc: Global, day: &Day) -> Result<JailDef, NoMemory>
    requires least { 1 ≤ day.now.maxretry }
    requires most { day.now.maxretry < 2 ^ 32 }
    ensures bounded { IfOk result IsBounded }
    ensures paths { IfOk result (λ jail. AreDistinct bytes_eq (map (λ (w : WatchDef). w.path) jail.watches)) }
    ensures actions { IfOk result (λ jail. AreDistinct same_kind jail.actions) }
{
    let watches = watches(alloc)?;
    let actions = actions(alloc, if day.shows { SHOW } else { BAN })?;
    Ok(JailDef {
        name: Text::from_str(alloc, JAIL)?,
        watches,
        zone: 0,
        date: DateSpec::Default,
        pref: None,
        fail: Seq::new(alloc),
        ignore_lines: Seq::new(alloc),
        ignore: Seq::new(alloc),
        findtime: FINDTIME,
        maxretry: day.maxretry,
        maxmatches: 5,
        rule: BanRule {
            base: 600,
            increment: false,
            factor: 1000,
            multipliers: Seq::new(alloc),
            maxtime: 600,
            rndtime: 0,
        },
        actions,
    })
}

/// The configuration with which a day begins.
fn configuration(alloc: Global, day: &Day) -> Result<Input, NoMemory>
    requires least { 1 ≤ day.now.maxretry }
    requires most { day.now.maxretry < 2 ^ 32 }
    ensures { IfOk result IsTakenInput }
{
    let mut jails = Seq::new(alloc);
    jails.push(jail(alloc, day)?)?;
    Ok(Input {
        secs: BEGIN,
        word: 0,
        what: What::Config {
            defs: Defs {
                purge: day.purge,
                jails,
            },
        },
    })
}

fn tick(secs: u64) -> Input
    requires { secs ≤ last_moment }
    ensures { IsTakenInput result }
{
    Input {
        secs,
        word: 0,
        what: What::Tick,
    }
}

/// A job's command succeeded.
fn done(secs: u64, job: u64) -> Input
    requires { secs ≤ last_moment }
    ensures { IsTakenInput result }
{
    Input {
        secs,
        word: 0,
        what: What::Ended {
            job,
            outcome: Outcome::Status(0),
        },
    }
}

/// A reading at which one failure of an address was found, with this line.
fn reading(
    alloc: Global,
    secs: u64,
    position: u64,
    addr: Addr,
    line: &str,
) -> Result<Input, NoMemory>
    requires { secs ≤ last_moment }
    ensures { IfOk result IsTakenInput }
{
    let mut found = Seq::new(alloc);
    found.push(Failure {
        addr,
        time: secs,
        line: Text::from_str(alloc, line)?,
    })?;
    Ok(Input {
        secs,
        word: 0,
        what: What::Read {
            jail: Text::from_str(alloc, JAIL)?,
            path: Text::from_str(alloc, PATH)?,
            place: Place::Pos {
                position,
                head: Bytes::from_slice(alloc, HEAD.as_bytes())?,
            },
            found,
        },
    })
}

/// The moment of a step.
fn moment(step: u64, pace: u64) -> u64
    ensures { result ≤ last_moment }
{
    let secs = BEGIN.saturating_add(step / pace.max(1));
    if secs < LAST_MOMENT {
        secs
    } else {
        LAST_MOMENT
    }
}

/// The number after this one of a linear generator.
fn next_number(number: u64) -> u64 {
    number
        .wrapping_mul(6_364_136_223_846_793_005)
        .wrapping_add(1_442_695_040_888_963_407)
}

/// An address of the network 198.18.0.0/15, by the upper bits of a number.
fn address(number: u64) -> Addr {
    let place = (number >> 33) % ADDRESSES;
    Addr::V4(0xc612_0000 + place as u32)
}

/// An address of the network 10.0.0.0/8, another one for each of its steps.
fn own_address(step: u64) -> Addr {
    let place = step.wrapping_mul(0x9e37_79b1) % (1 << 24);
    Addr::V4(0x0a00_0000 + place as u32)
}

/// The next failure.
fn failing(alloc: Global, day: &Day, secs: u64, step: u64, number: u64) -> Result<Input, NoMemory>
    requires { secs ≤ last_moment }
    ensures { IfOk result IsTakenInput }
{
    let addr = if day.apart {
        own_address(step)
    } else {
        address(number)
    };
    let line = if day.shows { LINE } else { "" };
    reading(alloc, secs, step, addr, line)
}

/// What happens next: bans end, or a job does, or else a failure is found.
fn next_input(
    alloc: Global,
    core: &Core,
    day: &Day,
    step: u64,
    number: u64,
) -> Result<Input, NoMemory>
    ensures { IfOk result IsTakenInput }
{
    let secs = moment(step, day.pace);
    if core.ban_due(secs) {
        return Ok(tick(secs));
    }
    match core.lanes().next_due(secs, &[]) {
        Some(job) => Ok(done(secs, job.id)),
        None => failing(alloc, day, secs, step, number),
    }
}

fn count(tally: &mut Tally, told: &Seq<Happening>) {
    for happening in told.as_slice() {
        match happening {
            Happening::Counts { .. } => tally.counted = tally.counted.saturating_add(1),
            Happening::Begins { .. } => tally.begun = tally.begun.saturating_add(1),
            Happening::Ends { .. } => tally.ended = tally.ended.saturating_add(1),
        }
    }
}

fn start(alloc: Global, day: &Day) -> Result<Core, NoMemory>
    requires least { 1 ≤ day.now.maxretry }
    requires most { day.now.maxretry < 2 ^ 32 }
{
    let (core, _) = Core::empty(alloc).take(&configuration(alloc, day)?)?;
    Ok(core)
}

fn pass(alloc: Global, begin: Core, day: &Day, tally: &mut Tally) -> Result<Core, NoMemory> {
    let mut core = begin;
    let mut number: u64 = 1;
    for step in 0..day.inputs {
        number = next_number(number);
        let input = next_input(alloc, &core, day, step, number)?;
        let (next, told) = core.take(&input)?;
        core = next;
        count(tally, &told.jails);
    }
    Ok(core)
}

/// One failure more, so much later that no other one matters, and the turns that sweep behind it.
fn swept(alloc: Global, begin: Core, day: &Day) -> Result<Core, NoMemory> {
    let secs = moment(day.inputs, day.pace).saturating_add(2 * FINDTIME).min(LAST_MOMENT);
    let (mut core, _) = begin.take(&failing(alloc, day, secs, day.inputs, 0)?)?;
    for _ in 0..200 {
        let _ = core.sweep(10_000);
    }
    Ok(core)
}

/// How many failures are open, by a view.
fn open(core: &Core) -> Result<usize, NoMemory> {
    let view = core.view()?;
    let mut count: usize = 0;
    for jail in view.jails.as_slice() {
        count = count.saturating_add(jail.failures.len());
    }
    Ok(count)
}

fn measure(rt: &(impl Print + AllocGlobal + CpuClock + Files), day: &Day) -> io::Result<()>
    requires least { 1 ≤ day.now.maxretry }
    requires most { day.now.maxretry < 2 ^ 32 }
{
    let alloc = rt.alloc();
    let mut tally = Tally {
        counted: 0,
        begun: 0,
        ended: 0,
    };
    let Ok(core) = start(alloc, day) else {
        return println!(rt; "no memory");
    };
    let begin = rt.thread_cpu_time()?;
    let Ok(core) = pass(alloc, core, day, &mut tally) else {
        return println!(rt; "no memory");
    };
    let Ok(core) = (if day.swept { swept(alloc, core, day) } else { Ok(core) }) else {
        return println!(rt; "no memory");
    };
    let end = rt.thread_cpu_time()?;
    let status = fs::read_to_string(rt, "/proc/self/status")?;
    let Ok(open) = open(&core) else {
        return println!(rt; "no memory");
    };
    let active = tally.begun.saturating_sub(tally.ended);
    println!(rt; "inputs {}", day.inputs)?;
    println!(rt; "counted {}", tally.counted)?;
    println!(rt; "begun {}", tally.begun)?;
    println!(rt; "active {active}")?;
    println!(rt; "open {open}")?;
    println!(rt; "microseconds {}", end.saturating_sub(begin).as_micros())?;
    print!(rt; "{status}")
}

fn main(rt: HostRuntime) -> io::Result<()> {
    for word in env::args(&rt)?.skip(1) {
        measure(&rt, &day_of(word.as_str()))?;
    }
    Ok(())
}
PROGRAM
python3 -B bench/core.py "$program"
