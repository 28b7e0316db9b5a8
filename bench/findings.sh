#!/bin/sh
# Measures how fast the findings of lines are made by a filter of sshd, beside Python's re with the same patterns in the same order, on
# one core. Makes a program of its own over the crate filter_regex in a folder that it removes. Needs the kit's command rt, and python3.
. "$(dirname "$0")/program.sh"
program_over findings_bench f2b_base f2b_world host_ident ignore_set date_detect filter_regex <<'PROGRAM'
//! Makes the findings of the lines of a file, and prints how many of them are failures and what that took.
#![tactic(auto)]
ghost use Rattle.std.specs.Prelude.{IfOk};
ghost use Rattle.date_detect.specs.Forms.{HasDatePattern};
ghost use Rattle.filter_regex.specs.Rules.{IsSupported};

use f2b_base::{BanRule, DateSpec, JailDef, NoMemory, Seq, Text};
use f2b_world::{Made, Outside, Patterns, build_pattern};
use filter_regex::{Filter, Finding, Searcher};
use ignore_set::IgnoreSet;
use std::alloc::Global;
use std::time::CpuClock;
use std::{env, fs, io};

/// 2024-03-02T00:00:00Z, which is later than all dates of the lines.
const NOW: u64 = 1_709_337_600;

/// Longer ago than all of them.
const FINDTIME: u64 = 172_800;

const PREFIX: &str = r"^\s*\S+ sshd(?:-session)?\[[0-9]+\]: <F-CONTENT>.+</F-CONTENT>$";

const FAILED: &str =
    r"^Failed \S+ for (?:invalid user )?<F-USER>.*</F-USER> from <HOST> port [0-9]+(?: ssh2)?$";

const INVALID: &str = r"^Invalid user <F-USER>.*</F-USER> from <HOST>(?: port [0-9]+)?$";

const CLOSED: &str = r"^Connection closed by authenticating user <F-USER>.*</F-USER> <HOST> port [0-9]+ \[preauth\]$";

/// An outside that builds patterns, tells nothing, and has counted as many faults as it can.
#[derive(Drop)]
struct Library {
    alloc: Global,
}

impl Outside for Library {
    ghost use Rattle.std.specs.Prelude.{None, ◌-◌, ◌^◌};

    ghost stands = { λ _. record { told = None; faults = λ _. 2 ^ 64 - 1 } };
}

impl Patterns for Library {
    fn make(&mut self, text: &str) -> Made {
        match build_pattern(self.alloc, text) {
            Made::Built(pattern) => Made::Built(pattern),
            Made::Syntax => Made::Syntax,
            Made::TooBig => Made::TooBig,
            Made::NoMemory => Made::NoMemory,
        }
    }
}

fn spec(anchored: bool) -> DateSpec
    ensures { HasDatePattern result }
{
    if anchored {
        DateSpec::Anchored
    } else {
        DateSpec::Default
    }
}

fn patterns(alloc: Global) -> Result<Seq<Text>, NoMemory> {
    let mut patterns = Seq::new(alloc);
    for text in [FAILED, INVALID, CLOSED] {
        patterns.push(Text::from_str(alloc, text)?)?;
    }
    Ok(patterns)
}

fn jail(alloc: Global, anchored: bool) -> Result<JailDef, NoMemory>
    ensures { IfOk result IsSupported }
{
    let fail = patterns(alloc)?;
    if fail.len() > 512 {
        return Err(NoMemory);
    }
    Ok(JailDef {
        name: Text::from_str(alloc, "sshd")?,
        watches: Seq::new(alloc),
        zone: 0,
        date: spec(anchored),
        pref: Some(Text::from_str(alloc, PREFIX)?),
        fail,
        ignore_lines: Seq::new(alloc),
        ignore: Seq::new(alloc),
        findtime: FINDTIME,
        maxretry: 3,
        maxmatches: 10,
        rule: BanRule {
            base: 60,
            increment: false,
            factor: 1000,
            multipliers: Seq::new(alloc),
            maxtime: 60,
            rndtime: 0,
        },
        actions: Seq::new(alloc),
    })
}

/// How many lines are failures.
fn failures(searcher: &mut Searcher<'_>, ignore: &IgnoreSet, text: &str) -> u64 {
    let mut count: u64 = 0;
    for line in text.lines() {
        if let Ok(Finding::Failure { .. }) = searcher.found(ignore, line, NOW, FINDTIME) {
            count = count.saturating_add(1);
        }
    }
    count
}

fn measure(rt: &(impl Print + AllocGlobal + CpuClock), text: &str, anchored: bool) -> io::Result<()> {
    let alloc = rt.alloc();
    let mut library = Library { alloc };
    let Ok(jail) = jail(alloc, anchored) else {
        return println!(rt; "no memory");
    };
    let Ok(filter) = Filter::build(alloc, &mut library, &jail) else {
        return println!(rt; "not built");
    };
    let Ok(mut searcher) = filter.searcher(alloc) else {
        return println!(rt; "no memory");
    };
    let Ok(ignore) = IgnoreSet::new(alloc, &jail.ignore) else {
        return println!(rt; "no memory");
    };
    let begin = rt.thread_cpu_time()?;
    let count = failures(&mut searcher, &ignore, text);
    let end = rt.thread_cpu_time()?;
    println!(rt; "{count} {}", end.saturating_sub(begin).as_micros())
}

fn main(rt: HostRuntime) -> io::Result<()> {
    let mut anchored = false;
    for word in env::args(&rt)?.skip(1) {
        if word.as_str() == "--anchored" {
            anchored = true;
        } else {
            let text = fs::read_to_string(&rt, word.as_str())?;
            measure(&rt, text.as_str(), anchored)?;
        }
    }
    Ok(())
}
PROGRAM
python3 -B bench/findings.py "$program"
