#!/bin/sh
# Measures how fast dates of lines are found, beside Python's re with the same six patterns in the same order, on one core. Makes a
# program of its own over the crate date_detect in a folder that it removes. Needs the kit's command rt, and python3.
. "$(dirname "$0")/program.sh"
program_over dates_bench f2b_base f2b_world date_detect <<'PROGRAM'
//! Finds the dates of the lines of a file, and prints how many lines have one and what that took.
#![tactic(auto)]
ghost use Rattle.date_detect.specs.Forms.{HasDatePattern};

use date_detect::{Dates, Searcher};
use f2b_base::DateSpec;
use f2b_world::{Made, Outside, Patterns, build_pattern};
use std::alloc::Global;
use std::time::CpuClock;
use std::{env, fs, io};

/// 2024-03-02T00:00:00Z, which is later than all dates of the lines.
const NOW: u64 = 1_709_337_600;

/// An outside that builds patterns, tells nothing, and has counted as many faults as it can.
#[derive(Drop)]
struct Library {
    alloc: Global,
}

impl Outside for Library {
    ghost use Rattle.std.specs.Prelude.{None, ◌-◌, ◌^◌};

    ghost stands = { λ _. record { told = None; faults = λ _. 2 ^ 64 - 1 } };
}

impl Patterns for Library {
    fn make(&mut self, text: &str) -> Made {
        match build_pattern(self.alloc, text) {
            Made::Built(pattern) => Made::Built(pattern),
            Made::Syntax => Made::Syntax,
            Made::TooBig => Made::TooBig,
            Made::NoMemory => Made::NoMemory,
        }
    }
}

fn spec(anchored: bool) -> DateSpec
    ensures { HasDatePattern result }
{
    if anchored {
        DateSpec::Anchored
    } else {
        DateSpec::Default
    }
}

/// How many lines have a date.
fn dated(searcher: &mut Searcher<'_>, text: &str) -> u64 {
    let mut count: u64 = 0;
    for line in text.lines() {
        if searcher.found(line, NOW, 0).is_some() {
            count = count.saturating_add(1);
        }
    }
    count
}

fn measure(rt: &(impl Print + AllocGlobal + CpuClock), text: &str, anchored: bool) -> io::Result<()> {
    let alloc = rt.alloc();
    let mut library = Library { alloc };
    let Ok(dates) = Dates::build(alloc, &mut library, &spec(anchored)) else {
        return println!(rt; "not built");
    };
    let Ok(mut searcher) = dates.searcher(alloc) else {
        return println!(rt; "no memory");
    };
    let begin = rt.thread_cpu_time()?;
    let count = dated(&mut searcher, text);
    let end = rt.thread_cpu_time()?;
    println!(rt; "{count} {}", end.saturating_sub(begin).as_micros())
}

fn main(rt: HostRuntime) -> io::Result<()> {
    let mut anchored = false;
    for word in env::args(&rt)?.skip(1) {
        if word.as_str() == "--anchored" {
            anchored = true;
        } else {
            let text = fs::read_to_string(&rt, word.as_str())?;
            measure(&rt, text.as_str(), anchored)?;
        }
    }
    Ok(())
}
PROGRAM
python3 -B bench/dates.py "$program"
