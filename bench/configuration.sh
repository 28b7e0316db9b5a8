#!/bin/sh
# Measures how fast a configuration at its limits is merged, 4,096 files of 16 MiB in all, and how long 10,000 values of it take, each
# ten references deep; then how long whole configurations take until they are definitions of jails, at the limits too, and that of the
# directory that is given, as Debian's /etc/fail2ban. Makes programs of its own over the crates ini_interp and jail_conf in a folder that
# it removes. Needs the kit's command rt, and python3.
#
#     configuration.sh [DIRECTORY]
. "$(dirname "$0")/program.sh"
directory=${1:-}
program_over configuration_bench f2b_base ini_interp <<'PROGRAM'
//! Merges a configuration at its limits, and asks for values of it.
#![tactic(auto)]

use f2b_base::{Bytes, NoMemory, Seq, Text, Tree, TreeFile};
use ini_interp::{merge, value};
use std::alloc::Global;
use std::io;
use std::time::Instant;

/// The items of a file that fill it up to about 4 KiB.
const ITEMS: u64 = 89;

fn push_file(alloc: Global, files: &mut Seq<TreeFile>, path: &str, content: &str) -> Result<(), NoMemory> {
    files.push(TreeFile {
        path: Text::from_str(alloc, path)?,
        content: Bytes::from_slice(alloc, content.as_bytes())?,
    })
}

// A chain of eleven items, each but the last a reference to the next.
fn chain(alloc: Global) -> Result<String, NoMemory> {
    let mut text = String::from_str(alloc, "[DEFAULT]\n")?;
    for number in 0..10 {
        let next = number + 1;
        text.push_str(format!(in alloc; "x{number} = %(x{next})s\n")?.as_str())?;
    }
    text.push_str("x10 = a\n")?;
    Ok(text)
}

fn filled(alloc: Global, file: u64) -> Result<String, NoMemory> {
    let mut text = String::from_str(alloc, "[DEFAULT]\n")?;
    for item in 0..ITEMS {
        text.push_str(format!(in alloc; "n{file:04}x{item:02} = a value of thirty-three letters\n")?.as_str())?;
    }
    Ok(text)
}

fn tree(alloc: Global) -> Result<Tree, NoMemory> {
    let mut files = Seq::new(alloc);
    push_file(alloc, &mut files, "jail.conf", chain(alloc)?.as_str())?;
    for file in 0..4095 {
        let path = format!(in alloc; "jail.d/{file:04}.conf")?;
        push_file(alloc, &mut files, path.as_str(), filled(alloc, file)?.as_str())?;
    }
    Ok(Tree { files })
}

fn main(rt: HostRuntime) -> io::Result<()> {
    let alloc = rt.alloc();
    let Ok(tree) = tree(alloc) else {
        return println!(rt; "no memory");
    };
    let start = Instant::now(&rt)?;
    let Ok(sections) = merge(alloc, &tree, "jail") else {
        return println!(rt; "not merged");
    };
    let merged = start.elapsed(&rt)?.as_millis();
    println!(rt; "merge of {} files: {merged} ms", tree.files.len())?;
    let mut scope = Seq::new(alloc);
    let Ok(section) = Text::from_str(alloc, "DEFAULT") else {
        return println!(rt; "no memory");
    };
    if scope.push(section).is_err() {
        return println!(rt; "no memory");
    }
    let start = Instant::now(&rt)?;
    let mut found: u64 = 0;
    for _ in 0..10_000 {
        if let Ok(Some(_)) = value(alloc, &sections, &scope, "x0") {
            found = found.saturating_add(1);
        }
    }
    let asked = start.elapsed(&rt)?.as_millis();
    println!(rt; "{found} values, each ten references deep: {asked} ms")
}
PROGRAM
cat "$room/said"

program_over conf_bench f2b_base f2b_model host_ident date_words ini_interp tag_subst jail_conf <<'PROGRAM'
//! Reads the configurations of bundles, and prints what each comes to and in which time. A bundle has the bytes of one file behind those
//! of another: its path, the byte 31, its content, and the byte 30.
#![tactic(auto)]

use f2b_base::{Bytes, Defs, NoMemory, Seq, Text, Tree, TreeFile};
use jail_conf::{Fail, conf};
use std::alloc::Global;
use std::fs::Files;
use std::time::CpuClock;
use std::{env, fs, io};

fn tree_of(alloc: Global, bundle: &str) -> Result<Tree, NoMemory> {
    let mut files = Seq::new(alloc);
    for part in bundle.split('\x1e') {
        if let Some((path, content)) = part.split_once('\x1f') {
            files.push(TreeFile {
                path: Text::from_str(alloc, path)?,
                content: Bytes::from_slice(alloc, content.as_bytes())?,
            })?;
        }
    }
    Ok(Tree { files })
}

/// How many patterns the jails have together.
fn patterns_in(defs: &Defs) -> usize {
    let mut count: usize = 0;
    for jail in defs.jails.as_slice() {
        count = count.saturating_add(jail.fail.len()).saturating_add(jail.ignore_lines.len());
    }
    count
}

fn measure(rt: &(impl Print + AllocGlobal + CpuClock + Files), path: &str) -> io::Result<()> {
    let alloc = rt.alloc();
    let bundle = fs::read_to_string(rt, path)?;
    let Ok(tree) = tree_of(alloc, bundle.as_str()) else {
        return println!(rt; "no memory");
    };
    let begin = rt.thread_cpu_time()?;
    let settings = conf(alloc, &tree);
    let end = rt.thread_cpu_time()?;
    let took = end.saturating_sub(begin).as_micros();
    match settings {
        Ok(settings) => {
            let patterns = patterns_in(&settings.defs);
            println!(rt; "{} files, {} jails, {patterns} patterns|{took}", tree.files.len(), settings.defs.jails.len())
        }
        Err(Fail::Refused(error)) => match error.text(alloc) {
            Ok(text) => println!(rt; "{} files, {}|{took}", tree.files.len(), text.as_str()),
            Err(_) => println!(rt; "no memory"),
        },
        Err(Fail::NoMemory) => println!(rt; "no memory"),
    }
}

fn main(rt: HostRuntime) -> io::Result<()> {
    for word in env::args(&rt)?.skip(1) {
        measure(&rt, word.as_str())?;
    }
    Ok(())
}
PROGRAM
python3 -B bench/configuration.py "$program" $directory
