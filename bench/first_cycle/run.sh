#!/usr/bin/env bash
# Times first_cycle on chains and meshes of 1,024 to 32,768 events, with no cycle and with one at the last events, and
# prints for each size the microseconds of the fastest of five calls and the ratio to the size before.
# The program is built beside copies of the two crates in a temporary folder, and is not proved.
# Use: bench/first_cycle/run.sh [COMMAND], where COMMAND runs the toolchain (rt if left out).
set -eu
rt=${1:-rt}
top=$(cd "$(dirname "$0")/../.." && pwd)
work=$(mktemp -d)
trap 'rm -rf "$work"' EXIT
mkdir -p "$work/crates/cycle_times/src"
for crate in rule_system first_cycle; do
    mkdir "$work/crates/$crate"
    for part in src specs proofs; do cp -r "$top/crates/$crate/$part" "$work/crates/$crate/"; done
done
printf 'rule_system:\nfirst_cycle: rule_system\ncycle_times: first_cycle rule_system\n' > "$work/crates.txt"
cat > "$work/crates/cycle_times/src/main.rt" <<'PROGRAM'
#![tactic(auto)]

use first_cycle::first_cycle;
use rule_system::{Rule, System};
use std::alloc::{AllocError, Global};
use std::io;
use std::time::Instant;

const WIDTH: u32 = 32;

fn rule(source: u32, target: u32) -> Rule {
    Rule {
        source,
        target,
        delay: 1,
        offset: 0,
    }
}

fn chain(alloc: Global, events: u32) -> Result<Vec<Rule>, AllocError> {
    let mut rules = Vec::new(alloc);
    for event in 1..events {
        rules.push(rule(event - 1, event))?;
    }
    Ok(rules)
}

fn mesh(alloc: Global, events: u32) -> Result<Vec<Rule>, AllocError> {
    let mut rules = Vec::new(alloc);
    for event in 0..events {
        if event % WIDTH + 1 < WIDTH {
            rules.push(rule(event, event + 1))?;
        }
        if event + WIDTH < events {
            rules.push(rule(event, event + WIDTH))?;
        }
    }
    Ok(rules)
}

fn micros(rt: &HostRuntime, events: u32, rules: Vec<Rule>) -> io::Result<u64> {
    let alloc = rt.alloc();
    let keep = vec![in alloc; true; rules.len()]?;
    let system = System::build(alloc, events, rules)?;
    let mut fastest = u64::MAX;
    for _ in 0..5 {
        let start = Instant::now(rt)?;
        let found = first_cycle(alloc, &system, &keep)?;
        let time = start.elapsed(rt)?.as_micros() as u64;
        drop(found);
        fastest = fastest.min(time);
    }
    Ok(fastest)
}

fn times(rt: &HostRuntime, is_mesh: bool, has_cycle: bool) -> io::Result<()> {
    let form = if is_mesh { "mesh" } else { "chain" };
    let last = if has_cycle { "cycle at the last events" } else { "no cycle" };
    println!(rt; "{form}, {last}")?;
    let mut events = 1024;
    let mut before = 0;
    for _ in 0..6 {
        let mut rules = if is_mesh { mesh(rt.alloc(), events)? } else { chain(rt.alloc(), events)? };
        if has_cycle {
            rules.push(rule(events - 1, events - 2))?;
        }
        let time = micros(rt, events, rules)?;
        let hundredths = if before == 0 { 0 } else { 100 * time / before };
        println!(rt; "  {events:>6} events {time:>8} us  ratio {}.{:02}", hundredths / 100, hundredths % 100)?;
        before = time;
        events *= 2;
    }
    Ok(())
}

fn main(rt: HostRuntime) -> io::Result<()> {
    times(&rt, false, false)?;
    times(&rt, false, true)?;
    times(&rt, true, false)?;
    times(&rt, true, true)
}
PROGRAM
cd "$work/crates/cycle_times"
"$rt" try --seconds 300
