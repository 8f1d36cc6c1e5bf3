#!/bin/bash
# workers.sh [WORKERS..]: the wall time in which so many workers (default 1, 2 and 4) work a task that splits into 32, whose
# steps take time: once each of the parts takes the same, and once they differ tenfold. The ratio to one worker should be
# near the number of free cores. Run it on a machine that does nothing else.
# The program stands in a copy of the crates alone, and is run by `rt try`, which proves nothing.
here=$(cd "$(dirname "$0")/.." && pwd)
copy=$(mktemp -d)
trap 'rm -rf "$copy"' EXIT
mkdir -p "$copy/crates/workers_time/src" "$copy/crates/workers_time/specs" "$copy/crates/workers_time/proofs"
cp "$here/HANDLES" "$copy"
below="ap_list ap_names ap_walk ap_word ap_table ap_speculate"
for crate in $below; do
    grep "^$crate:" "$here/crates.txt" >>"$copy/crates.txt"
    mkdir "$copy/crates/$crate"
    cp -r "$here/crates/$crate/src" "$here/crates/$crate/specs" "$here/crates/$crate/proofs" "$copy/crates/$crate"
done
echo "workers_time: $below anyhow" >>"$copy/crates.txt"
touch "$copy/crates/workers_time/specs/Lib.antt" "$copy/crates/workers_time/proofs/Lib.antt"
cat >"$copy/crates/workers_time/src/main.rt" <<'END'
//! Times workers at a goal table.
#![tactic(auto)]

use ap_names::GoalName;
use ap_speculate::{NoGate, speculate};
use ap_walk::*;
use std::alloc::Global;
use std::env;
use std::sync::Wait;
use std::thread::Threads;
use std::time::Instant;

/// A task whose step spins for so many rounds, and then splits into so many tasks, whose steps spin for so many, and more
/// of them for each second, third and fourth one.
#[derive(Clone, Copy, PartialEq, Debug)]
struct Spun {
    rounds: u64,
    parts: u32,
    part: u64,
    more: u64,
}

struct Spins;

/// A number that takes so many rounds.
fn spin(rounds: u64) -> u64 {
    let mut x = 88172645463325252;
    for _ in 0..rounds {
        x ^= x << 13;
        x ^= x >> 7;
        x ^= x << 17;
    }
    x
}

impl Step for Spins {
    ghost use Rattle.std.specs.Prelude.{[], None, false};
    ghost use Rattle.ap_walk.specs.declared.act.Process.{Process};
    ghost use Rattle.ap_walk.specs.declared.act.Out.{Out};

    type Task = Spun;

    ghost step_of = { λ _. record { act = record { process = Process.Simplify; missed = false; limited = false }; out = Out.Split [] } };
    ghost good = { λ _. Unit {0} };
    ghost name = { λ _. record { induction = []; case = None; path = []; primes = 0 } };
    ghost depth = { λ _. 0 };
    ghost tells = { λ _. ((λ e. Prim.cc), (λ e. Prim.cc)) };
    ghost deeper = { λ _. tt };
    ghost whole = { λ _ _ _. tt };

    fn step(&self, alloc: Global, task: &Spun) -> Result<Stepped<Spun>, NoMemory> {
        let mut children = Seq::new(alloc);
        if spin(task.rounds) != 0 {
            for k in 0..task.parts {
                children.push(Spun {
                    rounds: task.part + task.more * (k % 4) as u64,
                    parts: 0,
                    part: 0,
                    more: 0,
                })?;
            }
        }
        Ok(Stepped {
            act: Act {
                process: Process::Simplify,
                missed: false,
                limited: false,
            },
            out: Out::Split(children),
        })
    }

    fn copy_task(&self, _alloc: Global, task: &Spun) -> Result<Spun, NoMemory> {
        Ok(*task)
    }

    fn same_task(&self, a: &Spun, b: &Spun) -> bool {
        *a == *b
    }

    fn name_of(&self, alloc: Global, _task: &Spun) -> Result<GoalName, NoMemory> {
        Ok(GoalName {
            induction: Seq::new(alloc),
            case: None,
            path: Seq::new(alloc),
            primes: 0,
        })
    }
}

/// The marks of the task's walk, worked by so many workers.
fn marks<R: Threads + Wait + Sync>(
    rt: &R,
    alloc: Global,
    workers: u32,
    task: &Spun,
) -> Result<usize, NoMemory> {
    let rule = Rule {
        initial: false,
        otf: false,
        revert: 2,
        goal_limit: 100_000,
    };
    let state = speculate(rt, alloc, &Spins, task, rule, workers, &NoGate)?;
    let (walked, _) = state.finish(alloc, &Spins)?;
    Ok(walked.marks.len())
}

fn main(rt: HostRuntime) -> anyhow::Result<()> {
    // a child's step is taken twice: by the turn, and in the walk of its job
    let equal = Spun {
        rounds: 1,
        parts: 32,
        part: 3_850_000,
        more: 0,
    };
    let unequal = Spun {
        rounds: 1,
        parts: 32,
        part: 700_000,
        more: 2_100_000,
    };
    for word in env::args(&rt)?.skip(1) {
        let workers: u32 = word.parse()?;
        let start = Instant::now(&rt)?;
        let n = marks(&rt, rt.alloc(), workers, &equal)?;
        let a = start.elapsed(&rt)?.as_millis();
        let m = marks(&rt, rt.alloc(), workers, &unequal)?;
        let b = start.elapsed(&rt)?.as_millis() - a;
        println!(rt; "{workers} workers: {a} ms for {n} equal parts, {b} ms for {m} unequal ones")?;
    }
    Ok(())
}
END
(cd "$copy/crates/workers_time" && rt try --seconds 1200 -- ${*:-1 2 4} 2>"$copy/errors") || cat "$copy/errors"
