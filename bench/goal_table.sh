#!/bin/bash
# goal_table.sh [WIDTH..]: the time in which a goal table is worked, for each width a tree of three levels of families of
# so many children (default 10, 20, 30 and 46; the last has 99,499 nodes). 64 jobs are claimed at a time, and the
# last of them is worked first. The time should grow with the nodes, and no faster.
# The program stands in a copy of the crates alone, and is run by `rt try`, which proves nothing and checks each
# step: its times are far above those of a built program, and only how they grow tells.
here=$(cd "$(dirname "$0")/.." && pwd)
copy=$(mktemp -d)
trap 'rm -rf "$copy"' EXIT
mkdir -p "$copy/crates/table_time/src" "$copy/crates/table_time/specs" "$copy/crates/table_time/proofs"
cp "$here/HANDLES" "$copy"
below="ap_list ap_names ap_walk ap_word ap_table"
for crate in $below; do
    grep "^$crate:" "$here/crates.txt" >>"$copy/crates.txt"
    mkdir "$copy/crates/$crate"
    cp -r "$here/crates/$crate/src" "$here/crates/$crate/specs" "$here/crates/$crate/proofs" "$copy/crates/$crate"
done
echo "table_time: $below anyhow" >>"$copy/crates.txt"
touch "$copy/crates/table_time/specs/Lib.antt" "$copy/crates/table_time/proofs/Lib.antt"
cat >"$copy/crates/table_time/src/main.rt" <<'END'
//! Times the work of a goal table.
#![tactic(auto)]

use ap_names::GoalName;
use ap_table::*;
use ap_walk::*;
use std::alloc::Global;
use std::env;
use std::time::Instant;

#[derive(Clone, Copy, PartialEq, Debug)]
struct Wide {
    left: u32,
    width: u32,
}

struct Trees;

impl Step for Trees {
    ghost use Rattle.std.specs.Prelude.{[], None, false};
    ghost use Rattle.ap_walk.specs.declared.act.Process.{Process};
    ghost use Rattle.ap_walk.specs.declared.act.Out.{Out};

    type Task = Wide;

    ghost step_of = { λ _. record { act = record { process = Process.Simplify; missed = false; limited = false }; out = Out.Split [] } };
    ghost good = { λ _. Unit {0} };
    ghost name = { λ _. record { induction = []; case = None; path = []; primes = 0 } };
    ghost depth = { λ _. 0 };
    ghost tells = { λ _. ((λ e. Prim.cc), (λ e. Prim.cc)) };
    ghost deeper = { λ _. tt };
    ghost whole = { λ _ _ _. tt };

    fn step(&self, alloc: Global, task: &Wide) -> Result<Stepped<Wide>, NoMemory> {
        let mut children = Seq::new(alloc);
        if task.left > 0 {
            for _ in 0..task.width {
                children.push(Wide {
                    left: task.left - 1,
                    width: task.width,
                })?;
            }
        }
        Ok(Stepped {
            act: Act {
                process: Process::Simplify,
                missed: false,
                limited: false,
            },
            out: Out::Split(children),
        })
    }

    fn copy_task(&self, _alloc: Global, task: &Wide) -> Result<Wide, NoMemory> {
        Ok(*task)
    }

    fn same_task(&self, a: &Wide, b: &Wide) -> bool {
        *a == *b
    }

    fn name_of(&self, alloc: Global, _task: &Wide) -> Result<GoalName, NoMemory> {
        Ok(GoalName {
            induction: Seq::new(alloc),
            case: None,
            path: Seq::new(alloc),
            primes: 0,
        })
    }
}

fn work(alloc: Global, table: &mut TableState<Trees>, job: Job<Wide>) -> Result<(), NoMemory> {
    if job.task.left > 0 {
        let stepped = Trees.step(alloc, &job.task)?;
        table.expand_step(alloc, &Trees, job, stepped);
    } else {
        let walked = serial(alloc, &Trees, &job.task, job.rule)?;
        table.put_step(&Trees, job, walked);
    }
    Ok(())
}

fn claimed(alloc: Global, table: &mut TableState<Trees>) -> Result<Seq<Job<Wide>>, NoMemory> {
    let mut jobs = Seq::new(alloc);
    for _ in 0..64 {
        let Claim::Found(job) = table.claim_step() else {
            return Ok(jobs);
        };
        jobs.push(job)?;
    }
    Ok(jobs)
}

fn main(rt: HostRuntime) -> anyhow::Result<()> {
    let alloc = rt.alloc();
    for word in env::args(&rt)?.skip(1) {
        let root = Wide {
            left: 3,
            width: word.parse()?,
        };
        let rule = Rule {
            initial: false,
            otf: false,
            revert: 2,
            goal_limit: 200_000,
        };
        let start = Instant::now(&rt)?;
        let mut table = first(alloc, &Trees, root, rule)?;
        loop {
            let mut jobs = claimed(alloc, &mut table)?;
            if jobs.len() == 0 {
                break;
            }
            while let Some(job) = jobs.pop() {
                work(alloc, &mut table, job)?;
            }
        }
        let worked = start.elapsed(&rt)?.as_millis();
        let steps = table.history().len();
        let (walked, notes) = table.finish(alloc, &Trees)?;
        let whole = start.elapsed(&rt)?.as_millis();
        let nodes = walked.marks.len();
        println!(rt; "{word}: {nodes} nodes, {steps} steps, {} drops, {worked} ms and {} ms for the end, {} us a node", notes.len(), whole - worked, whole * 1000 / nodes as u128)?;
    }
    Ok(())
}
END
(cd "$copy/crates/table_time" && rt try --seconds 1200 -- ${*:-10 20 30 46} 2>"$copy/errors") || cat "$copy/errors"
