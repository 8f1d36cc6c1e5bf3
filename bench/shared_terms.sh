#!/bin/bash
# shared_terms.sh: the time in which a term of 3,999 nodes is copied 10,000 times and the copies are dropped, and
# in which it is compared 1,000 times with one that shares nothing with it. A copy costs two counts, so 10,000 of
# them should take under 10 milliseconds, whatever the size. It makes a program of its own in a copy of the
# repository, has it proved and runs it.
here=$(cd "$(dirname "$0")/.." && pwd)
folder=$(mktemp -d)
git clone -q "$here" "$folder/copy"
mkdir -p "$folder/copy/crates/share_time/src"
echo 'share_time: ap_list ap_value ap_term' >>"$folder/copy/crates.txt"
cat >"$folder/copy/crates/share_time/src/main.rt" <<'END'
//! Times the copying and dropping of a term.
#![tactic(auto)]

use ap_term::{NoMemory, Seq, Term, copy_term, same_term, size};
use ap_value::acl2;
use std::alloc::{AllocError, Global};
use std::process::ExitCode;
use std::time::Instant;

/// `(REVERSE-APPEND X (REVERSE-APPEND X .. X))` of so many calls.
fn chain(alloc: Global, calls: usize) -> Result<Term, NoMemory> {
    let mut t = Term::Var(acl2(alloc, b"X")?);
    for _ in 0..calls {
        let mut arguments = Seq::new(alloc);
        arguments.push(Term::Var(acl2(alloc, b"X")?))?;
        arguments.push(t)?;
        t = Term::call(alloc, acl2(alloc, b"REVERSE-APPEND")?, arguments)?;
    }
    Ok(t)
}

/// The microseconds since then, or 0 where the clock can't tell.
fn since(rt: &HostRuntime, start: Option<Instant>) -> u128 {
    let Some(start) = start else {
        return 0;
    };
    match start.elapsed(rt) {
        Ok(spent) => spent.as_micros(),
        Err(_) => 0,
    }
}

fn run(rt: &HostRuntime) -> Result<(), NoMemory> {
    let alloc = rt.alloc();
    let t = chain(alloc, 1999)?;
    let other = chain(alloc, 1999)?;
    let nodes = size(&t).unwrap_or(0);
    let mut copies = Vec::new(alloc);
    let start = Instant::now(rt).ok();
    for _ in 0..10000 {
        copies.push(copy_term(alloc, &t)?)?;
    }
    let copied = since(rt, start);
    let start = Instant::now(rt).ok();
    drop(copies);
    let dropped = since(rt, start);
    let start = Instant::now(rt).ok();
    let mut equal = 0u32;
    for _ in 0..1000 {
        if same_term(&t, &other) {
            equal = equal.wrapping_add(1);
        }
    }
    let compared = since(rt, start);
    let _ = println!(rt; "{nodes} nodes: 10,000 copies in {copied} microseconds, their drops in {dropped}, {equal} comparisons in {compared}");
    Ok(())
}

fn main(rt: HostRuntime) -> ExitCode {
    match run(&rt) {
        Ok(()) => ExitCode::from(0),
        Err(AllocError) => ExitCode::from(1),
    }
}
END
(cd "$folder/copy/crates/share_time" && rt run 2>&1 | tee log | grep nodes || tail log)
rm -rf "$folder"
