#!/bin/bash
# linear.sh [CLONE]: the time in which 32 polynomials with eight atoms are refuted or given up. Each is a sum of eight
# variables, each so many times, with coefficients from -9 to 9; the lists differ in these. Of 32 inequalities of sums
# the search gives up, and 16 with the 16 that deny them are refuted: each should take below 5 milliseconds. A time is
# the least of five. It makes a program of its own, has it proved over the libraries that a gate has built in the clone
# (this one by default), and runs it as LLVM builds it.
here=$(cd "$(dirname "$0")/.." && pwd)
built=$(cd "${1:-$here}" && pwd)/crates
kit=/opt/rattle
folder=$(mktemp -d)
trap 'rm -rf "$folder"' EXIT
mkdir "$folder/src" "$folder/specs" "$folder/proofs"
touch "$folder/specs/Lib.antt" "$folder/proofs/Lib.antt"
cat >"$folder/src/main.rt" <<'END'
//! Times the search for a certificate.
#![tactic(auto)]

use ap_linear::{Poly, refute};
use ap_list::{NoMemory, Seq};
use ap_poly::of_literal;
use ap_term::Term;
use ap_value::{Value, acl2};
use ap_world::World;
use std::alloc::{AllocError, Global};
use std::process::ExitCode;
use std::time::Instant;

const NAMES: &[&[u8]] = &[b"A", b"B", b"C", b"D", b"E", b"F", b"G", b"H"];

/// The next of numbers that look like chance.
fn next(seed: &mut u64) -> u64 {
    *seed = seed.wrapping_mul(6364136223846793005).wrapping_add(1442695040888963407);
    *seed >> 33
}

/// A coefficient from -9 to 9, none of them 0.
fn coefficient(seed: &mut u64) -> i128 {
    let size = i128::from(next(seed) % 9) + 1;
    if next(seed) % 2 == 0 { size } else { 0 - size }
}

fn call(alloc: Global, head: &[u8], a: Term, b: Term) -> Result<Term, NoMemory> {
    let mut parts = Seq::new(alloc);
    parts.push(a)?;
    parts.push(b)?;
    Term::call(alloc, acl2(alloc, head)?, parts)
}

/// The sum of each name so many times.
fn sum(alloc: Global, seed: &mut u64) -> Result<Term, NoMemory> {
    let mut t = Term::Quote(Value::Int(0));
    for name in NAMES {
        let times = Term::Quote(Value::Int(coefficient(seed)));
        let product = call(alloc, b"BINARY-*", times, Term::Var(acl2(alloc, name)?))?;
        t = call(alloc, b"BINARY-+", product, t)?;
    }
    Ok(t)
}

/// That such a sum is at least 100, so many times, each with its denial or alone.
fn inequalities(alloc: Global, count: u32, denied: bool, seed: &mut u64) -> Result<Seq<Poly>, NoMemory> {
    let mut polys = Seq::new(alloc);
    for _ in 0..count {
        let t = call(alloc, b"<", sum(alloc, seed)?, Term::Quote(Value::Int(100)))?;
        polys.append(of_literal(alloc, &t, false)?)?;
        if denied {
            polys.append(of_literal(alloc, &t, true)?)?;
        }
    }
    Ok(polys)
}

/// The microseconds that the fastest of five searches takes, or none where the clock can't tell.
fn fastest(rt: &HostRuntime, w: &World, polys: &Seq<Poly>) -> Result<Option<u128>, NoMemory> {
    let mut least = None;
    for _ in 0..5 {
        let Ok(start) = Instant::now(rt) else {
            return Ok(None);
        };
        let _ = refute(rt.alloc(), w, polys)?;
        let Ok(spent) = start.elapsed(rt) else {
            return Ok(None);
        };
        let micros = spent.as_micros();
        if least.is_none_or(|m| micros < m) {
            least = Some(micros);
        }
    }
    Ok(least)
}

fn show(rt: &HostRuntime, w: &World, count: u32, denied: bool, list: u64) -> Result<(), NoMemory> {
    let mut seed = list;
    let polys = inequalities(rt.alloc(), count, denied, &mut seed)?;
    let found = refute(rt.alloc(), w, &polys)?.is_some();
    let Some(micros) = fastest(rt, w, &polys)? else {
        return Ok(());
    };
    let answer = if found { "refuted" } else { "given up" };
    let count = polys.len();
    let _ = println!(rt; "list {list}, {count} polynomials: {answer}, {micros} microseconds");
    Ok(())
}

fn run(rt: &HostRuntime) -> Result<(), NoMemory> {
    let world = World::bare(rt.alloc());
    for list in 1..=6u64 {
        show(rt, &world, 32, false, list)?;
        show(rt, &world, 16, true, list)?;
    }
    Ok(())
}

fn main(rt: HostRuntime) -> ExitCode {
    match run(&rt) {
        Ok(()) => ExitCode::from(0),
        Err(AllocError) => ExitCode::from(1),
    }
}
END
words=(--crate-name linear_time src/main.rt --extern "std=$kit/rlibs/std.rlib" -L "dependency=$kit/rlibs")
for crate in ap_list ap_value ap_term ap_world ap_poly ap_kernel ap_linear; do
    words+=(--extern "$crate=$built/$crate/out/rlib/$crate.rlib" -L "dependency=$built/$crate/out/rlib")
done
words+=(--antt-project "$kit/rattle/logic/antt-project.json" --logic-built "$kit/logic_built" --links linear_time=)
linked=(--target x86_64-unknown-linux-gnu --toolchain "$kit/toolchain")
cd "$folder" || exit 1
"$kit/bin/rattle" build "${words[@]}" --jobs 2 --toolchain "$kit/toolchain" --backend llvm -o program.o >log 2>&1 &&
    "$kit/bin/rattle-link" "${linked[@]}" -o program program.o "$kit/c/libos_c.a" "$kit/c/liblibc_c.a" >>log 2>&1 || {
    cat log
    exit 1
}
./program
