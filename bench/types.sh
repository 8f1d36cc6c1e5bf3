#!/bin/bash
# types.sh: the time in which the types of terms of 1,024, 2,048 and 4,096 nodes are computed. The sums have
# no facts, so their time should grow with the size. Each of the nested `if`s adds a fact to those below it,
# so their time should grow with the size times the facts. It makes a program of its own in a copy of the
# repository, has it proved and runs it.
here=$(cd "$(dirname "$0")/.." && pwd)
folder=$(mktemp -d)
git clone -q "$here" "$folder/copy"
mkdir -p "$folder/copy/crates/type_bench/src"
echo 'type_bench: ap_list ap_value ap_term ap_world ap_kernel ap_ground ap_eval ap_types' >>"$folder/copy/crates.txt"
cat >"$folder/copy/crates/type_bench/src/main.rt" <<'END'
#![tactic(auto)]

ghost use Rattle.std.specs.Prelude.{IfOk};
ghost use Rattle.ap_world.specs.World.{function_of};
ghost use Rattle.ap_kernel.specs.Standing.{HasGround};

use ap_eval::is_known;
use ap_ground::ground_world;
use ap_list::{NoMemory, Seq};
use ap_term::{Term, size};
use ap_types::{Ctx, World, types_of};
use ap_value::{Value, acl2};
use std::alloc::{AllocError, Global};
use std::process::ExitCode;
use std::time::Instant;

/// `(BINARY-+ '1 (BINARY-+ '1 .. X))`, of about so many nodes.
fn sums(alloc: Global, nodes: usize) -> Result<Term, NoMemory> {
    let mut t = Term::Var(acl2(alloc, b"X")?);
    for _ in 0..nodes / 2 {
        let mut parts = Seq::new(alloc);
        parts.push(Term::Quote(Value::Int(1)))?;
        parts.push(t)?;
        t = Term::call(alloc, acl2(alloc, b"BINARY-+")?, parts)?;
    }
    Ok(t)
}

/// `(IF (CONSP X) '1 (IF (CONSP X) '1 .. X))` of about so many nodes.
fn choices(alloc: Global, nodes: usize) -> Result<Term, NoMemory> {
    let mut t = Term::Var(acl2(alloc, b"X")?);
    for _ in 0..nodes / 4 {
        let mut test = Seq::new(alloc);
        test.push(Term::Var(acl2(alloc, b"X")?))?;
        let mut parts = Seq::new(alloc);
        parts.push(Term::call(alloc, acl2(alloc, b"CONSP")?, test)?)?;
        parts.push(Term::Quote(Value::Int(1)))?;
        parts.push(t)?;
        t = Term::call(alloc, acl2(alloc, b"IF")?, parts)?;
    }
    Ok(t)
}

fn show(rt: &HostRuntime, w: &World, what: &str, t: &Term) -> Result<(), NoMemory>
    requires ground { HasGround (function_of w.now.entries) }
{
    let alloc = rt.alloc();
    if !is_known(w, t) {
        return Ok(());
    }
    let nothing = Ctx::new(alloc, Seq::new(alloc))?;
    let Ok(start) = Instant::now(rt) else {
        return Ok(());
    };
    let mut last = 0;
    for _ in 0..10 {
        last = types_of(alloc, w, &nothing, t)?.0;
    }
    let Ok(spent) = start.elapsed(rt) else {
        return Ok(());
    };
    let nodes = size(t).unwrap_or(0);
    let micros = spent.as_micros() / 10;
    let _ = println!(rt; "{what} of {nodes} nodes: {micros} microseconds, mask {last}");
    Ok(())
}

fn first_world(alloc: Global) -> Result<World, NoMemory>
    ensures { IfOk result (λ w. HasGround (function_of w.entries)) }
{
    ground_world(alloc)
}

fn run(rt: &HostRuntime) -> Result<(), NoMemory> {
    let alloc = rt.alloc();
    let world = first_world(alloc)?;
    for nodes in [1024usize, 2048, 4096] {
        show(rt, &world, "sums", &sums(alloc, nodes - 1)?)?;
        show(rt, &world, "ifs", &choices(alloc, nodes - 1)?)?;
    }
    Ok(())
}

fn main(rt: HostRuntime) -> ExitCode {
    match run(&rt) {
        Ok(()) => ExitCode::from(0),
        Err(AllocError) => ExitCode::from(1),
    }
}
END
mkdir -p "$folder/copy/crates/type_bench/proofs/first_world"
cat >"$folder/copy/crates/type_bench/proofs/first_world/Answers.antt" <<'END'
use Rattle.std.proofs.Common.{◌≡◌, [], ap, refl}
use Rattle.std.specs.Prelude.{Result, Ok, Err, IfOk}
use Rattle.ap_world.specs.World.{Shown, function_of}
use Rattle.ap_world.specs.Ground.{ground, ground_functions, not_function}
use Rattle.ap_world.proofs.Equations.{names_open}
use Rattle.ap_kernel.specs.Standing.{HasGround}
use Rattle.type_bench.proofs.first_world.Goals as goal

ground_has_not : HasGround (function_of ground)
unfolding names_open ground_functions not_function
ground_has_not = refl

if_ground : {E : Type 0} (r : Result Shown E) → IfOk r (λ w. w ≡ record { entries = ground; theory = record { disabled = [] } }) → IfOk r (λ w. HasGround (function_of w.entries))
if_ground (Ok w) h = rw (ap (λ (v : Shown). v.entries) h) ground_has_not
if_ground (Err e) h = h

pub returns : goal.returns
returns c = if_ground c.ground_world.result c.ground_world.ensures
END
(cd "$folder/copy/crates/type_bench" && rt run 2>&1 | tee log | grep nodes || tail log)
rm -rf "$folder"
