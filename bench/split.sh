#!/bin/bash
# split.sh [WORDS..]: the time in which a clause of nested `if`s is split, for each word a chain of so many,
# as 12, or a whole tree of so many levels, as 12t (default 12, 50, 100, 200, 6t, 8t, 10t and 12t). The tree of
# 12 levels has 4,096 clauses. The time should grow with the literals of the answer, and no faster.
# The program stands in a copy of the crates alone, and is run by `rt try`, which proves nothing and checks each
# step: its times are far above those of a built program, and only how they grow tells. Each is the least of three.
here=$(cd "$(dirname "$0")/.." && pwd)
copy=$(mktemp -d)
trap 'rm -rf "$copy"' EXIT
mkdir -p "$copy/crates/split_time/src" "$copy/crates/split_time/specs" "$copy/crates/split_time/proofs"
cp "$here/HANDLES" "$copy"
below="ap_list ap_value ap_term ap_world ap_kernel ap_ground ap_print ap_clausify"
for crate in $below; do
    grep "^$crate:" "$here/crates.txt" >>"$copy/crates.txt"
    mkdir "$copy/crates/$crate"
    cp -r "$here/crates/$crate/src" "$here/crates/$crate/specs" "$here/crates/$crate/proofs" "$copy/crates/$crate"
done
echo "split_time: $below anyhow" >>"$copy/crates.txt"
touch "$copy/crates/split_time/specs/Lib.antt" "$copy/crates/split_time/proofs/Lib.antt"
cat >"$copy/crates/split_time/src/main.rt" <<'END'
//! Times the splitting of nested `if`s.
#![tactic(auto)]

use ap_clausify::{Clause, NoMemory, Seq, Steps, Term, split};
use ap_ground::ground_world;
use ap_list::{Bytes, Text};
use ap_term::copy_term;
use ap_value::{Symbol, acl2};
use std::alloc::Global;
use std::env;
use std::time::Instant;

fn variable(alloc: Global, kind: u8, number: usize) -> Result<Term, NoMemory> {
    let mut name = Bytes::new(alloc);
    name.push(kind)?;
    let mut rest = number;
    for _ in 0..4 {
        name.push(b'A' + (rest % 26) as u8)?;
        rest /= 26;
    }
    let name = Text::new(alloc, name)?;
    Ok(Term::Var(Symbol { keyword: false, name }))
}

fn choice(alloc: Global, test: Term, yes: Term, no: Term) -> Result<Term, NoMemory> {
    let mut parts = Seq::new(alloc);
    parts.push(test)?;
    parts.push(yes)?;
    parts.push(no)?;
    Term::call(alloc, acl2(alloc, b"IF")?, parts)
}

fn chain(alloc: Global, count: usize) -> Result<Term, NoMemory> {
    let mut t = variable(alloc, b'Z', 0)?;
    for i in 0..count {
        t = choice(alloc, variable(alloc, b'X', i)?, variable(alloc, b'Y', i)?, t)?;
    }
    Ok(t)
}

fn tree(alloc: Global, levels: usize, number: usize) -> Result<Term, NoMemory> {
    if levels == 0 {
        return variable(alloc, b'Y', number);
    }
    let yes = tree(alloc, levels - 1, 2 * number)?;
    let no = tree(alloc, levels - 1, 2 * number + 1)?;
    choice(alloc, variable(alloc, b'X', number)?, yes, no)
}

fn main(rt: HostRuntime) -> anyhow::Result<()> {
    let alloc = rt.alloc();
    let world = ground_world(alloc)?;
    for word in env::args(&rt)?.skip(1) {
        let count: usize = word.trim_end_matches('t').parse()?;
        let t = if word.ends_with('t') { tree(alloc, count, 1)? } else { chain(alloc, count)? };
        let mut least = u128::MAX;
        let mut clauses = 0;
        let mut sum = 0;
        for _ in 0..3 {
            let mut literals = Seq::new(alloc);
            literals.push(copy_term(alloc, &t)?)?;
            let mut steps = Steps { left: 1_000_000 };
            let start = Instant::now(&rt)?;
            let answer = split(alloc, &world, Clause(literals), &mut steps)?;
            least = least.min(start.elapsed(&rt)?.as_micros());
            if let Some(r) = &answer.reduction {
                clauses = r.to().len();
                sum = r.to().as_slice().iter().map(|c| c.0.len()).sum();
            }
        }
        let each = least / (sum as u128).max(1);
        println!(rt; "{word}: {clauses} clauses, {sum} literals, {} ms, {each} us a literal", least / 1000)?;
    }
    Ok(())
}
END
(cd "$copy/crates/split_time" && rt try --seconds 1200 -- ${*:-12 50 100 200 6t 8t 10t 12t} 2>"$copy/errors") || cat "$copy/errors"
