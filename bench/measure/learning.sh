#!/usr/bin/env bash
# Times conflict analysis, in a workspace of its own, on conflicts that come of few clauses on a long trail,
# and of many. Where BENCH_ROOM names a folder, the workspace stays there, and the next run proves nothing
# again.
# usage: bench/measure/learning.sh
set -eu
. "$(dirname "$0")/workspace.sh"
workspace bench_learning qv_cnf qv_watch qv_learn
cat > "$room/crates/bench_learning/src/main.rt" <<'C'
//! Times the analysis of one conflict. `below N`: N literals were assumed before it and have no part in it. `beside N`: N
//! literals come from the same assumption and have no part in it. `chain N`: it comes of two chains of N clauses.
#![tactic(auto)]

use anyhow::{Result, anyhow};
use qv_cnf::Lit;
use qv_learn::analyse;
use qv_watch::{Propagated, Trail};
use std::env;
use std::time::Instant;

fn lit(number: i32) -> Result<Lit> {
    Lit::new(number).ok_or(anyhow!("no literal"))
}

fn attach(trail: &mut Trail, id: u64, a: Lit, b: Lit) -> Result<()> {
    trail.room(a.variable().max(b.variable()))?;
    if trail.level() != 0 || trail.clause(id).is_some() {
        return Err(anyhow!("no clause can come here"));
    }
    trail.attach(id, &[a, b])?;
    Ok(())
}

fn assume(trail: &mut Trail, lit: Lit) -> Result<()> {
    trail.room(lit.variable())?;
    if trail.propagate() != Propagated::Quiet || trail.value(lit).is_some() {
        return Err(anyhow!("no literal can be assumed here"));
    }
    trail.assume(lit);
    Ok(())
}

/// The conflict comes of the two last variables.
fn below(trail: &mut Trail, n: i32) -> Result<()> {
    let first = lit(n.saturating_add(1))?;
    let second = lit(n.saturating_add(2))?;
    attach(trail, 1, first.negated(), second)?;
    attach(trail, 2, first.negated(), second.negated())?;
    for number in 1..n {
        assume(trail, lit(number)?)?;
    }
    assume(trail, first)
}

/// The conflict comes of the first two clauses; each other one gives a literal.
fn beside(trail: &mut Trail, n: i32) -> Result<()> {
    let first = lit(1)?;
    for number in 2..n {
        attach(trail, number.unsigned_abs() as u64, first.negated(), lit(number)?)?;
    }
    attach(trail, 1 << 32, first.negated(), lit(2)?.negated())?;
    assume(trail, first)
}

/// The two chains go over the even and the odd variables.
fn chain(trail: &mut Trail, n: i32) -> Result<()> {
    let first = lit(1)?;
    attach(trail, 2, first.negated(), lit(2)?)?;
    attach(trail, 3, first.negated(), lit(3)?)?;
    let last = n.saturating_mul(2);
    for number in 4..last {
        let before = lit(number.saturating_sub(2))?;
        attach(trail, number.unsigned_abs() as u64, before.negated(), lit(number)?)?;
    }
    let left = lit(last.saturating_sub(1))?;
    let right = lit(last.saturating_sub(2))?;
    attach(trail, 1 << 32, left.negated(), right.negated())?;
    assume(trail, first)
}

fn build(trail: &mut Trail, shape: &str, n: i32) -> Result<()> {
    match shape {
        "below" => below(trail, n),
        "beside" => beside(trail, n),
        "chain" => chain(trail, n),
        _ => Err(anyhow!("no such shape")),
    }
}

fn main(rt: HostRuntime) -> Result<()> {
    let mut words = env::args(&rt)?.skip(1);
    let shape = words.next().ok_or(anyhow!("no shape"))?;
    let n = words.next().ok_or(anyhow!("no number"))?;
    let n = n.as_str().parse::<i32>().map_err(|_| anyhow!("no number"))?;
    let mut trail = Trail::new(rt.alloc());
    build(&mut trail, shape.as_str(), n)?;
    let Propagated::Conflict { id } = trail.propagate() else {
        return Err(anyhow!("no conflict"));
    };
    let start = Instant::now(&rt)?;
    let learnt = analyse(rt.alloc(), &trail, id)?;
    let elapsed = start.elapsed(&rt)?;
    println!(rt; "{} literals on the trail, {} learnt, {} hints: {} us", trail.order().len(), learnt.lits.len(), learnt.hints.len(), elapsed.as_micros())?;
    Ok(())
}
C
cd "$room/crates/bench_learning"
rt run -- below 1 >/dev/null
for shape in below beside chain; do
    for n in 1000 10000 100000 1000000; do
        echo "$shape $n: $(./out/bench_learning "$shape" "$n")"
    done
done
