#!/usr/bin/env bash
# Times `simplify` and a pass in a workspace of its own, on formulas of so many distinct terms that are simple
# already: sums of distinct terms, joined in pairs, so that each term but the literals is an application. Only
# the calls are timed, and each twice on a store that has the formula alone. Prints milliseconds, terms a
# second, and the peak of memory. Where BENCH_ROOM names a folder, the workspace stays there, and the next run
# proves nothing again.
# With real-time priority on a machine whose threads were all taken: 999,999 terms in 0.27 to 0.35 seconds,
# once in 0.57.
# usage: bench/measure/simplify.sh [TERMS ..]
set -eu
. "$(dirname "$0")/workspace.sh"
workspace bench_simplify qv_words qv_circuits_laws qv_store qv_rewrite smallvec
cat > "$room/crates/bench_simplify/src/main.rt" <<'C'
//! Simplifies a formula that is simple already.
#![tactic(auto)]

use anyhow::{Result, anyhow};
use qv_rewrite::{pass, simplify};
use qv_store::{Id, Node, Store};
use qv_words::{Op, Rule, Sort, Word, result_sort};
use smallvec::SmallVec;
use std::alloc::Global;
use std::env;
use std::time::Instant;

// An operator's application to two terms.
fn put_two(alloc: Global, store: &mut Store, op: Op, a: Id, b: Id) -> Result<Id> {
    if a.number() >= store.len() {
        return Err(anyhow!("first"));
    }
    if b.number() >= store.len() {
        return Err(anyhow!("second"));
    }
    let first = store.sort(a);
    let second = store.sort(b);
    if result_sort(op, &[first, second]).is_none() {
        return Err(anyhow!("sorts"));
    }
    let kids = SmallVec::from_slice(alloc, &[a, b])?;
    Ok(store.put(Node::App { op, kids })?)
}

fn put_literal(store: &mut Store, value: u64) -> Result<Id> {
    let word = Word::new(Sort::bits(64).ok_or(anyhow!("sort"))?, u128::from(value));
    Ok(store.put(Node::Lit { word: word.ok_or(anyhow!("word"))? })?)
}

// A sum of so many distinct terms.
fn sum(alloc: Global, store: &mut Store, count: u64) -> Result<Id> {
    let sort = Sort::bits(64).ok_or(anyhow!("sort"))?;
    let place = store.put(Node::Var { level: 0, sort })?;
    let mut terms = Vec::new(alloc);
    for value in 0..count / 3 {
        let literal = put_literal(store, value + 2)?;
        terms.push(put_two(alloc, store, Op::BvXor, place, literal)?)?;
    }
    let first = terms.len();
    for at in 0..first {
        if 2 * at as u64 + 1 >= terms.len() as u64 {
            break;
        }
        let made = put_two(alloc, store, Op::BvAdd, terms[2 * at], terms[2 * at + 1])?;
        terms.push(made)?;
    }
    terms.pop().ok_or(anyhow!("no terms"))
}

fn simplified(alloc: Global, store: &mut Store, id: Id) -> Result<Id> {
    if id.number() >= store.len() {
        return Err(anyhow!("no term"));
    }
    if store.quantified(id) {
        return Err(anyhow!("quantified"));
    }
    Ok(simplify(alloc, store, id)?)
}

fn passed(alloc: Global, store: &mut Store, id: Id) -> Result<usize> {
    if id.number() >= store.len() {
        return Err(anyhow!("no term"));
    }
    if store.quantified(id) {
        return Err(anyhow!("quantified"));
    }
    Ok(pass(alloc, store, Rule::Fold, &[id])?.len())
}

fn main(rt: HostRuntime) -> Result<()> {
    let mut words = env::args(&rt)?.skip(1);
    let count = words.next().ok_or(anyhow!("no count"))?.parse::<u64>()?;
    let mut store = Store::new(rt.alloc());
    let id = sum(rt.alloc(), &mut store, count)?;
    let terms = store.len();
    for _round in 0..2 {
        let start = Instant::now(&rt)?;
        let made = simplified(rt.alloc(), &mut store, id)?;
        let simplify = start.elapsed(&rt)?.as_micros();
        let start = Instant::now(&rt)?;
        passed(rt.alloc(), &mut store, id)?;
        let pass = start.elapsed(&rt)?.as_micros();
        let same = made == id && store.len() == terms;
        println!(rt; "{} terms: simplify {} us, a pass {} us, as it was: {}", terms, simplify, pass, same)?;
    }
    Ok(())
}
C
cd "$room/crates/bench_simplify"
rt run -- 10 >/dev/null
for terms in "${@:-1000000}"; do
    /usr/bin/env time -f '%M KiB at most' ./out/bench_simplify "$terms"
done
