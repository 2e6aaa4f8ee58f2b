#!/usr/bin/env bash
# Measures how much memory a clause of three literals takes in a `ClauseList`, at the peak while a list is
# filled under ids from 1 on, in a workspace of its own. Where BENCH_ROOM names a folder, the workspace stays
# there, and the next run proves nothing again.
#
# On a busy machine: 16.0 bytes a clause at 10,000, and 21.1 at 100,000, 1,000,000 and 10,000,000 (pages are
# of 4,096 bytes).
# usage: bench/measure/clauses.sh [CLAUSES ..]
set -eu
. "$(dirname "$0")/workspace.sh"
workspace bench_clauses qv_cnf
cat > "$room/crates/bench_clauses/src/main.rt" <<'C'
//! Fills a clause list.
#![tactic(auto)]

use anyhow::{Result, anyhow};
use qv_cnf::{ClauseList, Lit};
use std::env;

fn main(rt: HostRuntime) -> Result<()> {
    let mut words = env::args(&rt)?.skip(1);
    let count = words.next().ok_or(anyhow!("no count"))?.parse::<u64>()?;
    let mut list = ClauseList::new(rt.alloc());
    let lits = [Lit::default(), Lit::default(), Lit::default()];
    for id in 0..count {
        if list.may_add(id) {
            list.add(id, &lits)?;
        }
    }
    let found = list.get(count / 2).is_some();
    println!(rt; "{found}")?;
    Ok(())
}
C
cd "$room/crates/bench_clauses"
rt run -- 1 > /dev/null 2>&1
empty=$(/usr/bin/env time -f %M ./out/bench_clauses 0 2>&1 > /dev/null)
for clauses in "${@:-10000 100000 1000000 10000000}"; do
    for count in $clauses; do
        peak=$(/usr/bin/env time -f %M ./out/bench_clauses "$count" 2>&1 > /dev/null)
        echo "$count $peak $empty" | awk '{ printf "%d clauses: %.1f bytes a clause at the peak\n", $1, ($2 - $3) * 1024 / $1 }'
    done
done
