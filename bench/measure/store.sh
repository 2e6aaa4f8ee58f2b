#!/usr/bin/env bash
# Times a store in a workspace of its own: putting so many literals, and putting them again; first literals of
# 64 bits, then such of 128 bits as met in one place under the kit's default hash, whose seed is fixed (a high
# half that it takes to 0). The two must take times of one order. Prints milliseconds, and the peak of memory.
# Where BENCH_ROOM names a folder, the workspace stays there, and the next run proves nothing again.
# usage: bench/measure/store.sh [TERMS ..]
set -eu
. "$(dirname "$0")/workspace.sh"
workspace bench_store qv_words qv_store
cat > "$room/crates/bench_store/src/main.rt" <<'C'
//! Puts literals into a store.
#![tactic(auto)]

use anyhow::{Result, anyhow};
use qv_store::{Node, Store};
use qv_words::{Sort, Word};
use std::env;
use std::time::Instant;

const HIGH: u128 = 0x9e37_79b9_7f4a_7c15 << 64;

fn put_all(store: &mut Store, width: u128, high: u128, count: u64) -> Result<()> {
    for i in 0..count {
        let sort = Sort::bits(width).ok_or(anyhow!("sort"))?;
        let word = Word::new(sort, high | u128::from(i)).ok_or(anyhow!("word"))?;
        store.put(Node::Lit { word })?;
    }
    Ok(())
}

fn main(rt: HostRuntime) -> Result<()> {
    let mut words = env::args(&rt)?.skip(1);
    let count = words.next().ok_or(anyhow!("no count"))?.parse::<u64>()?;
    for (width, high) in [(64, 0), (128, HIGH)] {
        let mut store = Store::new(rt.alloc());
        let start = Instant::now(&rt)?;
        put_all(&mut store, width, high, count)?;
        let put = start.elapsed(&rt)?;
        let start = Instant::now(&rt)?;
        put_all(&mut store, width, high, count)?;
        let again = start.elapsed(&rt)?;
        let terms = store.len();
        let (put, again) = (put.as_millis(), again.as_millis());
        println!(rt; "{} terms of {} bits: put {} ms, again {} ms", terms, width, put, again)?;
    }
    Ok(())
}
C
cd "$room/crates/bench_store"
rt run -- 1 >/dev/null
for terms in "${@:-1000000}"; do
    /usr/bin/env time -f '%M KiB at most' ./out/bench_store "$terms"
done
