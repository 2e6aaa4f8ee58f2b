#!/usr/bin/env bash
# Times the reading of generated scripts, in a workspace of its own: short assertions, and one command that is
# deeply nested. Where BENCH_ROOM names a folder, the workspace stays there, and the next run proves nothing
# again.
# usage: bench/measure/reader.sh [MEGABYTES_OF_ASSERTIONS [MEGABYTES_OF_ATOMS]]
set -eu
. "$(dirname "$0")/workspace.sh"
workspace bench_reader qv_io qv_text qv_sexpr
cat > "$room/crates/bench_reader/src/main.rt" <<'C'
//! Reads the commands of a file, one after another.
#![tactic(auto)]

use anyhow::{Result, anyhow};
use qv_io::{Source, StdSource};
use qv_sexpr::{Next, Reader};
use std::alloc::Global;
use std::time::Instant;
use std::{env, fs};

/// How many commands a script had, how many tokens, and how many of them the largest command.
#[derive(Clone, Copy)]
struct Counts {
    commands: u64,
    tokens: u64,
    largest: u64,
}

fn with_command(counts: Counts, tokens: u64) -> Counts {
    Counts {
        commands: counts.commands.saturating_add(1),
        tokens: counts.tokens.saturating_add(tokens),
        largest: counts.largest.max(tokens),
    }
}

fn read_script<S: Source>(alloc: Global, source: &mut S) -> Result<Counts> {
    let mut reader = Reader::new(alloc)?;
    let mut counts = Counts {
        commands: 0,
        tokens: 0,
        largest: 0,
    };
    for _ in 0..u64::MAX {
        match reader.next_command(source) {
            Next::Command(expr) => counts = with_command(counts, expr.items.len() as u64),
            Next::End => return Ok(counts),
            other => return Err(anyhow!("{other:?}")),
        }
    }
    Err(anyhow!("too many commands"))
}

fn main(rt: HostRuntime) -> Result<()> {
    let mut names = env::args(&rt)?.skip(1);
    let name = names.next().ok_or(anyhow!("no file"))?;
    let mut source = StdSource::new(Some(fs::open(&rt, name.as_str())?));
    let start = Instant::now(&rt)?;
    let counts = read_script(rt.alloc(), &mut source)?;
    let elapsed = start.elapsed(&rt)?;
    println!(rt; "{} commands, {} tokens, {} in the largest, {} ms", counts.commands, counts.tokens, counts.largest, elapsed.as_millis())?;
    Ok(())
}
C
python3 "$top/bench/measure/reader.py" "${1:-50}" "${2:-20}" "$room/short" "$room/nested"
cd "$room/crates/bench_reader"
rt run -- "$room/short" >/dev/null
for script in short nested; do
    echo "$script: $(stat -c %s "$room/$script") bytes"
    /usr/bin/env time -f '%M KiB' ./out/bench_reader "$room/$script"
done
