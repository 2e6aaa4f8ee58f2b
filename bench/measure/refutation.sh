#!/usr/bin/env bash
# Times the reading and checking of a generated refutation, in a workspace of its own, and beside it a plain
# checker in C. Where BENCH_ROOM names a folder, the workspace stays there, and the next run proves nothing
# again. Then it times the refutation of a script's section: by both of these, clause by clause, and as a
# certificate by `qbv check`, with PROGRAM, the built program, RUNS times in turn.
# usage: bench/measure/refutation.sh [CLAUSES [STEPS [PROGRAM [RUNS]]]]
set -eu
. "$(dirname "$0")/workspace.sh"
workspace bench_refutation qv_cnf qv_rup qv_lrat_text
cat > "$room/crates/bench_refutation/src/main.rt" <<'C'
//! Reads original clauses and steps from two files, line by line, and checks the steps.
#![tactic(auto)]

use anyhow::{Result, anyhow};
use qv_cnf::Step;
use qv_lrat_text::LineReader;
use qv_rup::Checker;
use std::alloc::Global;
use std::fs::File;
use std::io::{BufRead, BufReader};
use std::time::Instant;
use std::{env, fs};

/// How many lines and literals a file had.
#[derive(Clone, Copy)]
struct Counts {
    lines: u64,
    literals: u64,
}

fn size(step: &Step) -> usize {
    match step {
        Step::Add { lits, .. } => lits.len(),
        Step::Delete { .. } => 0,
    }
}

fn original(checker: &mut Checker, step: &Step) -> Result<usize> {
    match step {
        Step::Add { id, lits, .. } => match checker.original(*id, lits) {
            Ok(()) => Ok(lits.len()),
            Err(fault) => Err(anyhow!("{fault:?}")),
        },
        Step::Delete { .. } => Err(anyhow!("no clause")),
    }
}

fn step(checker: &mut Checker, step: &Step) -> Result<usize> {
    match checker.step(step) {
        Ok(()) => Ok(size(step)),
        Err(fault) => Err(anyhow!("{fault:?}")),
    }
}

fn take(reader: &mut LineReader, checker: &mut Checker, line: &[u8], steps: bool) -> Result<usize> {
    let next = match reader.read(line) {
        Ok(next) => next,
        Err(fault) => return Err(anyhow!("{fault:?}")),
    };
    let taken = if steps {
        step(checker, &next)
    } else {
        original(checker, &next)
    };
    reader.reuse(next);
    taken
}

/// Hands each line of the file to the checker, as a step or as an original clause.
fn take_all(alloc: Global, checker: &mut Checker, file: File, steps: bool) -> Result<Counts> {
    let mut input = BufReader::new(alloc, file)?;
    let mut reader = LineReader::new(alloc);
    let mut line = Vec::new(alloc);
    let mut counts = Counts {
        lines: 0,
        literals: 0,
    };
    for _ in 0..u64::MAX {
        line.clear();
        if input.read_until(b'\n', &mut line)? == 0 {
            break;
        }
        let literals = take(&mut reader, checker, &line, steps)? as u64;
        counts.lines = counts.lines.saturating_add(1);
        counts.literals = counts.literals.saturating_add(literals);
    }
    Ok(counts)
}

fn main(rt: HostRuntime) -> Result<()> {
    let alloc = rt.alloc();
    let mut names = env::args(&rt)?.skip(1);
    let first = names.next().ok_or(anyhow!("no file"))?;
    let second = names.next().ok_or(anyhow!("no file"))?;
    let mut checker = Checker::new(alloc);
    let clauses = take_all(alloc, &mut checker, fs::open(&rt, first.as_str())?, false)?;
    let start = Instant::now(&rt)?;
    let steps = take_all(alloc, &mut checker, fs::open(&rt, second.as_str())?, true)?;
    let elapsed = start.elapsed(&rt)?;
    let literals = clauses.literals.saturating_add(steps.literals);
    println!(rt; "{} clauses, {} steps in {} ms, {literals} literals", clauses.lines, steps.lines, elapsed.as_millis())?;
    Ok(())
}
C
python3 "$top/bench/measure/refutation.py" "${1:-1000000}" "${2:-1000000}" "$room/clauses" "$room/steps"
cd "$room/crates/bench_refutation"
rt run -- "$room/clauses" "$room/steps" >/dev/null
/usr/bin/env time -f '%M KiB' ./out/bench_refutation "$room/clauses" "$room/steps"
cc -O2 -o "$room/lrat_check" "$top/bench/measure/lrat_check.c"
/usr/bin/env time -f '%M KiB' "$room/lrat_check" "$room/clauses" "$room/steps"
program=${3:-$top/crates/qbv/out/qbv}
[ -x "$program" ] || exit 0
how='%U s of the processor, %M KiB'
for products in 0 30; do
    python3 "$top/bench/measure/refutation.py" section "${2:-1000000}" "$products" "$room"
    /usr/bin/env time -f "plain reading: $how" ./out/bench_refutation "$room/clauses" "$room/steps"
    /usr/bin/env time -f "qbv check: $how" "$program" check "$room/script" "$room/cert"
    /usr/bin/env time -f "plain reading in C: $how" "$room/lrat_check" "$room/clauses" "$room/steps"
    python3 "$top/bench/measure/reading_times.py" "${4:-21}" ./out/bench_refutation "$program" "$room"
done
