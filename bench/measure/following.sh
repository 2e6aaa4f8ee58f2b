#!/usr/bin/env bash
# Times the program on generated scripts: definitions of two before them, short commands, definitions with
# parameters, and nested `let`s, each read to a check; many checks on one script, also such that share most of what
# they assert; and a check of many constants, or of a counter's many steps.
# Prints the size, the seconds of the processor, the peak of memory, and how often each line was printed; for the
# last kinds also the seconds of each peer that is installed (z3, cvc5).
# usage: bench/measure/following.sh [PROGRAM]    the built program, or crates/qbv/out/qbv
set -eu
top=$(cd "$(dirname "$0")/../.." && pwd)
program=${1:-$top/crates/qbv/out/qbv}
room=$(mktemp -d)
trap 'rm -rf "$room"' EXIT
for row in 'steps 10000' 'steps 100000' 'steps 1000000' 'short 5' 'short 50' 'calls 1000' 'calls 10000' 'calls 100000' 'deep 60' 'deep 9000' \
    'levels 1000' 'levels 10000' 'growing 1000' 'growing 10000' 'neighbours 500' 'neighbours 1000' 'neighbours 2000' \
    'neighbours 4000' 'shared 1000' 'twenty 4000' 'path 1000' 'depths 60' \
    'counter 500' 'counter 1000' 'counter 16667' 'bound 60' 'false 1000'; do
    python3 "$top/bench/measure/following.py" $row "$room/script.smt2"
    bytes=$(wc -c <"$room/script.smt2")
    answer=$(/usr/bin/time -f '%U %M' -o "$room/times" "$program" solve --places 100000 --variables 8000000 "$room/script.smt2" - | sort | uniq -c | tr -s ' \n' ' ')
    read -r seconds kilobytes <"$room/times"
    peers=
    case $row in
    neighbours* | shared* | twenty* | path* | depths* | counter* | bound* | false*)
        for peer in z3 'cvc5 --incremental'; do
            command -v "${peer%% *}" >/dev/null || continue
            /usr/bin/time -f '%U' -o "$room/times" timeout 60 $peer "$room/script.smt2" >/dev/null || true
            peers="$peers ${peer%% *} $(tail -n 1 "$room/times") s,"
        done
        ;;
    esac
    echo "$row: $bytes bytes, $seconds s, $((kilobytes / 1024)) MB,$peers$answer"
done
