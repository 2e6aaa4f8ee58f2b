#!/usr/bin/env bash
# Refuses each request for memory in turn: of `solve` on a script of four checks, and of `check` on a script
# with a certificate by hand. A run that meets a refusal has to end with status 5; what it printed has to be a
# front of what comes where nothing is refused, and each answer that it printed whole has to have its section
# whole in the certificate. A line for each run that doesn't, and at the end how many requests there are.
#
# usage: bench/measure/memory.sh [PROGRAM]    crates/qbv/out/qbv where nothing is said
set -u
top=$(cd "$(dirname "$0")/../.." && pwd)
program=$(realpath "${1:-$top/crates/qbv/out/qbv}")
room=$(mktemp -d) || exit 1
trap 'rm -rf "$room"' EXIT
cc -O1 -shared -fPIC -o "$room/refuse.so" "$top/bench/measure/memory.c" -ldl || exit 1
cd "$room" || exit 1
printf '(check-sat)(check-sat)(push 1)(assert false)(check-sat)(pop 1)(check-sat)' >script
printf '(assert (forall ((x (_ BitVec 2))) (exists ((y (_ BitVec 2))) (and (= ((_ extract 0 0) x) #b1) (= ((_ extract 0 0) y) #b0)))))(check-sat)' >siblings
printf '%s\n' 'qbv-cert 1' 'check 1 unsat' 'n 1 c 2 1' 'i 1 0 1' 'e 2 1' 'n 2 g 2' 'i 3 0 2' 'e 4 3' lrat '26 0 1 13 11 25 22 17 8 0' end >siblings.cert
wrong=0

# Why what was written isn't a front of a file, or nothing.
is_front() { # WRITTEN WHOLE
    head -c "$(stat -c %s "$1")" "$2" | cmp -s - "$1" || echo "$1 is no front; "
}

# Each request of a run is refused in turn.
refuse_each() { # NAME WORDS..
    local name=$1 number why got
    shift
    rm -f cert && "$program" "$@" >whole.out 2>whole.err </dev/null || { echo "$name: status $? where nothing is refused"; exit 1; }
    [ -e cert ] && mv cert whole.cert || : >whole.cert
    for ((number = 1; ; number++)); do
        rm -f cert missed
        REFUSED=$number MISSED=$room/missed LD_PRELOAD=$room/refuse.so "$program" "$@" >out 2>err </dev/null
        got=$?
        [ -e missed ] && break
        [ -e cert ] || : >cert
        why=$(is_front out whole.out; is_front cert whole.cert)
        [ "$got" = 5 ] || why+="status $got; "
        if [ "$1" = solve ] && [ "$(grep -c '^end$' cert)" -lt "$(wc -l <out)" ]; then
            why+="an answer without its section; "
        fi
        [ -z "$why" ] || { echo "$name, request $number: $why"; wrong=$((wrong + 1)); }
    done
    echo "$name: $((number - 1)) requests"
}

refuse_each 'solve of push and pop' solve script cert
refuse_each 'check of siblings' check siblings siblings.cert
echo "$wrong wrong"
[ "$wrong" = 0 ]
