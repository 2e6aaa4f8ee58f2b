#!/usr/bin/env bash
# Runs programs that drive a solver through a pipe: SBV (as z3 and as cvc4), what4, simple-smt, yosys-smtbmc
# in three modes and Python. Each line that comes is compared with bench/measure/clients/expected, and each
# certificate is checked beside what was sent. Needs Debian's ghc, libghc-sbv-dev, libghc-what4-dev,
# libghc-simple-smt-dev and yosys; what isn't there is left out, and named.
# usage: bench/measure/clients.sh [PROGRAM [FOLDER]]
# PROGRAM is bin/qbv unless it is given; the word z3 tries the clients themselves. FOLDER keeps what was sent
# and said in each session.
set -u
here=$(cd "$(dirname "$0")/clients" && pwd)
program=${1:-$here/../../../bin/qbv}
room=$(mktemp -d)
trap 'rm -rf "$room"' EXIT
folder=${2:-$room/records}
mkdir -p "$folder"
folder=$(cd "$folder" && pwd)
solver="$program solve - ROOM/cert"
[ "$program" = z3 ] && solver="$(command -v z3) -in -smt2"
export QV_SOLVER=$solver
passed=0 failed=0

# Compares the lines of a client with those that are wanted. `failed` alone as what is wanted stands for every
# failure.
compare() { # CLIENT
    local line want
    while IFS= read -r line; do
        want=$(grep -F -m1 "$1 ${line%%: *}: " "$here/expected")
        if [ "$1 $line" = "$want" ] || [[ $want = *": failed" && $line = *": failed: "* ]]; then
            passed=$((passed + 1))
        else
            failed=$((failed + 1))
            printf 'FAILED: %s %s\n  wanted: %s\n' "$1" "${line:0:500}" "${want:-nothing}"
        fi
    done <"$room/lines"
    local missing=$(($(grep -c "^$1 " "$here/expected") - $(wc -l <"$room/lines")))
    if [ "$missing" != 0 ]; then
        failed=$((failed + 1))
        echo "FAILED: $1 printed $missing lines too few; the last on standard error: $(tail -n 1 "$room/faults")"
    fi
    printf '%s: %s lines\n' "$1" "$(wc -l <"$room/lines")"
}

# Runs a client, whose sessions go to a folder of its own.
client() { # CLIENT COMMAND..
    local name=$1
    shift
    export QV_RECORDS=$folder/$name
    rm -rf "$QV_RECORDS"
    mkdir -p "$QV_RECORDS"
    "$@" >"$room/lines" 2>"$room/faults"
    compare "$name"
}

# Compiles a client in Haskell, unless it was compiled here before.
haskell() { # NAME PACKAGE
    if ! command -v ghc >/dev/null || ! ghc-pkg list --global 2>/dev/null | grep -q " $2-"; then
        echo "$1: left out: no $2"
        return 1
    fi
    mkdir -p "$here/out/$1"
    ghc -v0 -O0 -outputdir "$here/out/$1" -o "$here/out/$1/program" "$here/$1.hs" || return 1
}

if haskell Sbv sbv; then
    SBV_Z3=$here/recorded client sbv-z3 "$here/out/Sbv/program" z3
    SBV_CVC4=$here/recorded client sbv-cvc4 "$here/out/Sbv/program" cvc4
fi
haskell What4 what4 && client what4 "$here/out/What4/program" "$here/recorded"
haskell Simple simple-smt && client simple-smt "$here/out/Simple/program" "$here/recorded"
if command -v yosys-smtbmc >/dev/null; then
    client yosys "$here/yosys.sh" z3 "$room/designs"
else
    echo 'yosys: left out: no yosys-smtbmc'
fi
client python "$here/session.py" "$here/recorded"

# Each certificate, beside what was sent.
checked=0
while IFS= read -r -d '' cert; do
    session=$(dirname "$cert")
    verdict=$("$program" check "$session/sent" "$cert" 2>&1 | tail -n 1)
    if [ "$verdict" = accepted ] || [[ $verdict = '(error '* && $verdict = "$(tail -n 1 "$session/said")" ]]; then
        checked=$((checked + 1))
    else
        failed=$((failed + 1))
        echo "FAILED: the certificate of ${session#"$folder/"}: $verdict"
    fi
done < <(find "$folder" -name cert -print0)
echo "$passed passed, $failed failed, $checked certificates accepted"
[ "$failed" = 0 ]
