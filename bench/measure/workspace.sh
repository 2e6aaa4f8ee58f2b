# Makes a workspace of its own for a benchmark, over the repository's crates. Where BENCH_ROOM names a folder,
# the workspace stays there, and the next run proves nothing again.
# usage: . bench/measure/workspace.sh; workspace PROGRAM CRATE..
# sets `room`; PROGRAM stands on these crates, of the repository or of the kit, and anyhow
top=$(cd "$(dirname "${BASH_SOURCE[0]}")/../.." && pwd)

workspace() {
    local program=$1 crate
    shift
    if [ -n "${BENCH_ROOM:-}" ]; then
        room=$BENCH_ROOM
    else
        room=$(mktemp -d)
        trap 'rm -rf "$room"' EXIT
    fi
    mkdir -p "$room/crates/$program/src"
    [ -d "$room/.git" ] || git init -q "$room"
    echo "$program: $* anyhow" > "$room/crates.txt"
    for crate in "$@"; do
        [ -d "$top/crates/$crate" ] || continue # one of the kit's
        mkdir -p "$room/crates/$crate"
        rm -rf "$room/crates/$crate"/{src,specs,proofs}
        cp -r "$top/crates/$crate"/{src,specs,proofs} "$room/crates/$crate/"
        grep "^$crate:" "$top/crates.txt" >> "$room/crates.txt"
    done
}
