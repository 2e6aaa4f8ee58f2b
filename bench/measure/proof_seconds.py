#!/usr/bin/env python3
"""Where the seconds of a crate's proof go, function by function.

    bench/measure/proof_seconds.py CRATE [ROWS]

Proves the crate once more, from nothing and with one job, over the libraries that `rt check` left in out/, and looks at
when the prover wrote the file of each module that it had checked. Prints the processor seconds of the whole, and for each
function its share by the clock: in all, and by the prover's parts, of which `Lts` is the steps of the body over what it
owns and `Proof` the search for the goals. Run it on a quiet machine.
"""
import collections, os, re, resource, subprocess, sys, tempfile

from crates import KIT, TOP, crates

PARTS = set("Kinds Lts Tie Layout Reads Proof Code Mir Named TheLink Symbol Met Statement Given Goals Key View "
            "TheLaws TheReach Answers Invariants TheVariants decls".split())


def rlib(name):
    own = f"{TOP}/crates/{name}/out/rlib/{name}.rlib"
    return own if os.path.exists(own) else f"{KIT}/rlibs/{name}.rlib"


def command(name, kept):
    below, all_below = crates(), []
    waiting = list(below[name])
    while waiting:
        at = waiting.pop()
        if at not in all_below:
            all_below.append(at)
            waiting += below.get(at, [])
    root = "src/main.rt" if os.path.exists(f"{TOP}/crates/{name}/src/main.rt") else "src/lib.rt"
    words = [f"{KIT}/bin/rattle", "check", "--crate-name", name, root,
             "--extern", f"std={KIT}/rlibs/std.rlib", "-L", f"dependency={KIT}/rlibs"]
    for at in below[name]:
        words += ["--extern", f"{at}={rlib(at)}"]
    for at in all_below:
        words += ["-L", "dependency=" + os.path.dirname(rlib(at))]
    return words + ["--antt-project", f"{KIT}/rattle/logic/antt-project.json", "--logic-built", f"{KIT}/logic_built",
                    "--links", f"{name}=", "--jobs", "1", "--incremental", kept]


def written(kept):
    times = []
    for folder, _, files in os.walk(kept):
        if "records" not in folder:
            for file in files:
                if file.endswith(".oantt"):
                    times.append((os.stat(os.path.join(folder, file)).st_mtime, file[:-6]))
    return sorted(times)


def main():
    name, rows = sys.argv[1], int(sys.argv[2]) if len(sys.argv) > 2 else 25
    with tempfile.TemporaryDirectory() as kept:
        run = subprocess.run(command(name, kept), cwd=f"{TOP}/crates/{name}", capture_output=True, text=True)
        times = written(kept)
    print(run.stdout.strip().split("\n")[-1])
    used = resource.getrusage(resource.RUSAGE_CHILDREN)
    print(f"{used.ru_utime + used.ru_stime:.0f} processor seconds, {times[-1][0] - times[0][0]:.0f} by the clock")
    sums = collections.defaultdict(collections.Counter)
    for (before, _), (after, module) in zip(times, times[1:]):
        words = module.replace(f"Rattle-{name}-", "").split(".")
        function = ".".join(word for word in words if word not in PARTS)
        part = ".".join(word for word in words if word in PARTS) or "-"
        sums[re.sub(r"^(proofs|specs.contracts|specs.declared)\.", "", function)][part] += after - before
    for function, parts in sorted(sums.items(), key=lambda it: -sum(it[1].values()))[:rows]:
        most = ", ".join(f"{part} {seconds:.1f}" for part, seconds in parts.most_common(3))
        print(f"{sum(parts.values()):7.1f}  {function}  ({most})")
    sys.exit(run.returncode)


main()
