#!/usr/bin/env python3
"""Looks at the documents: whether what they name is there, and how long they are.

    bench/documents.py [TREE]

Each crate, file and link that a page names must be there, and each function that stands before its file must be defined in it.
The rows of docs/CRATES.md must be the crates of crates.txt, under its headings, and docs/ARCHITECTURE.md must count them. The
operator's list of docs/WORKING.md must be the files that name `BvNego` outside of cases and examples. bench/README.md must name
each file of bench/. Each fault is a line. Then comes a table: the words of each page, its longest paragraph, how many have more
than 100 words, and how many lines are wider than 110 columns, tables and code aside. The items of a list are one paragraph
where no empty line stands between. The status is 1 where there is a fault.
"""
import pathlib
import re
import subprocess
import sys

TREE = pathlib.Path(sys.argv[1] if len(sys.argv) > 1 else __file__).resolve()
TREE = TREE if TREE.is_dir() else TREE.parent.parent
MOST = 100
WIDTH = 110
DEFINED = r"\b(?:fn|struct|enum|trait|type|const|record|data|pub|abbrev|unfoldable) (?:pub )?{}\b"


def listed(*words):
    """The files that git lists or finds, new ones included."""
    done = subprocess.run(["git", *words], cwd=TREE, capture_output=True, text=True)
    return done.stdout.split()


def pages():
    return sorted(TREE.glob("docs/*.md")) + [TREE / "README.md", *sorted(TREE.glob("bench/*.md"))]


def without_code(text):
    return re.sub(r"^```.*?^```", "", text, flags=re.M | re.S)


def home_of(path, crate):
    """The file that a page names by this path, beside the crate of its line; a path without a crate may be of any."""
    for top in ("", "crates/", "docs/", "bench/", "bench/cases/", "bench/measure/", f"crates/{crate}/"):
        for named in (path, f"{path}.antt", re.sub(r"\.\w+$", ".antt", path)):
            if (TREE / top / named).exists():
                return TREE / top / named
    return next(TREE.glob(f"crates/*/{path}"), None)


def names_faults(page, files):
    """Crates, files and links that aren't there."""
    names = {file.rsplit("/", 1)[-1] for file in files}
    for line in without_code(page.read_text()).splitlines():
        crate = (re.findall(r"`(q(?:bv|v_\w+))`", line) or [""])[0]
        for name in re.findall(r"`([^`\s]+)`", line):
            is_crate = re.fullmatch(r"qv_[a-z0-9_]*[a-z0-9]", name)
            is_path = re.fullmatch(r"[\w.]+(/[\w.]+)+", name) and "." in name
            is_file = re.fullmatch(r"\w+\.(rt|antt|py|sh|md|c|cpp|sv)", name)
            if is_crate and not (TREE / "crates" / name).is_dir():
                yield name
            elif is_path and not home_of(name, crate) or is_file and name not in names:
                yield name
        for link in re.findall(r"\]\(([^)#\s]+)", line):
            if ":" not in link and not (page.parent / link).exists():
                yield link


def function_faults(page):
    """Functions that aren't defined in the file behind them."""
    text = without_code(page.read_text())
    for name, path in re.findall(r"`([\w:]+)`\s+\((?:the same )?`([\w./]+)`", text):
        file = home_of(path, "")
        if file and file.is_file() and not re.search(DEFINED.format(name.rsplit("::", 1)[-1]), file.read_text()):
            yield f"{name} ({path})"


def groups_of(text, heading, row):
    """What stands under each heading."""
    groups, group = {}, None
    for line in text.splitlines():
        if line.startswith(heading) and ":" not in line:
            group = groups.setdefault(line[len(heading):], [])
        elif group is not None and re.match(row, line):
            group.append(re.match(row, line)[1])
    return groups


def crate_faults():
    said = groups_of((TREE / "docs/CRATES.md").read_text(), "## ", r"\| `(q\w+)` \|")
    kept = groups_of((TREE / "crates.txt").read_text(), "# ", r"(q\w+):")
    for group in said.keys() | kept.keys():
        for crate in set(said.get(group, [])) ^ set(kept.get(group, [])):
            yield f"{crate} under {group}"


def count_faults():
    groups = groups_of((TREE / "crates.txt").read_text(), "# ", r"(q\w+):")
    count = f"{sum(map(len, groups.values()))} crates stand in {len(groups)} groups"
    if count not in (TREE / "docs/ARCHITECTURE.md").read_text():
        yield count


def operator_faults():
    text = (TREE / "docs/WORKING.md").read_text().split("**An operator.**")[-1].split("\n**")[0]
    said = {f"crates/{crate}/{file}" for crate, row in re.findall(r"^\| `(q\w+)` \|(.*)", text, re.M)
            for file in re.findall(r"`([\w./]+)`", row)}
    found = {file for file in listed("grep", "-l", "BvNego", "--", "crates")
             if not re.search(r"_cases/std|Examples?\.antt$", file)}
    yield from sorted(said ^ found)


def index_faults(files):
    text = (TREE / "bench/README.md").read_text()
    for file in files:
        inside = re.fullmatch(r"bench/(?:cases/|measure/)?([^/]+)", file)
        if inside and inside[1] != "README.md" and f"`{inside[1]}`" not in text:
            yield file


def prose(text):
    """The lines that are no table, heading or code; where such a line stands, an empty one."""
    text = re.sub(r"^ *```.*?^ *```", "", text, flags=re.M | re.S)
    return ["" if line.lstrip().startswith(("|", "#", "!")) else line for line in text.splitlines()]


def paragraphs(text):
    """What stands without an empty line between, so a list counts as one."""
    return [part for part in re.split(r"\n\s*\n", "\n".join(prose(text))) if part.strip()]


def main():
    files = listed("ls-files", "--cached", "--others", "--exclude-standard")
    faults = [("docs/CRATES.md", fault) for fault in crate_faults()]
    faults += [("docs/ARCHITECTURE.md", fault) for fault in count_faults()]
    faults += [("docs/WORKING.md", fault) for fault in operator_faults()]
    faults += [("bench/README.md", fault) for fault in index_faults(files)]
    rows = []
    for page in pages():
        name, text = str(page.relative_to(TREE)), page.read_text()
        faults += [(name, fault) for fault in [*names_faults(page, files), *function_faults(page)]]
        lengths = sorted(len(part.split()) for part in paragraphs(text))
        wide = sum(len(line) > WIDTH for line in prose(text))
        rows.append((name, len(text.split()), max(lengths, default=0), sum(length > MOST for length in lengths), wide))
    for name, fault in faults:
        print(f"{name}: {fault}")
    print("| page | words | longest | over 100 | wide lines |\n|---|---|---|---|---|")
    for row in rows:
        print("| {} | {:,} | {} | {} | {} |".format(*row))
    print(f"{len(faults)} faults")
    sys.exit(1 if faults else 0)


main()
