#!/bin/sh
# Checks that docs/ARCHITECTURE.md has the crates of crates.txt and no others, that each file of src/ and specs/ begins
# with a comment on what it has, as that page says, that its lists and pictures of lemmas are what the files of proofs/
# use of each other, that no crate cites the proofs of another but for its `Shared`, and that each path that a page names
# is there.
#
# usage: modules.sh
# The last line is 'N passed, M failed'; the status is 0 where none failed.

top=$(cd "$(dirname "$0")/.." && pwd)
. "$top/tests/shared.sh"
folder=$(mktemp -d) || exit 1
trap 'rm -rf "$folder"' EXIT

cat > "$folder/modules.py" << 'PYTHON'
import glob
import os
import re
import sys

os.chdir(sys.argv[1])


def tell(is_so, what):
    print("good" if is_so else "bad", what)


page = open("docs/ARCHITECTURE.md", encoding="utf-8").read()
crates = page.split("\n## The crates\n")[1].split("\n## ")[0]
named = {it for row in re.findall(r"^\| ([\w, ]+) \|", crates, re.M) for it in row.split(", ")} - {"crate"}
lines = open("crates.txt", encoding="utf-8").read().splitlines()
listed = {it.split(":")[0].split()[0] for it in lines if it and not it.startswith("#")}
tell(named == listed, f"docs/ARCHITECTURE.md has the crates of crates.txt: {sorted(named ^ listed)}")
for path in sorted(glob.glob("crates/*/src/**/*.rt", recursive=True) + glob.glob("crates/*/specs/**/*.antt", recursive=True)):
    if not re.search(r"/specs/(Lib|\w*Inner)\.antt$", path) and not path.startswith("crates/tests/"):
        first = open(path, encoding="utf-8").readline()
        tell(first.startswith("//! " if path.endswith(".rt") else "-- "), f"{path} begins with a comment on what it has")
proofs = page.split("\n## How to read the proofs\n")[1].split("\n## ")[0]
for crate, picture, text in re.findall(r"^\*\*Lemmas of (\w+)\*\*\n\n```\n(.*?)```\n(.*?)(?=\n\*\*|\Z)", proofs, re.M | re.S):
    files = {os.path.splitext(os.path.basename(it))[0]: it for it in glob.glob(f"crates/{crate}/proofs/*.antt")}
    uses = {}
    for name in files.keys() - {"Lib", "Common", "Shared"}:
        used = re.findall(rf"^use Rattle\.{crate}\.proofs\.(\w+)", open(files[name], encoding="utf-8").read(), re.M)
        uses[name] = (files.keys() & set(used)) - {"Common"}
    told = re.findall(r"`([A-Z]\w*)`", text)
    tell(sorted(told) == sorted(uses), f"docs/ARCHITECTURE.md lists each file of lemmas of {crate} once, and no other")
    late = [it for n, it in enumerate(told) if uses.get(it, set()) - set(told[:n])]
    tell(not late, f"docs/ARCHITECTURE.md lists the lemmas of {crate} behind those that they use: {late}")
    for row in re.split(r";  |\n", picture.strip()):
        steps = [step.split(", ") for step in row.split(" -> ")]
        for before, after in zip(steps, steps[1:]):
            for one in before:
                for other in after:
                    tell(one in uses.get(other, ()), f"docs/ARCHITECTURE.md has an arrow from {one} to {other}, which uses it")
for crate in sorted(listed):
    here = {*glob.glob(f"crates/{crate}/*/**/*.antt", recursive=True), *glob.glob(f"crates/{crate}/src/**/*.rt", recursive=True)}
    texts = [open(it, encoding="utf-8").read() for it in here if "/out/" not in it]
    cited = {it for text in texts for it in re.findall(r"\bRattle\.(\w+)\.proofs\.(\w+)", text)}
    inner = sorted(".".join(it) for it in cited if it[0] in listed - {crate} and it[1] != "Shared")
    tell(not inner, f"{crate} cites no proofs of other crates but Shared: {inner}")
paths = {"/".join(it.split("/")[2:]) for it in glob.glob("crates/**", recursive=True)}
for page in ["README.md", "CONTRIBUTING.md", *sorted(glob.glob("docs/*.md"))]:
    for path in re.findall(r"`((?:src|specs|proofs|tests|bench|examples)/[\w/.]+)`", open(page, encoding="utf-8").read()):
        if not re.search(r"[A-Z]{4}", path):
            path = path.rstrip("/")
            tell(path in paths or os.path.exists(path), f"{page} names {path}, which is there")
PYTHON

python3 -B "$folder/modules.py" "$top" > "$folder/told" || holds 'the pages can be read' false
while read -r is_so what; do
    holds "$what" [ "$is_so" = good ]
done < "$folder/told"
counted
