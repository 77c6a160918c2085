#!/usr/bin/env bash
# Fails where README.md, a page of docs/ or tests/peers/README.md names a file, a folder or a crate that is not there, where
# docs/MAP.md lacks a crate, or where a line of crates.txt has a library that no file of its crate names. A file may be
# named by its whole path, under its crate, or, in a paragraph that names crates, under one of these. Fails too where the
# tables of docs/STATEMENT.md are not those of the definitions, where a crate of definitions has anything else
# (tests/statement.py), or where a CALLING.md does not quote the code as it is (tests/calling.py). The gate runs it.
# Usage: tests/map.sh
set -euo pipefail
cd "$(dirname "$0")/.."
. tests/packages.sh
command_of python3 python3
python3 tests/statement.py
python3 tests/calling.py
exec python3 - README.md docs/*.md tests/peers/README.md <<'PYTHON'
import glob, os, re, sys

crates = {path.split("/")[1] for path in glob.glob("crates/*/src")}
FILE = re.compile(r"(?:[\w.*-]+/)*[\w*-]+\.(?:rt|antt|sh|py|md|txt|edit)|(?:crates|docs|bench|tests)/[\w/]*")
missing = []

def is_there(name, page, near):
    """Whether a file has that name: from the top, beside the page, under its crate, or in one of the crates named near."""
    if any(os.path.exists(path) for path in (name, os.path.join(os.path.dirname(page), name), "crates/" + name)):
        return True
    folders = ["crates/" + crate for crate in near or crates] + ["tests", "bench", "docs"]
    return name.split("/")[0] not in crates and any(glob.glob("%s/**/%s" % (folder, name), recursive=True) for folder in folders)

for page in sys.argv[1:]:
    for paragraph in re.split(r"\n(?=\n|\||- |\d+\. |    )", open(page).read()):
        quoted = re.findall(r"`([^`]+)`", paragraph)
        near = {word.split("/")[0] for word in quoted} & crates
        named = [word for word in quoted if FILE.fullmatch(word) and "/out/" not in word] + re.findall(r"\]\(([^)#:]+)\)|\b((?:docs/)?[A-Z]+\.md)\b", paragraph)
        for name in [word if isinstance(word, str) else word[0] or word[1] for word in named]:
            if not is_there(name, page, near):
                missing.append("%s: no file %s" % (page, name))
page = open("docs/MAP.md").read()
listed = set(re.findall(r"^\| `(\w+)` \|", page, re.M))
missing += ["docs/MAP.md: no crate " + name for name in sorted(listed - crates)]
missing += ["docs/MAP.md lacks the crate " + name for name in sorted(crates - listed)]
for line in open("crates.txt"):
    words = re.match(r"(\w+)[^:#]*:(.*)", line)
    files = [path for path in glob.glob("crates/%s/**/*" % words[1], recursive=True) if path.endswith((".rt", ".antt")) and "/out/" not in path] if words else []
    text = "\n".join(row for path in files for row in open(path) if not row.lstrip().startswith(("//", "--")))
    for name in words[2].split() if words else []:
        if not re.search(r"Rattle\.%s\.|(?<![\w:])%s::|\buse %s\b" % (name, name, name), text):
            missing.append("crates.txt: no file of %s names %s" % (words[1], name))
heads = set(re.findall(r"\w+_\w+|\w+", " ".join(re.findall(r"^## (.*)", open("docs/PROOFS.md").read(), re.M))))
missing += ["docs/PROOFS.md: no crate " + name for name in sorted(heads - crates)]
print("\n".join(missing) or "each file and crate that is named is there")
sys.exit(1 if missing else 0)
PYTHON
