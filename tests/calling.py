#!/usr/bin/env python3
"""Compares each crates/*/CALLING.md with the code that it quotes: the caller, a file of crates/gateway_tests/src/calling/, and
the signature and clauses of each function that it lists. With --write it quotes them anew: a function is added by a line
`fn NAME`, or `fn TYPE::NAME` for a method, in the page's block of contracts. Prints what differs; the status is 1 where
something does. tests/map.sh runs it, from the top of the repository.
Usage: python3 tests/calling.py [--write]"""
import glob, os, re, sys

CALLERS = "crates/gateway_tests/src/calling/"
FUNCTION = re.compile(r"( *)pub fn (\w+)")
OWNER = re.compile(r"impl(?:<[^{]*?>)? (?:.* for )?(\w+)(?:<.*>)? \{$")


def squeezed(lines):
    """Returns the lines as one, with single spaces, and none that a formatter put inside of brackets."""
    text = re.sub(r"\s+", " ", " ".join(lines)).strip()
    return re.sub(r",? \)", ")", text.replace("( ", "("))


def functions_of(crate):
    """Returns the public functions of a crate: by `NAME` or `TYPE::NAME` the lines in which they are quoted."""
    found = {}
    for path in sorted(glob.glob("crates/%s/src/**/*.rt" % crate, recursive=True)):
        owner, lines = None, open(path, encoding="utf-8").read().split("\n")
        for at, line in enumerate(lines):
            if line.startswith("impl"):
                owner = OWNER.match(line) and OWNER.match(line)[1]
            elif line == "}":
                owner = None
            if function := FUNCTION.match(line):
                end = at
                while not re.match(r"%s(\{|.*\{\}?$)" % function[1], lines[end]) or lines[end].strip().startswith(("requires", "ensures")):
                    end += 1
                head = [lines[end].rstrip(" {}")] if end == at else []
                name = "%s::%s" % (owner, function[2]) if function[1] else function[2]
                found[name] = quoted(name, head or lines[at:end])
    return found


def quoted(name, lines):
    """Returns the lines in which a page has a function: its signature, and below it a line for each clause."""
    starts = [at for at, line in enumerate(lines) if re.match(r" *(requires|ensures)\b", line)] + [len(lines)]
    signature = squeezed(lines[: starts[0]]).replace("pub fn " + name.split("::")[-1], "fn " + name, 1)
    return [signature] + ["  " + squeezed(lines[start:end]) for start, end in zip(starts, starts[1:])]


def quote(page, text):
    """Returns the text of a page with what it quotes as the code has it."""
    known = functions_of(page.split("/")[1])
    head, caller, middle, contracts, rest = re.fullmatch(r"(.*?```rust\n)(.*?)(```\n.*?```text\n)(.*?)(```\n.*)", text, re.S).groups()
    name = re.search(r"`(\w+\.rt)`", head)[1]
    code = open(CALLERS + name, encoding="utf-8").read().split("\n\n", 1)[1]
    names = [re.match(r"fn ([\w:]+)", line)[1] for line in contracts.split("\n") if line.startswith("fn ")]
    lacking = [it for it in names if it not in known]
    if lacking:
        sys.exit("%s: no public function %s" % (page, ", ".join(lacking)))
    return head + code + middle + "".join(line + "\n" for it in names for line in known[it]) + rest


pages, differing = sorted(glob.glob("crates/*/CALLING.md")), []
for page in pages:
    with open(page, encoding="utf-8") as it:
        text = it.read()
    made = quote(page, text)
    if made != text and "--write" in sys.argv:
        with open(page, "w", encoding="utf-8") as it:
            it.write(made)
    elif made != text:
        differing.append("%s: not as the code is: python3 tests/calling.py --write" % page)
print("\n".join(differing) or "%d CALLING.md quote the code" % len(pages))
sys.exit(1 if differing or not pages else 0)
