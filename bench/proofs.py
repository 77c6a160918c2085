#!/usr/bin/env python3
"""What the proof of each function of a crate costs: bench/proofs.py CRATE [--test] [LINES]

Run it at the top of the repository, after `rt lib` in the crate's folder or `rt ci` has built the libraries below. It
proves the crate (with --test its tests) once more from nothing, in one process, and keeps what is proved in a folder of
its own; when each part came to stand there tells how long it took, by the clock, so nothing else should run beside it.
It prints the parts of all proofs by their kind, the most first (`Lts` is what the code does to what it holds: it grows
with the types of values and with the ways out of a function), and then the functions and lemma files that took longest.
Not part of the gate.
"""
import collections, glob, os, re, subprocess, sys, tempfile, time

crate, tests = sys.argv[1], "--test" in sys.argv
lines = next((int(word) for word in sys.argv[2:] if word.isdigit()), 30)
kit = os.path.dirname(subprocess.run(["rt", "doc"], capture_output=True, text=True, check=True).stdout.strip())
root = os.getcwd()
uses = {}
for line in open("crates.txt"):
    words = line.split("#")[0].split(":")
    if len(words) == 2:
        uses[words[0].split()[0]] = words[1].split()
built = lambda name: f"{root}/crates/{name}/out/rlib" if name in uses else f"{kit}/rlibs"
flags = ["--extern", f"std={kit}/rlibs/std.rlib"]
for name in uses[crate]:
    flags += ["--extern", f"{name}={built(name)}/{name}.rlib"]
for folder in [*sorted(glob.glob(f"{root}/crates/*/out/rlib")), f"{kit}/rlibs"]:
    flags += ["-L", f"dependency={folder}"]
flags += ["--antt-project", f"{kit}/rattle/logic/antt-project.json", "--logic-built", f"{kit}/logic_built", "--jobs", "1"]
top = next(it for it in ("src/lib.rt", "src/main.rt") if os.path.exists(f"crates/{crate}/{it}"))
with tempfile.TemporaryDirectory() as kept:
    check = [f"{kit}/bin/rattle", "check", *(["--test"] if tests else []), "--crate-name", crate, top]
    begin = time.time()
    both = {"stdout": subprocess.PIPE, "stderr": subprocess.STDOUT, "text": True}
    ran = subprocess.run([*check, *flags, "--incremental", kept], cwd=f"crates/{crate}", **both)
    found = [f"{at}/{name}" for at, _, names in os.walk(kept) for name in names if name.endswith(".oantt")]
    stamps = sorted((os.stat(path).st_mtime, os.path.basename(path)) for path in found)
print(ran.stdout.rstrip().rsplit("\n", 1)[-1])
kinds, parts, last = collections.Counter(), collections.Counter(), begin
for stamp, name in stamps:
    took, last = stamp - last, stamp
    part = re.sub(r"(\.decls)?\.oantt$", "", name).replace(f"Rattle-{crate}-", "")
    owner, _, kind = part.rpartition(".")
    is_of_function = part.startswith("proofs.") and kind[:1].isupper() and owner.count(".") > 0
    kinds[kind.split("-")[0] if is_of_function else part.split(".")[0]] += took
    parts[owner if is_of_function else part] += took
print("  ".join(f"{kind} {took:.1f}" for kind, took in kinds.most_common(10)))
for part, took in parts.most_common(lines):
    print(f"{took:7.1f} {part}")
sys.exit(ran.returncode)
