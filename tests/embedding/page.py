"""Runs what docs/EMBEDDING.md shows: writes each fenced block that stands under the name of a file to that file, runs
the commands of each block that begins with `$`, and compares what they print. /tmp/avrogate of the page is the folder
that is given, and the commands run in a folder with the page's files, where tools/ and bindings/ are those of the
repository.
Usage: page.py TOP FOLDER WORK"""
import os
import re
import subprocess
import sys

TOP, FOLDER, WORK = map(os.path.abspath, sys.argv[1:4])
page = open(os.path.join(TOP, "docs", "EMBEDDING.md"), encoding="utf-8").read()
for name in ("tools", "bindings"):
    os.symlink(os.path.join(TOP, name), os.path.join(WORK, name))

# one shell for all, so that what one block exports stands in the next
script, wanted, files = ["exec 2>&1"], [], 0
for found in re.finditer(r"^```\w*\n(.*?)^```\n", page, re.S | re.M):
    block, named = found[1], re.search(r"\*\*([\w.]+)\*\*:\n\n$", page[: found.start()])
    if named:
        files += 1
        with open(os.path.join(WORK, named[1]), "w", encoding="utf-8") as out:
            out.write(block)
    elif block.startswith("$ "):
        for command in re.split(r"(?m)^\$ ", block)[1:]:
            line, _, output = command.partition("\n")
            script += [line, "echo '== end'"]
            wanted.append((line, output))
text = "\n".join(script).replace("/tmp/avrogate", FOLDER) + "\n"
ran = subprocess.run(["bash"], input=text, stdout=subprocess.PIPE, cwd=WORK, text=True)
told = ran.stdout.replace(FOLDER, "/tmp/avrogate").split("== end\n")
wrong = [(line, output, it) for (line, output), it in zip(wanted, told) if output != it]
for line, output, it in wrong:
    print("$ %s\n  printed %r\n  wanted  %r" % (line, it, output))
print("%d files and %d commands of the page" % (files, len(wanted)))
sys.exit(1 if wrong or len(told) != len(wanted) + 1 or len(wanted) < 10 or files < 8 else 0)
