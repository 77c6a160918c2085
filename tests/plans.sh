#!/usr/bin/env bash
# How often the plans of a program read a payload: once, whether they find the output or the rows are taken then, and once
# more where a block is unusual. Counted by valgrind's callgrind, as calls from elsewhere into the code that reads what a
# nest of a plan holds, of payloads that are one such nest: records that a reader reorders, a tree and a list. And that no
# row is taken of messages that are usual: counted as calls of the code that takes the rows of a slice. The gate runs it. It installs Debian's valgrind where that is missing.
# Usage: tests/plans.sh [PROGRAM]   (crates/avrogate/out/avrogate if it is left out)
set -uo pipefail
here=$(dirname "$(realpath "$0")")
. "$here/packages.sh"
command_of valgrind valgrind
program=$(realpath "${1:-$here/../crates/avrogate/out/avrogate}")
PYTHONDONTWRITEBYTECODE=1 exec python3 - "$program" <<'PYTHON'
import json, re, subprocess, sys, tempfile

program, passed, failed = sys.argv[1], 0, 0


def items(*fields):
    record = {"type": "record", "name": "R", "fields": [{"name": name, "type": kind} for name, kind in fields]}
    return json.dumps({"type": "array", "items": record})


writer = items(("a", "string"), ("b", ["null", "string"]))
reader = items(("b", ["null", "string"]), ("a", "string"))
whole = "06" "0278" "020279" "027a" "00" "0277" "00" "00"
itself = lambda *fields: json.dumps({"type": "record", "name": "R", "fields": [{"name": name, "type": kind} for name, kind in fields]})
tree = itself(("v", "long"), ("left", ["null", "R"]), ("right", ["null", "R"]))
linked = itself(("v", "long"), ("s", "string"), ("next", ["null", "R"]))
turned = itself(("s", "string"), ("v", "long"), ("next", ["null", "R"]))
either = lambda kind: json.dumps({"type": "array", "items": [json.loads(itself(("a", "long"), ("b", kind))), "long"]})
LONGS = '{"type":"array","items":"long"}'
sized = "03" "10" "0278" "020279" "027a" "00" "02" "0277" "00" "00"
# what is read, the writer's and the reader's schema, the payloads, and how often each is read where that is not once
CASES = [("a payload whose output the plan finds", writer, reader, [whole]), ("one with a byte left over", writer, reader, [whole + "00"]),
         ("one that is cut", writer, reader, [whole[:-2]]), ("three, of which the second is cut", writer, reader, [whole, whole[:-2], whole]),
         ("a tree of 1,000 levels", tree, tree, ["0202" * 999 + "0200" + "00" * 1000]), ("a tree that is cut", tree, tree, ["020200"]),
         ("a list of 100 records, turned", linked, turned, ["02026102" * 99 + "02026100"]),
         ("a list that is cut", linked, turned, ["02026102"]),
         ("a branch beside one that mismatches", either("string"), either("int"), ["04" "0206" "0208" "00"]),
         ("the branch that mismatches", either("string"), either("int"), ["04" "0206" "00080261" "00"]),
         ("a block with its size, and one without", writer, reader, [sized], 2), ("a size that is wrong", writer, reader, [sized.replace("0310", "0312")], 2),
         ("blocks of longs with a size", json.dumps({"type": "array", "items": json.loads(LONGS)}), json.dumps({"type": "array", "items": json.loads(LONGS)}), ["02" "0304020400" "00"], 2)]


def position(number):
    """A position, as Avro spells it, in hexadecimal."""
    number, spelled = 2 * number, ""
    while number >= 128:
        number, spelled = number // 128, spelled + f"{number % 128 + 128:02x}"
    return spelled + f"{number:02x}"


enum = lambda symbols: json.dumps({"type": "enum", "name": "E", "symbols": symbols})
SYMBOLS = [f"s{number}" for number in range(4096)]
EMPTY = {"type": "fixed", "name": "F", "size": 0}
PLACES = [0, 63, 64, 127, 128, 4031, 4032, 4095]
# what is rewritten, the writer's and the reader's schema, the payloads, what each becomes, and how many go by rows
FOUND = [("symbols that move", enum(SYMBOLS), enum(SYMBOLS[::-1]), [position(place) for place in PLACES],
          [position(4095 - place) for place in PLACES], 0),
         ("a fixed without bytes", itself(("f", EMPTY), ("a", "long"), ("s", "string")), itself(("s", "string"), ("f", EMPTY), ("a", "long")),
          ["060278"], ["027806"], 0),
         ("one that is skipped", itself(("f", EMPTY), ("a", "long"), ("s", "string")), itself(("s", "string"), ("a", "long")), ["060278"], ["027806"], 0),
         ("records in blocks with sizes", writer, reader, [sized], ["06" "0202790278" "00027a" "000277" "00"], 0),
         ("a tree", tree, tree, ["020202000000"], ["020202000000"], 0),
         ("a symbol that the reader lacks", enum(SYMBOLS[:2]), enum(SYMBOLS[:1]), ["02"], [None], 1)]


def entries(writer, reader, payloads, folder):
    """Returns how often the code of nests was called from elsewhere, what the program wrote, and how often rows were
    taken."""
    text = "\n".join([writer, reader, *payloads]) + "\n"
    out = f"{folder}/calls"
    words = ["valgrind", "--tool=callgrind", f"--callgrind-out-file={out}", program, "transcode"]
    ran = subprocess.run(words, input=text, stdout=subprocess.PIPE, stderr=subprocess.PIPE, text=True, timeout=600)
    names, caller, callee, count, rows = {}, "", "", 0, 0
    for line in open(out, encoding="utf-8", errors="replace"):
        found = re.match(r"(c?fn)=\((\d+)\)(?: (.*))?$", line.rstrip("\n"))
        if found:
            name = names.setdefault(found[2], found[3])
            if found[1] == "fn":
                caller = name
            else:
                callee = name
        elif line.startswith("calls=") and is_nest(callee) and not is_nest(caller):
            count += int(line[6:].split()[0])
        if line.startswith("calls=") and (callee or "").endswith("Machine::slice_rows"):
            rows += int(line[6:].split()[0])
    return count, ran.stdout.split("\n")[:-1], rows


def is_nest(name):
    return bool(re.search(r"machine_plan::(?:\w+::)?(reader|reading|skimming)::", name or ""))


with tempfile.TemporaryDirectory() as folder:
    for what, writer, reader, payloads, *times in CASES:
        count, answers, _ = entries(writer, reader, payloads, folder)
        wanted = len(payloads) * (times[0] if times else 1)
        if count == wanted and len(payloads) == len(answers):
            passed += 1
        else:
            failed += 1
            print(f"{what}: {count} readings by plans and {len(answers)} answers, wanted {wanted} and {len(payloads)}")
    for what, writer, reader, payloads, becomes, by_rows in FOUND:
        _, answers, rows = entries(writer, reader, payloads, folder)
        wanted = [f"done {output}" if output else None for output in becomes]
        if rows == by_rows and len(answers) == len(wanted) and all(a == w for a, w in zip(answers, wanted) if w):
            passed += 1
        else:
            failed += 1
            print(f"{what}: {rows} by rows, wanted {by_rows}; {answers}")
print(f"{passed} passed, {failed} failed")
sys.exit(failed > 0)
PYTHON
