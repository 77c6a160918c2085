"""Compares include/avrogate.h with what it declares: the exports of crates/avrogate_c (names, parameters, results),
the structs that cross, the numbers of the definitions and of the bindings, the limits and the versions. Prints what
differs, and writes to a file C code that compiles only where sizes and offsets are those of `#[repr(C)]`.
Usage: header.py TOP OUT.c"""
import re
import sys
from os.path import join

TOP, OUT = sys.argv[1:3]
STRUCTS = {"Handle": "avrogate_transcoder", "ReportNumbers": "avrogate_report", "BatchItem": "avrogate_item"}
WIDTHS = {"u32": 4, "usize": 8, "bool": 1, "*mut u8": 8}
C_TYPES = {"u32": "uint32_t", "usize": "size_t", "bool": "bool", "*mut u8": "void *"}
wrong = []


def text(*path):
    with open(join(TOP, *path), encoding="utf-8") as file:
        return file.read()


def same(what, told, wanted):
    if told != wanted:
        wrong.append("%s:\n  header %s\n  source %s" % (what, told, wanted))


header = re.sub(r"/\*.*?\*/", "", text("include", "avrogate.h"), flags=re.S)
exports = text("crates", "avrogate_c", "src", "lib.rt")


def snake(name):
    """`NotUtf8` as NOT_UTF8."""
    return re.sub(r"(?<=[a-z])(?=[A-Z])", "_", name).upper()


def enum(name):
    body = re.search(r"typedef enum avrogate_%s \{(.*?)\} avrogate_%s;" % (name, name), header, re.S)[1]
    return {it: int(number) for it, number in re.findall(r"AVROGATE_(\w+) = (\d+)", body)}


def numbers(definition, *path):
    """The cases of a definition by their numbers."""
    found = re.findall(r"(?m)^%s \(?\w+\.(\w+)[^=\n]*= (\d+)$" % definition, text("crates", *path))
    assert found, definition
    return {snake(name): int(number) for name, number in found}


def in_c(name, kind):
    """What a parameter of an export is in C."""
    if kind == "Global":
        return []
    if kind == "&[u8]":
        return [name, name + "_length"]
    if kind in ("&mut [u8]", "&mut [BatchItem]"):
        return [name, {"items": "item_count"}.get(name, name + "_length")]
    return [name]


def types_in_c(kind):
    """The types that a parameter has in C, any of which may stand in the header."""
    return {
        "Global": [],
        "&[u8]": ["const (char|uint8_t) \\*", "size_t "],
        "&mut [u8]": ["(char|uint8_t) \\*", "size_t "],
        "&mut [BatchItem]": ["avrogate_item \\*", "size_t "],
        "&mut Handle": ["avrogate_transcoder \\*"],
        "&mut ReportNumbers": ["avrogate_report \\*"],
        "&mut u32": ["uint32_t \\*"],
        "u32": ["uint32_t "],
    }[kind]


def compare_functions():
    source = re.findall(r'extern "C" fn (\w+)\((.*?)\)(?: -> (\w+))?\s+ensures', exports, re.S)
    found = re.findall(r"(?m)^(void|uint32_t|size_t) (avrogate_\w+)\(([^)]*)\);", header)
    declared = {name: (result, words) for result, name, words in found}
    same("functions", sorted(declared), sorted(name for name, _, _ in source))
    for name, words, result in source:
        words = re.findall(r"(\w+): ([^,]+?)(?:,|\s*$)", words.strip())
        types = [it for _, kind in words for it in types_in_c(kind)]
        names = [it for word, kind in words for it in in_c(word, kind)]
        told_result, told = declared.get(name, ("", ""))
        told = [it.strip() for it in re.sub(r"\s+", " ", told).split(",")] if told.strip() != "void" else []
        pattern = [kind + re.escape(word) for kind, word in zip(types, names)]
        is_same = len(told) == len(pattern) and all(map(re.fullmatch, pattern, told))
        if not is_same or told_result != {"": "void", "u32": "uint32_t", "usize": "size_t"}[result]:
            both = (name, told_result, ", ".join(told), ", ".join(pattern), result)
            wrong.append("%s: header %s(%s), source %s -> %s" % both)


def fields_of(name):
    """The fields of a struct that crosses, as C sees them."""
    struct = r"#\[repr\(C\)\]\n(?:#\[.*\]\n)*pub struct %s \{(.*?)\n\}" % name
    for crate, file in (("transcoder_handle", "handle.rt"), ("embedding", "numbers.rt"), ("embedding", "batch.rt")):
        body = re.search(struct, text("crates", crate, "src", file), re.S)
        if body:
            plain = re.sub(r"(?m)^ *(///.*|(pub )?ghost .*)$", "", body[1])
            found = re.findall(r"(?m)^    (?:pub )?(?!ghost)(\w+): ([^,{]+),", plain)
            # (a handle's `held` is a struct of one pointer)
            return [(field, "*mut u8" if kind == "Held" else kind) for field, kind in found]
    raise AssertionError("no struct " + name)


def layout(name):
    """The offsets of a struct's fields, its size and its alignment."""
    at, most, offsets = 0, 1, []
    for field, kind in fields_of(name):
        size, align = (WIDTHS[kind],) * 2 if kind in WIDTHS else layout(kind)[1:]
        at = -(-at // align) * align
        offsets.append((field, at))
        at, most = at + size, max(most, align)
    return offsets, -(-at // most) * most, most


def compare_structs():
    checks = []
    for name, in_header in STRUCTS.items():
        body = re.search(r"typedef struct %s \{(.*?)\} %s;" % (in_header, in_header), header, re.S)[1]
        told = [it.strip() for it in body.split(";") if it.strip()]
        kinds = [(field, C_TYPES.get(kind) or STRUCTS[kind]) for field, kind in fields_of(name)]
        same(in_header, told, [kind + ("" if kind.endswith("*") else " ") + field for field, kind in kinds])
        offsets, size, _ = layout(name)
        checks += ["sizeof(%s) == %d" % (in_header, size)]
        checks += ["offsetof(%s, %s) == %d" % (in_header, field, at) for field, at in offsets]
    with open(OUT, "w", encoding="utf-8") as out:
        out.write("#include <avrogate.h>\n")
        out.writelines("typedef char check_%d[(%s) ? 1 : -1];\n" % it for it in enumerate(checks))
        out.write("int main(void) { return 0; }\n")


def compare_numbers():
    status = numbers("code_of", "embedding", "specs", "Status.antt")
    same("statuses", enum("status"), {"OK" if it == "DONE" else it: number for it, number in status.items()})
    same("mismatches", enum("mismatch"), numbers("code_of", "spec_avro", "specs", "MismatchKind.antt"))
    same("malformed", enum("malformed"), numbers("malformed_code", "embedding", "specs", "Numbers.antt"))
    same("envelopes", enum("envelope"), numbers("envelope_code", "embedding", "specs", "Numbers.antt"))
    opening = ("embedding", "specs", "Opening.antt")
    faults = {**numbers("schema_code", *opening), **numbers("fault_code", *opening)}
    # (want of memory is a status, and no fault of a text: `IsFirstFault`)
    same("faults", enum("fault"), {"SCHEMA_" + it: number for it, number in faults.items() if it != "NO_MEMORY"})


def compare_bindings():
    python = text("bindings", "python", "avrogate", "_library.py")
    words = {"Status": "status", "MismatchKind": "mismatch", "MalformedKind": "malformed", "Fault": "fault"}
    for name, word in words.items():
        body = re.search(r"class %s\(IntEnum\):(.*?)\n\n\n" % name, python, re.S)[1]
        told = re.findall(r"(?m)^    (\w+) = (\d+)$", body)
        same("python's " + name, enum(word), {it: int(number) for it, number in told})
    rust = text("bindings", "rust", "src", "error.rs")
    short = {it.replace("SCHEMA_", ""): number for it, number in enum("fault").items()}
    kinds = (enum("mismatch"), enum("malformed"), enum("envelope"), short)
    for name, wanted in zip(("MismatchKind", "MalformedKind", "EnvelopeError", "Fault"), kinds):
        body = re.search(r"    %s \{(.*?)\}" % name, rust, re.S)[1]
        same("rust's " + name, wanted, {snake(it): int(number) for it, number in re.findall(r"(\w+) = (\d+)", body)})
    java = text("bindings", "java", "src", "main", "java", "avrogate", "AvrogateException.java")
    for name, wanted in zip(("MISMATCHES", "MALFORMED", "ENVELOPES", "FAULTS"), kinds):
        words = re.findall(r'"(\w*)"', re.search(r"%s = \{(.*?)\};" % name, java, re.S)[1])
        same("java's " + name, wanted, {snake(it): at for at, it in enumerate(words) if it})
    java = text("bindings", "java", "src", "main", "java", "avrogate", "Status.java")
    statuses = re.search(r"enum Status \{\s*(.*?);", java, re.S)[1]
    same("java's Status", enum("status"), {it: at for at, it in enumerate(re.findall(r"\w+", statuses))})
    go = text("bindings", "go", "avrogate.go")
    told = set(re.findall(r"C\.AVROGATE_(\w+)", go))
    same("go's numbers", set().union(*map(enum, ("status", "mismatch", "malformed", "fault"))), told)


def compare_constants():
    for name, path, const in (
        ("MOST_TEXT", ("spec_avro", "src", "limits.rt"), "MOST_TEXT"),
        ("MOST_PAYLOAD", ("spec_avro", "src", "limits.rt"), "MOST_PAYLOAD"),
        ("MOST_OUTPUT", ("spec_avro", "src", "limits.rt"), "MOST_OUTPUT"),
        ("ENVELOPE_LENGTH", ("spec_registry", "src", "envelope.rt"), "PREFIX_LENGTH"),
    ):
        wanted = re.search(r"const %s: usize = ([\d_]+);" % const, text("crates", *path))[1].replace("_", "")
        same(name, re.search(r"#define AVROGATE_%s (\d+)" % name, header)[1], wanted)
    parts = ("MAJOR", "MINOR", "PATCH")
    version = [int(re.search(r"#define AVROGATE_VERSION_%s (\d+)" % it, header)[1]) for it in parts]
    number = re.search(r"VERSION: u32 = ([\d_]+);", text("crates", "embedding", "src", "texts.rt"))[1]
    same("version", version[0] * 10000 + version[1] * 100 + version[2], int(number.replace("_", "")))
    of_program = re.search(r'VERSION: &str = "(.*)"', text("crates", "command_line", "src", "lib.rt"))[1]
    for name, told in (
        ("the program", of_program),
        ("python", re.search(r'(?m)^version = "(.*)"', text("bindings", "python", "pyproject.toml"))[1]),
        ("rust", re.search(r'(?m)^version = "(.*)"', text("bindings", "rust", "Cargo.toml"))[1]),
    ):
        same("version of " + name, ".".join(map(str, version)), told)


compare_functions()
compare_structs()
compare_numbers()
compare_bindings()
compare_constants()
print("\n".join(wrong) or "the header says what is there")
sys.exit(1 if wrong else 0)
