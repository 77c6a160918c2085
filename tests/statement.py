#!/usr/bin/env python3
"""Compares the tables of docs/STATEMENT.md with the definitions in crates/*/specs, or writes the tables anew.

A table follows a line `<!-- CRATE.specs.FILE.NAME .. -->`. It has a row for each file with a definition that these names
rest on, unless a table before it has that definition: the file, what its first comment says, and the definitions. Each
file comes before those that it rests on. What std, the toolchain's crates and Rust declare is not listed.

Fails too where a crate `spec_..` imports a crate of this repository of another kind, has a proof, a loop or a branch
other than a match, or where a definition that has a table rests on a definition of a crate of another kind.
Usage: tests/statement.py [--write]
"""
import glob, os, re, sys

PAGE = "docs/STATEMENT.md"
MARK = re.compile(r"^<!-- ((?:\w+\.specs\.[\w.]+ ?)+) -->$")
USE = re.compile(r"^(pub )?use Rattle\.([^\s{]+?)(?:\.\{(.*)\}| as (\S+))?$")
SIGNATURE = re.compile(r"^( *)(?:abbrev |unfoldable )*(?:pub )?(\S+) : ")
TYPE = re.compile(r"^( *)(?:pub )?(data|record) (\S+)")
OPENS = re.compile(r"^ *(?:(?:abbrev |unfoldable )?mutual$|module _ )")
WORD = re.compile(r"[^\s(){}\[\],;.:]+")


def is_comment(line):
    return line.lstrip().startswith("--")


def words_of(lines):
    code = " ".join(line.split(" -- ")[0] for line in lines if not is_comment(line))
    found = set(WORD.findall(code)) | ({"[]"} if "[]" in code else set())
    # what a `do` block binds is handed on by this operator
    return found | ({">>="} if "←" in found else set())


def is_among(name, words):
    """Whether a name is among the words; of an operator, whether all its parts are."""
    return all(part in words for part in name.split("◌") if part) if "◌" in name else name in words


class Paragraph:
    """Lines of a file up to an empty one after which no block goes on: comments, and the names that they define."""

    def __init__(self, lines):
        self.text, self.words = "\n".join(lines), words_of(lines)
        # the names of what is defined, and with them those of the constructors
        self.heads, self.names = [], []
        levels, inside = {0}, None
        for line in (line for line in lines if line.strip() and not is_comment(line)):
            indent = len(line) - len(line.lstrip())
            if inside and indent <= inside[1]:
                inside = None
            type_of, signature = TYPE.match(line), SIGNATURE.match(line)
            if OPENS.match(line):
                levels.add(indent + 2)
            elif type_of and indent in levels:
                inside = (type_of[2], indent, None)
                self.define(type_of[3])
            elif inside and signature and inside[0] == "data" and inside[2] in (None, indent):
                inside = (*inside[:2], indent)
                self.names.append(signature[2])
            elif signature and not inside and indent in levels:
                self.define(signature[2])

    def define(self, name):
        if name not in self.heads:
            self.heads.append(name)
        self.names.append(name)


class SpecFile:
    def __init__(self, path):
        self.path = path
        lines = open(path).read().rstrip("\n").split("\n")
        at = next((n for n, line in enumerate(lines) if not is_comment(line)), len(lines))
        self.says = " ".join(line[3:] for line in lines[:at]).strip()
        # what a name or the name of a module stands for here: (module, name), or a module
        self.names, self.modules, self.handed, self.uses = {}, {}, {}, []
        parts = [[]]
        for line in lines[at:]:
            if self.takes_use(line):
                continue
            if line:
                parts[-1].append(line)
            elif parts[-1]:
                parts.append([])
        self.paragraphs = [Paragraph(part) for part in self.joined(parts)]
        self.defined = {name: paragraph for paragraph in self.paragraphs for name in paragraph.names}

    @staticmethod
    def joined(parts):
        """The paragraphs, of which those that begin within a block are joined to the one before."""
        whole = []
        for part in filter(None, parts):
            if whole and part[0].startswith(" "):
                whole[-1] += part
            else:
                whole.append(part)
        return whole

    def takes_use(self, line):
        """Notes what a `use` line brings in. Returns whether the line is one."""
        found = USE.match(line)
        if not found:
            return False
        public, module, names, alias = found.groups()
        self.uses.append(module)
        if names is None:
            self.modules[alias or module.split(".")[-1]] = module
            return True
        for part in names.split(","):
            name, _, other = part.strip().partition(" as ")
            self.names[other or name] = (module, name)
            if public:
                self.handed[name] = module
        return True


def read_files():
    files = {}
    for path in glob.glob("crates/*/specs/**/*.antt", recursive=True):
        parts = path[: -len(".antt")].split("/")
        files[".".join(parts[1:])] = SpecFile(path)
    return files


def needs_of(file, paragraph, files):
    """The definitions that a paragraph names, as (module, name)."""
    for word, (module, name) in file.names.items():
        if is_among(word, paragraph.words):
            yield module, name
            if f"{module}.{name}" in files:
                yield from ((f"{module}.{name}", part) for part in parts_after(name, paragraph.text))
    for word, module in file.modules.items():
        yield from ((module, part) for part in parts_after(word, paragraph.text))
    for name, other in file.defined.items():
        if other is not paragraph and is_among(name, paragraph.words):
            yield file, name


def parts_after(word, text):
    return set(re.findall(r"(?<![\w.])%s\.([^\s(){}\[\],;.]+)" % re.escape(word), text))


def reach(files, module, name, taken, found):
    """Adds to `found` each paragraph that a definition rests on and `taken` has not, by its module."""
    while module in files and name in files[module].handed:
        module = files[module].handed[name]
    file = files.get(module)
    paragraph = file.defined.get(name) if file else None
    if paragraph is None or id(paragraph) in taken:
        return
    taken.add(id(paragraph))
    found.setdefault(module, set()).add(id(paragraph))
    for other, part in sorted(needs_of(file, paragraph, files), key=str):
        reach(files, module if other is file else other, part, taken, found)


def in_order(files, modules, roots):
    """The modules, those of the roots first, each before those that it uses."""
    order, seen = [], set()

    def visit(module):
        if module in seen or module not in modules:
            return
        seen.add(module)
        for used in files[module].uses:
            visit(used)
        order.append(module)

    for module in [root.rsplit(".", 1)[0] for root in roots] + sorted(modules):
        visit(module)
    return reversed(order)


def table_of(files, roots, taken):
    found = {}
    for root in roots:
        module, name = root.rsplit(".", 1)
        if module not in files or name not in files[module].defined:
            sys.exit(f"{PAGE}: no definition {root}")
        reach(files, module, name, taken, found)
    rows = ["| File | What it says | Definitions |", "|---|---|---|"]
    for module in in_order(files, found, roots):
        file = files[module]
        heads = [head for part in file.paragraphs if id(part) in found[module] for head in part.heads]
        shown = f"{module.split('.')[0]} {module.split('.specs.')[1]}"
        rows.append(f"| [{shown}](../{file.path}) | {file.says} | {' '.join(f'`{head}`' for head in heads)} |")
    return rows


def faults_of_spec_crates(files, lines):
    """What crates of definitions alone may not have, as lines of text."""
    for path in sorted(glob.glob("crates/spec_*/**/*", recursive=True)):
        if "/out/" in path or not path.endswith((".antt", ".rt")):
            continue
        text = open(path).read()
        if "/proofs/" in path and text.strip():
            yield f"{path}: a proof"
        for line in (line for line in text.split("\n") if not line.lstrip().startswith(("--", "//"))):
            for name in re.findall(r"Rattle\.(\w+)\.", line) + re.findall(r"^(?:pub )?use (\w+)::", line):
                if os.path.isdir(f"crates/{name}") and not name.startswith("spec_"):
                    yield f"{path}: it imports {name}"
            if path.endswith(".rt") and re.search(r"\b(if|while|loop)\b|\bfor\b.*\bin\b", line):
                yield f"{path}: a loop or a branch: {line.strip()}"
    for root in (root for mark in map(MARK.match, lines) if mark for root in mark[1].split()):
        found = {}
        reach(files, *root.rsplit(".", 1), set(), found)
        for module in sorted(found):
            if not module.startswith("spec_"):
                yield f"{root} rests on {module}"


def page_of(files, lines):
    """The page with the tables as the definitions have them."""
    page, taken, is_table = [], set(), False
    for line in lines:
        is_table = is_table and (not line or line.startswith("|"))
        if is_table:
            continue
        page.append(line)
        mark = MARK.match(line)
        if mark:
            page += ["", *table_of(files, mark[1].split(), taken), ""]
            is_table = True
    return page


def main():
    os.chdir(os.path.join(os.path.dirname(os.path.abspath(__file__)), ".."))
    sys.setrecursionlimit(10_000)
    lines = open(PAGE).read().split("\n")
    files = read_files()
    faults = list(faults_of_spec_crates(files, lines))
    if faults:
        sys.exit("\n".join(faults))
    page = page_of(files, lines)
    if "--write" in sys.argv[1:]:
        open(PAGE, "w").write("\n".join(page))
    elif page != lines:
        sys.exit(f"{PAGE}: its tables are not those of the definitions; tests/statement.py --write makes them")
    else:
        print("the tables of docs/STATEMENT.md are those of the definitions")


if __name__ == "__main__":
    main()
