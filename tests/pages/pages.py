"""Runs the shell sessions of pages: the work of tests/pages.sh.

A session is a block of lines with four spaces before them whose first begins with `$ `. Each line with `$ ` is a
command, with the lines after it while the one before ends in a backslash, and those that begin with `> `; the lines up
to the next command are what it has to print, on standard output or standard error. Of a command that ends in `&` they
are waited for. A cell of a table that is code and begins with `$ ` is a command too: what it prints has to have the
text of the row's first cell in it.

A page runs in a folder of its own, in which `avrogate` and `crates/avrogate/out/avrogate` are the program. There /tmp
is the folder's own, and a port of a page, 8081 to 8089, is another one that is free, in commands and in what they
print.

Usage: pages.py PROGRAM PAGE .."""
import os, random, re, shutil, signal, socket, subprocess, sys, tempfile, time

TOP = os.path.realpath(os.path.join(os.path.dirname(__file__), "..", ".."))
LONGEST = 120  # seconds that a command may take, and what it prints later may take to come
SHELL = """
while IFS= read -r -d '' -u %d command; do
  eval "$command" </dev/null %d<&- %d>&-
  echo $? >&%d
done
"""
# The program, whose `serve` listens on another port than 8081 where it is given none.
PROGRAM = """#!/bin/sh
case "$1 $* " in
  serve*" --port "* | serve*" --help "*) ;;
  serve*) shift; set -- serve --port %d "$@" ;;
esac
exec "%s" "$@"
"""
# What a shell says on standard error when a job of its own is killed, which a person's shell says in other words.
NOTICE = re.compile(r"^.*line \d+: +\d+ (Killed|Terminated)\b.*\n", re.M)


def commands_of(page):
    """The commands of a page in their order: the number of the line, the text, what it has to print, and whether that may
    be a part of what it prints."""
    found, inside = [], False
    for number, line in enumerate(open(os.path.join(TOP, page)).read().split("\n"), 1):
        if not line.startswith("    "):
            inside = False
            cells = [cell.strip() for cell in line.split("|")[1:-1]] if line.startswith("| ") else []
            found += [[number, cell[3:-1], cells[0].strip("`"), True] for cell in cells if cell.startswith("`$ ")]
            continue
        text = line[4:]
        inside = inside or text.startswith("$ ")
        if not inside:
            continue
        if text.startswith("$ "):
            found.append([number, text[2:], "", False])
        elif not found[-1][2] and text.startswith("> "):
            found[-1][1] += "\n" + text[2:]
        elif not found[-1][2] and found[-1][1].endswith("\\"):
            found[-1][1] += "\n" + text
        else:
            found[-1][2] += text + "\n"
    return found


def free_ports(count):
    """Ports that nothing listens on, which the system gives to no connection by itself."""
    found = []
    while len(found) < count:
        port = random.randrange(20000, 30000)
        with socket.socket() as one:
            try:
                one.bind(("127.0.0.1", port))
            except OSError:
                continue
        if port not in found:
            found.append(port)
    return found


class Session:
    """A shell in a folder, and the file to which all that it prints goes."""

    def __init__(self, program):
        self.folder = tempfile.mkdtemp(prefix="pages-")
        self.ports = dict(zip(range(8081, 8090), free_ports(9)))
        work, bin = os.path.join(self.folder, "work"), os.path.join(self.folder, "bin")
        for path in (work + "/crates/avrogate/out", bin, os.path.join(self.folder, "tmp")):
            os.makedirs(path)
        for name in ("tools", "packaging", "tests"):
            os.symlink(os.path.join(TOP, name), os.path.join(work, name))
        shutil.copy(os.path.join(TOP, "crates/avrogate/stdin"), work + "/crates/avrogate")
        for path in (bin + "/avrogate", work + "/crates/avrogate/out/avrogate"):
            with open(path, "w") as file:
                file.write(PROGRAM % (self.ports[8081], program))
            os.chmod(path, 0o755)
        self.out = open(os.path.join(self.folder, "out"), "ab")
        self.read_at = 0
        taken, commands = os.pipe()
        self.statuses, answered = os.pipe()
        self.commands = commands
        environment = dict(os.environ, PATH=bin + ":" + os.environ["PATH"], LC_ALL="C.UTF-8")
        self.shell = subprocess.Popen(["bash", "-c", SHELL % (taken, taken, answered, answered)], cwd=work, env=environment, pass_fds=(taken, answered),
                                      stdin=subprocess.DEVNULL, stdout=self.out, stderr=self.out, start_new_session=True)
        os.close(taken)
        os.close(answered)

    def own(self, text):
        """A text of the page with the ports and the folder of this session."""
        text = re.sub(r"\b808[1-9]\b", lambda port: str(self.ports[int(port[0])]), text)
        return re.sub(r"(?<![\w.])/tmp\b", self.folder + "/tmp", text)

    def printed(self):
        """What was printed since the last command began."""
        with open(self.out.name, "rb") as file:
            file.seek(self.read_at)
            return NOTICE.sub("", file.read().decode(errors="replace"))

    def run(self, command, wanted):
        """What a command prints. None where it does not end in its time."""
        self.read_at = os.path.getsize(self.out.name)
        os.write(self.commands, self.own(command).encode() + b"\0")
        end = time.monotonic() + LONGEST
        os.set_blocking(self.statuses, False)
        while True:
            try:
                if not os.read(self.statuses, 100):
                    return None
                break
            except BlockingIOError:
                if time.monotonic() > end:
                    return None
                time.sleep(0.01)
        while command.rstrip().endswith("&") and self.printed() != self.own(wanted) and time.monotonic() < end:
            time.sleep(0.05)
        return self.printed()

    def end(self):
        """Stops the shell and whatever it has left running, and removes the folder."""
        try:
            os.killpg(self.shell.pid, signal.SIGKILL)
        except ProcessLookupError:
            pass
        self.shell.wait()
        self.out.close()
        os.close(self.commands)
        os.close(self.statuses)
        shutil.rmtree(self.folder)


def main(program, pages):
    passed = failed = 0
    for page in pages:
        session = Session(program)
        try:
            for number, command, wanted, is_part in commands_of(page):
                got = session.run(command, wanted)
                if got == session.own(wanted) or is_part and got is not None and wanted in got:
                    passed += 1
                    continue
                failed += 1
                print("FAILED %s:%d: %s" % (page, number, command))
                print("  wanted:\n%s" % re.sub("^", "    ", session.own(wanted), flags=re.M))
                print("  printed:\n%s" % ("    nothing more in %d s" % LONGEST if got is None else re.sub("^", "    ", got, flags=re.M)))
                if got is None:
                    break
        finally:
            session.end()
    print("%d passed, %d failed" % (passed, failed))
    return failed != 0


def stopped(*_):
    """Ends the script on TERM by way of `finally`, so that what a page has left running is ended too."""
    signal.signal(signal.SIGTERM, signal.SIG_IGN)
    sys.exit(1)


signal.signal(signal.SIGTERM, stopped)
sys.exit(main(sys.argv[1], sys.argv[2:]))
