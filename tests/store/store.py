"""The checks of tests/store.sh. Usage: store.py PROGRAM"""
import contextlib, hashlib, http.client, json, os, random, re, resource, shutil, signal, subprocess, sys, tempfile, threading, time

PROGRAM = sys.argv[1]
SHORT = bool(os.environ.get("SHORT"))
ROUNDS, CLIENTS, MOST_SECONDS = 20 if SHORT else 200, 4, 0.25
MOST_SCHEMAS, TEXT = 4096, 10_240
LEVELS = ["BACKWARD", "BACKWARD_TRANSITIVE", "FORWARD", "FORWARD_TRANSITIVE", "FULL", "FULL_TRANSITIVE", "NONE"]
random.seed(int(os.environ.get("SEED", "67")))


def say(name, problem=None):
    print("ok " + name if not problem else "FAILED %s: %s" % (name, problem), flush=True)


def environment(limit):
    """What a child does before it runs: a limit on what it may write, by an error and not a signal."""
    if limit is None:
        return None

    def set_limit():
        signal.signal(signal.SIGXFSZ, signal.SIG_IGN)
        resource.setrlimit(resource.RLIMIT_FSIZE, (limit, resource.RLIM_INFINITY))

    return set_limit


class Server:
    """A service over a store; `refused` is its line where it does not start."""

    def __init__(self, store, limit=None, before=(), seconds=120):
        begin = time.monotonic()
        words = list(before) + [PROGRAM, "serve", "--port", "0"] + (["--store", store] if store else [])
        self.process = subprocess.Popen(words, stdout=subprocess.PIPE, stderr=subprocess.PIPE, preexec_fn=environment(limit))
        line = self.process.stdout.readline().decode()
        self.seconds = time.monotonic() - begin
        self.refused = self.status = None
        if not line.startswith("listening "):
            self.refused = line.rstrip("\n")
            self.status = self.process.wait(seconds)
            assert self.refused, "no line, and status %s" % self.status
            return
        self.port = int(line.split()[1])

    def ask(self, method, path, body=None):
        """The status and the JSON or the bytes of the answer."""
        connection = http.client.HTTPConnection("127.0.0.1", self.port, timeout=30)
        try:
            connection.request(method, path, body)
            answer = connection.getresponse()
            data = answer.read()
        finally:
            connection.close()
        with contextlib.suppress(ValueError):
            return answer.status, json.loads(data)
        return answer.status, data

    def register(self, subject, schema):
        return self.ask("POST", "/subjects/%s/versions" % subject, json.dumps({"schema": schema}))

    def set_level(self, subject, level):
        return self.ask("PUT", "/config/" + subject if subject else "/config", json.dumps({"compatibility": level}))

    def level(self, subject):
        status, answer = self.ask("GET", "/config/" + subject if subject else "/config")
        return answer.get("compatibilityLevel")

    def schema(self, number):
        status, answer = self.ask("GET", "/schemas/ids/%d" % number)
        return answer["schema"] if status == 200 else None

    def kill(self, how=signal.SIGKILL):
        self.process.send_signal(how)
        self.process.wait()
        self.process.stdout.close()
        self.process.stderr.close()


def compact(schema):
    """The compact text of a schema, as the registry shows it: the members of objects in the order of their names."""
    return json.dumps(json.loads(schema), separators=(",", ":"), ensure_ascii=False, sort_keys=True)


def enum(number):
    """A schema of its own for each number."""
    return json.dumps({"type": "enum", "name": "E%d" % number, "symbols": ["A", "B"], "doc": "é %% * %d\n" % number}, ensure_ascii=False)


def check_of(body):
    return hashlib.sha256(body).hexdigest()[:16].encode()


def lines_of(data):
    """The commands of a store's bytes, each with its check compared."""
    assert data[-2:] == b"--", data[-20:]
    found = []
    for line in data[:-2].split(b"\n")[:-1]:
        assert line[:2] == b"++", line
        body, _, check = line[2:].rpartition(b" ")
        assert check == check_of(body), line
        found.append(body)
    return found


def folder(name):
    path = os.path.join(ROOT, name)
    os.mkdir(path)
    return path


def stops_and_starts():
    store = os.path.join(folder("starts"), "registry")
    server = Server(store)
    ids = {}
    pretty = json.dumps(json.loads(enum(1)), indent=2)
    for subject, schema in [("a", enum(1)), ("b", enum(1)), ("a", pretty), ("c.d_e-f", enum(2)), ("a2", '"int"')]:
        status, answer = server.register(subject, schema)
        assert status == 200, answer
        ids[subject, schema] = answer["id"]
    assert server.register("a", '"string"')[0] == 409
    assert server.register("a", "no schema")[0] == 422
    for subject, level in [("a", "NONE"), (None, "FULL_TRANSITIVE"), ("b", "FORWARD")]:
        assert server.set_level(subject, level)[0] == 200
    assert server.register("a", '"string"')[0] == 200
    before = open(store, "rb").read()
    server.kill(signal.SIGTERM)
    assert open(store, "rb").read() == before
    lines = lines_of(before)
    assert [line.split()[0] for line in lines] == [b"register"] * 4 + [b"level"] * 3 + [b"register"], lines
    for turn in range(3):
        server = Server(store)
        assert not server.refused, server.refused
        for (subject, schema), number in ids.items():
            assert server.schema(number) == compact(schema), (subject, number)
            assert server.register(subject, schema) == (200, {"id": number})
        assert [server.level(s) for s in ("a", "b", "c.d_e-f", None)] == ["NONE", "FORWARD", "FULL_TRANSITIVE", "FULL_TRANSITIVE"]
        assert server.ask("GET", "/subjects/a/versions") == (200, [1, 2])
        message = b"\0" + (ids["a2", '"int"']).to_bytes(4, "big") + b"\x06"
        assert server.ask("POST", "/transcode/%d" % ids["a2", '"int"'], message) == (200, message) or server.ask("POST", "/transcode/%d" % ids["a2", '"int"'], message)[0] == 200
        server.kill()
        assert open(store, "rb").read() == before, "a start changed the file"
    server = Server(store)
    assert server.register("new", enum(99))[1]["id"] == 5
    server.kill()


def client(server, number, wanted, told, stop):
    """Registers and sets levels until the service is gone; `told` gets what was answered."""
    turn = 0
    with contextlib.suppress(OSError, http.client.HTTPException, ValueError):
        while not stop.is_set():
            turn += 1
            if turn % 5 == 0:
                level = random.choice(LEVELS)
                wanted.setdefault(("level", number), []).append(level)
                status, answer = server.set_level("s%d" % number, level)
                if status == 200:
                    told.append(("level", number, level))
            else:
                schema = enum(random.randrange(10**9))
                status, answer = server.register("s%d-%d" % (number, random.randrange(10**9)), schema)
                if status == 200:
                    told.append(("id", answer["id"], compact(schema)))


def started_again(store, names, levels, most):
    """A server on the store, which finds the levels and at most that many of the ids, taken at random."""
    server = Server(store)
    assert not server.refused, server.refused
    for number, schema in random.sample(sorted(names.items()), min(most, len(names))):
        assert server.schema(number) == schema, number
    for number, allowed in levels.items():
        assert server.level("s%d" % number) in allowed, (number, allowed)
    return server


def killed_at_random_moments():
    place, stores, found = folder("killed"), 1, 0
    store, names, levels = os.path.join(place, "registry1"), {}, {}
    for turn in range(ROUNDS):
        server = started_again(store, names, levels, 20 if turn % 10 else len(names))
        if len(names) > 3900:  # a registry has at most 4,096 schemas, so another store goes on
            server.kill()
            started_again(store, names, levels, len(names)).kill()
            stores, found = stores + 1, found + len(names)
            store, names, levels = os.path.join(place, "registry%d" % stores), {}, {}
            server = started_again(store, names, levels, 0)
        told = [[] for _ in range(CLIENTS)]
        wanted, stop = {}, threading.Event()
        threads = [threading.Thread(target=client, args=(server, n, wanted, told[n], stop)) for n in range(CLIENTS)]
        for thread in threads:
            thread.start()
        time.sleep(random.random() * MOST_SECONDS)
        server.kill()
        stop.set()
        for thread in threads:
            thread.join()
        for n in range(CLIENTS):
            sent = wanted.get(("level", n), [])
            answered = [level for kind, number, level in (t for t in told[n] if t[0] == "level")]
            if sent:
                # the last that was answered, or one that was sent after it and not answered
                last = [answered[-1]] if answered else levels.get(n, ["BACKWARD"])
                levels[n] = last + (sent[len(answered):] if len(sent) > len(answered) else [])
            for kind, number, schema in (t for t in told[n] if t[0] == "id"):
                assert names.get(number, schema) == schema, (turn, number)
                names[number] = schema
    started_again(store, names, levels, len(names)).kill()
    found += len(names)
    assert found > ROUNDS, "%d ids in %d rounds" % (found, ROUNDS)
    say("kill -9 in %d rounds under %d clients: %d ids that were answered, each found again" % (ROUNDS, CLIENTS, found))


def two_processes():
    store = os.path.join(folder("two"), "registry")
    server = Server(store)
    second = Server(store)
    assert second.status == 3 and "another process has it open" in second.refused, (second.status, second.refused)
    assert server.register("a", enum(1))[0] == 200
    server.kill()


def full_disk():
    """By a limit on the file's length: a write past it fails with EFBIG, as one to a full disk with ENOSPC."""
    store = os.path.join(folder("full"), "registry")
    server = Server(store, limit=8192)
    ids = {}
    refused = 0
    for number in range(200):
        status, answer = server.register("s%d" % number, enum(number))
        if status == 200:
            ids[answer["id"]] = compact(enum(number))
        else:
            assert (status, answer) == (503, {"error_code": 50304, "message": "not stored"}), (status, answer)
            refused += 1
            assert server.ask("GET", "/subjects/s%d/versions" % number)[0] == 404, "a refused registration is there"
    assert ids and refused, (len(ids), refused)
    assert server.schema(1) == ids[1]
    status, answer = server.set_level("s0", "NONE")
    assert status in (200, 503)
    server.kill()
    server = Server(store)
    assert not server.refused, server.refused
    for number, schema in ids.items():
        assert server.schema(number) == schema, number
    status, answer = server.register("later", enum(1000))
    assert (status, answer) == (200, {"id": max(ids) + 1}), (status, answer)
    server.kill()


def full_device():
    """A small tmpfs that is filled and then has room again; the service goes on without a new start."""
    place = folder("device")
    if subprocess.run(["mount", "-t", "tmpfs", "-o", "size=64k", "none", place], stderr=subprocess.DEVNULL).returncode:
        say("a full device (left out: nothing can be mounted here)")
        return
    try:
        store = os.path.join(place, "registry")
        server = Server(store)
        assert server.register("first", enum(0))[0] == 200
        with open(os.path.join(place, "filler"), "wb", buffering=0) as filler:
            with contextlib.suppress(OSError):
                while True:
                    filler.write(b"x" * 4096)
        refused = 0
        ids = {}
        for number in range(1, 40):
            status, answer = server.register("s%d" % number, enum(number))
            if status == 200:
                ids[answer["id"]] = compact(enum(number))
            else:
                assert answer["error_code"] == 50304, answer
                refused += 1
        assert refused, "the device was not full"
        os.remove(os.path.join(place, "filler"))
        status, answer = server.register("after", enum(500))
        assert status == 200, answer
        ids[answer["id"]] = compact(enum(500))
        server.kill()
        server = Server(store)
        assert not server.refused, server.refused
        for number, schema in ids.items():
            assert server.schema(number) == schema, number
        server.kill()
        say("a full device: %d refused with 50304, and one more taken once there was room" % refused)
    finally:
        if server.process.poll() is None:
            server.kill()
        subprocess.run(["umount", place])


def small_store():
    store = os.path.join(folder("small"), "registry")
    server = Server(store)
    assert server.register("a", '"int"')[0] == 200
    assert server.set_level("a", "FULL")[0] == 200
    assert server.register("b", '"long"')[0] == 200
    server.kill()
    return store, open(store, "rb").read()


def start_of(data, store):
    with open(store, "wb") as file:
        file.write(data)
    server = Server(store)
    if server.refused is None:
        server.kill()
    return server


def changed_bytes():
    store, data = small_store()
    gates = [0] + [at + 1 for at in range(len(data)) if data[at : at + 1] == b"\n"]
    last = gates[-2]
    for at in range(len(data)):
        gate = next((number for number, gate in enumerate(gates) if at in (gate, gate + 1)), None)
        bits = {data[at] ^ (1 << bit) for bit in range(8)}
        for byte in bits if gate is None else bits | set(b"+-") if SHORT else range(256):
            changed = data[:at] + bytes([byte]) + data[at + 1 :]
            server = start_of(changed, store) if changed != data else None
            if server is None:
                continue
            if at in (last, last + 1) and byte == ord("-"):
                # what a crash leaves while the gate of the last line is opened
                assert server.refused is None and open(store, "rb").read() == data, (at, server.refused)
            elif gate is not None:
                assert server.status == 3 and "byte %d, in line %d" % (gates[gate], gate + 1) in server.refused, (at, byte, server.refused)
            else:
                assert server.status == 3 and re.search(r"line \d+", server.refused), (at, byte, server.refused)
    for length in range(1, len(data)):
        server = start_of(data[:length], store)
        place = length - 1 if length - 1 in gates else length
        assert server.status == 3 and "byte %d, in line" % place in server.refused, (length, server.refused)
    # a torn end: the gate is closed, and what comes after it is not a line
    torn = data[:last] + b"--" + data[last + 2 :]
    for length in range(last + 2, len(torn) + 1):
        server = start_of(torn[:length], store)
        assert server.refused is None, (length, server.refused)
        assert open(store, "rb").read() == data[:last] + b"--"


def refused_files():
    place = folder("refused")
    store = os.path.join(place, "registry")
    good, _ = small_store_again(place)
    one = b"register 1 a \"int\""
    two = b"register 2 b \"long\""
    line = lambda body: b"++" + body + b" " + check_of(body) + b"\n"
    cases = {
        "an empty file": (b"", "it is empty"),
        "no store": (b"hello\n", "damaged at byte 0, in line 1"),
        "an id too few": (line(two) + b"--", "line 1: the schema would get the id 1"),
        "a line twice": (line(one) + line(one) + b"--", "line 2: the subject has the schema"),
        "a level of no name": (line(b"level a SOME") + b"--", "line 1: no compatibility level"),
        "a subject against the rule": (line(b"register 1 a%20b \"int\"") + b"--", "line 1: the name of the subject"),
        "no schema": (line(b"register 1 a int") + b"--", "line 1: no schema"),
        "an incompatible schema": (line(one) + line(b"register 2 a \"string\"") + b"--", "line 2: the schema does not go with"),
        "a check of another line": (b"++" + one + b" " + check_of(two) + b"\n--", "line 1: the check"),
        "another verb": (line(b"registers 1 a \"int\"") + b"--", "line 1: no command"),
    }
    for name, (data, why) in cases.items():
        server = start_of(data, store)
        say("refused: " + name, None if server.status == 3 and why in server.refused else (server.status, server.refused))
    os.remove(store)
    os.mkdir(store)
    server = Server(store)
    say("refused: a folder", None if server.status == 3 and "a link, a folder or a device" in server.refused else server.refused)
    os.rmdir(store)
    os.symlink(good, store)
    server = Server(store)
    say("refused: a link", None if server.status == 3 and "a link, a folder or a device" in server.refused else server.refused)
    os.remove(store)
    os.link(good, store)
    server = Server(store)
    say("refused: a second name", None if server.status == 3 and "a second name" in server.refused else server.refused)
    os.remove(store)
    server = Server(os.path.join(place, "none", "registry"))
    say("refused: no such folder", None if server.status == 3 and server.refused.startswith("cannot open the store") else server.refused)
    server = Server("/dev/null")
    say("refused: a device", None if server.status == 3 else server.refused)


def small_store_again(place):
    path = os.path.join(place, "good")
    server = Server(path)
    assert server.register("a", '"int"')[0] == 200
    server.kill()
    return path, open(path, "rb").read()


def syncs_before_the_answer():
    store = os.path.join(folder("traced"), "registry")
    trace = os.path.join(ROOT, "trace")
    server = Server(store, before=["strace", "-D", "-f", "-o", trace, "-e", "trace=pwrite64,fdatasync,fsync,ftruncate,write,sendto,sendmsg"])
    if server.refused is not None:
        say("the syncs before the answer (left out: strace cannot trace here)")
        return
    assert server.register("a", '"int"')[0] == 200
    server.kill()
    time.sleep(0.2)
    calls = open(trace).read().splitlines()
    kinds = []
    for line in calls:
        found = re.match(r"\d+ +(\w+)\((.*)", line)
        if not found:
            continue
        name, rest = found.groups()
        if name == "pwrite64":
            kinds.append("gate" if '"++"' in rest else "line" if "register 1" in rest else "first")
        elif name in ("fdatasync", "fsync"):
            kinds.append("sync")
        elif name in ("write", "sendto", "sendmsg") and "HTTP/1.1 200" in rest:
            kinds.append("answer")
    at = kinds.index("line")
    problem = None if kinds[at : at + 5] == ["line", "sync", "gate", "sync", "answer"] else kinds
    say("line, sync, gate, sync, and then the answer", problem)


def failing_calls():
    """Each call on the file fails in turn, and all of its kind from then on, by strace: what was answered is there after a
    start without it, and at most one command more; reads go on."""
    count = 0
    for call in ("pwrite64", "fdatasync", "ftruncate"):
        for when in range(1, 9):
            for error, last in (("EIO", "+"), ("ENOSPC", ""), ("EIO", "")):
                place = folder("fails-%s-%d-%d" % (call, when, count))
                store = os.path.join(place, "registry")
                inject = "inject=%s:error=%s:when=%d%s" % (call, error, when, last)
                server = Server(store, before=["strace", "-D", "-f", "-o", "/dev/null", "-e", "trace=" + call, "-e", inject])
                count += 1
                answered, asked = [], 0
                if server.refused is None:
                    for number in range(3):
                        status, answer = server.register("s%d" % number, enum(number))
                        asked += 1
                        assert status == 200 or (status, answer["error_code"]) == (503, 50304), (inject, status, answer)
                        if status == 200:
                            answered.append((answer["id"], compact(enum(number))))
                    for number, schema in answered:
                        assert server.schema(number) == schema, (inject, number)
                    server.kill()
                else:
                    assert server.status == 3, (inject, server.status, server.refused)
                if os.path.exists(store) and os.path.getsize(store) == 0:
                    assert not answered, inject
                    os.remove(store)
                server = Server(store)
                assert not server.refused, (inject, server.refused)
                for number, schema in answered:
                    assert server.schema(number) == schema, (inject, number)
                more = sum(1 for number in range(1, 5) if server.schema(number) is not None) - len(answered)
                assert 0 <= more <= 1, (inject, more)
                server.kill()
                shutil.rmtree(place)
    say("each call on the file fails in turn: %d runs" % count)


def exported_and_imported():
    place = folder("lines")
    store = os.path.join(place, "registry")
    server = Server(store)
    for number in range(20):
        pretty = json.dumps(json.loads(enum(number)), indent=1)
        assert server.register("s%d" % (number % 7), pretty if number % 2 else enum(number))[0] in (200, 409)
        server.set_level("s%d" % (number % 7), random.choice(LEVELS))
    server.set_level(None, "FORWARD")
    with open(store, "rb") as file:
        lines = subprocess.run([PROGRAM, "export"], stdin=file, stdout=subprocess.PIPE).stdout  # while it runs
    server.kill()
    new = os.path.join(place, "new")
    done = subprocess.run([PROGRAM, "import", "--store", new], input=b"# a comment\n\n" + lines, stdout=subprocess.PIPE)
    assert done.returncode == 0 and done.stdout == b"imported %d\n" % len(lines.splitlines()), done
    server = Server(new)
    assert not server.refused, server.refused
    old = Server(store)
    for number in range(1, 21):
        assert server.schema(number) == old.schema(number), number
    for subject in ["s%d" % n for n in range(7)] + [None]:
        assert server.level(subject) == old.level(subject)
    server.kill()
    old.kill()
    again = subprocess.run([PROGRAM, "export"], stdin=open(new, "rb"), stdout=subprocess.PIPE).stdout
    assert again == lines
    done = subprocess.run([PROGRAM, "import", "--store", new], input=lines, stdout=subprocess.PIPE)
    assert done.returncode == 3 and b"it is there already" in done.stdout, done
    for bad, why in [(b"register a\n", b"line 1"), (b"publish 1 1\n", b"line 1"), (b'register a "int"\nregister a "string"\n', b"line 2: refused Incompatible"), (b"level a SOME\n", b"line 1: refused BadLevel")]:
        fresh = os.path.join(place, "fresh%d" % len(os.listdir(place)))
        done = subprocess.run([PROGRAM, "import", "--store", fresh], input=bad, stdout=subprocess.PIPE)
        assert done.returncode == 3 and why in done.stdout, (bad, done)
    done = subprocess.run([PROGRAM, "export"], input=b"++level * FULL 0000000000000000\n--", stdout=subprocess.PIPE)
    assert done.returncode == 3 and b"line 1" in done.stdout, done


def moved():
    """By tools/from_confluent.py, from a service of ours, which has the same API."""
    place = folder("moved")
    server = Server(os.path.join(place, "old"))
    server.set_level(None, "NONE")
    for subject, number in [("a", 1), ("b", 2), ("a", 3), ("b", 1), ("c", 3), ("a", 2), ("c", 4), ("b", 4)]:
        assert server.register(subject, enum(number))[0] == 200
    server.set_level("a", "FULL")
    server.set_level(None, "FORWARD")
    tool = os.path.join(os.path.dirname(os.path.abspath(__file__)), "..", "..", "tools", "from_confluent.py")
    lines = subprocess.run([sys.executable, tool, "http://127.0.0.1:%d" % server.port], stdout=subprocess.PIPE, check=True).stdout
    new = os.path.join(place, "new")
    done = subprocess.run([PROGRAM, "import", "--store", new], input=lines, stdout=subprocess.PIPE)
    assert done.returncode == 0, done
    again = Server(new)
    for subject in "abc":
        numbers = server.ask("GET", "/subjects/%s/versions" % subject)
        assert again.ask("GET", "/subjects/%s/versions" % subject) == numbers
        for number in numbers[1]:
            path = "/subjects/%s/versions/%d" % (subject, number)
            assert again.ask("GET", path) == server.ask("GET", path)
        assert again.level(subject) == server.level(subject)
    assert again.level(None) == "FORWARD"
    again.kill()
    server.kill()


def long_start():
    place = folder("long")
    store = os.path.join(place, "registry")
    lines = []
    for number in range(MOST_SCHEMAS):
        schema = json.dumps({"type": "record", "name": "R%d" % number, "fields": [{"name": "f%d" % at, "type": ["null", "string"], "default": None, "doc": "x" * 100} for at in range(62)]})
        body = b"register %d s%d %s" % (number + 1, number, schema.encode())
        lines.append(b"++" + body + b" " + check_of(body) + b"\n")
    data = b"".join(lines) + b"--"
    times = {}
    for count in (MOST_SCHEMAS // 4, MOST_SCHEMAS):
        with open(store, "wb") as file:
            file.write(b"".join(lines[:count]) + b"--")
        server = Server(store)
        assert not server.refused, server.refused
        times[count] = server.seconds
        peak = next(line for line in open("/proc/%d/status" % server.process.pid) if line.startswith("VmHWM")).split()[1]
        assert server.schema(count) is not None and server.schema(count + 1) is None
        server.kill()
    ratio = times[MOST_SCHEMAS] / times[MOST_SCHEMAS // 4]
    say("a start of %d schemas of %d bytes: %.2f s, %d MB at most, %.1f times that of a quarter" % (MOST_SCHEMAS, len(data) // MOST_SCHEMAS, times[MOST_SCHEMAS], int(peak) // 1024, ratio))


def tried(check, name=None):
    try:
        check()
        if name:
            say(name)
    except Exception as error:
        say(name or check.__name__, "%s %s" % (type(error).__name__, str(error)[:600]))


ROOT = tempfile.mkdtemp(prefix="store-")
try:
    tried(stops_and_starts, "what was answered is there after each start, in a file that a start leaves as it was")
    tried(two_processes, "a second process is refused")
    tried(refused_files)
    tried(changed_bytes, "each changed byte of a gate, each changed bit and each prefix is refused with its place, and a torn end is repaired")
    tried(full_disk, "a file that may not grow: 50304, and what was answered before is kept, and goes on in its order")
    tried(full_device)
    tried(syncs_before_the_answer)
    tried(failing_calls)
    tried(exported_and_imported, "export and import")
    tried(moved, "a registry is moved by tools/from_confluent.py")
    tried(long_start)
    tried(killed_at_random_moments)
finally:
    shutil.rmtree(ROOT, ignore_errors=True)
print("all were tried")
