"""The checks of tests/upstream.sh. Usage: upstream.py PROGRAM"""
import base64, collections, contextlib, hashlib, http.client, json, os, random, re, resource, signal, socket, subprocess, sys, tempfile, threading, time

PROGRAM, HERE = sys.argv[1], os.path.dirname(os.path.abspath(__file__))
SHORT = bool(os.environ.get("SHORT"))
MESSAGES, CLIENTS = 2_000 if SHORT else 10_000, 8
WRONG = 400 if SHORT else 2_000
HOLD = 4  # seconds that the upstream may take
random.seed(int(os.environ.get("SEED", "71")))
ROOM = tempfile.mkdtemp(prefix="upstream-")
STARTED = []
sys.path.insert(0, HERE)

from fake_registry import schema_of


def say(name, problem=None):
    print("ok " + name if not problem else "FAILED %s: %s" % (name, problem), flush=True)


def tried(check, name):
    """Does a check, which returns what it has to add to its name, and says what came of it."""
    try:
        more = check()
        say(name + (": " + more if more else ""))
    except Exception as error:  # a check that ends by any fault has failed
        say(name, "%s %s" % (type(error).__name__, error))


def free_port():
    with socket.socket() as listener:
        listener.bind(("127.0.0.1", 0))
        return listener.getsockname()[1]


def wait_for(port, seconds=20):
    end = time.monotonic() + seconds
    while time.monotonic() < end:
        with contextlib.suppress(OSError):
            socket.create_connection(("127.0.0.1", port), 1).close()
            return
        time.sleep(0.05)
    raise AssertionError("nothing listens on %d" % port)


class Service:
    """`avrogate serve`, with some words more."""

    def __init__(self, *words, log=None, most=None):
        """`most` is the number of bytes that a file of it may have."""
        def limit():
            signal.signal(signal.SIGXFSZ, signal.SIG_IGN)
            resource.setrlimit(resource.RLIMIT_FSIZE, (most, resource.RLIM_INFINITY))

        self.stderr = open(log, "w") if log else subprocess.DEVNULL
        self.process = subprocess.Popen([PROGRAM, "serve", "--port", "0", *words], stdout=subprocess.PIPE, stderr=self.stderr, preexec_fn=limit if most else None)
        STARTED.append(self.process)
        line = self.process.stdout.readline().decode()
        self.port = int(line.split()[1]) if line.startswith("listening ") else None
        self.line = line.rstrip("\n")

    def ask(self, method, path, body=None, timeout=30):
        return ask(self.port, method, path, body, timeout)

    def transcode(self, reader, writer, payload, timeout=30):
        return self.ask("POST", "/transcode/%d" % reader, message(writer, payload), timeout)

    def stop(self):
        self.process.kill()
        self.process.wait()


class Fake:
    """fake_registry.py, and what it was asked."""

    def __init__(self, port=None):
        self.port, self.log = port or free_port(), os.path.join(ROOM, "asked-%d" % len(STARTED))
        open(self.log, "w").close()
        self.process = subprocess.Popen([sys.executable, os.path.join(HERE, "fake_registry.py"), str(self.port), self.log], stdout=subprocess.PIPE)
        STARTED.append(self.process)
        self.process.stdout.readline()

    def url(self, prefix=""):
        return "http://127.0.0.1:%d%s" % (self.port, prefix)

    def lines(self):
        return open(self.log).read().splitlines()

    def times(self, number):
        return sum(1 for line in self.lines() if "/schemas/ids/%d HTTP" % number in line)

    def stop(self):
        self.process.kill()
        self.process.wait()


def ask(port, method, path, body=None, timeout=30):
    """The status and the JSON or the bytes of an answer."""
    connection = http.client.HTTPConnection("127.0.0.1", port, timeout=timeout)
    try:
        connection.request(method, path, body)
        answer = connection.getresponse()
        data = answer.read()
    finally:
        connection.close()
    with contextlib.suppress(ValueError):
        return answer.status, json.loads(data)
    return answer.status, data


def message(writer, payload):
    return b"\0" + writer.to_bytes(4, "big") + payload


def wanted(reader, payload):
    """The answer to a record of one int by fake_registry's schema of the reader."""
    return 200, message(reader, payload + (b"\x02x" if reader % 2 else b""))


def same(found, want):
    assert found == want, "%r, and not %r" % (found, want)


def fault(code, text):
    return (code if code < 1000 else code // 100), {"error_code": code, "message": text}


BAD, LATE = fault(50305, "upstream registry: bad answer"), fault(50305, "upstream registry: no answer in time")
ELSEWHERE = fault(404, "no such route: ask the upstream registry")
UNKNOWN = fault(40403, "schema not found")
CASES = {
    20: "in chunks", 21: "in chunks", 22: "a byte a chunk", 30: "until the close", 40: "schemaType AVRO", 43: "no references",
    62: "a byte at a time", 66: "4 MB of another member", 73: "closed at the first time", 79: "the connection stays open",
    41: fault(42201, "invalid schema: NotAvro"), 45: fault(42201, "invalid schema: NotAvro"),
    42: fault(42201, "invalid schema: References"), 50: UNKNOWN, 99: UNKNOWN,
    77: fault(42201, "invalid schema: Unknown"), 78: fault(42201, "invalid schema: BadNumber"),
    51: BAD, 52: BAD, 53: BAD, 54: BAD, 55: BAD, 56: BAD, 57: BAD, 60: BAD, 61: BAD, 64: BAD, 65: BAD, 67: BAD, 68: BAD,
    69: BAD, 70: BAD, 74: BAD, 76: BAD, 80: BAD, 81: BAD, 63: LATE, 72: LATE, 75: LATE,
}


def own_registry():
    """Beside our own service: the ids that it gave, and messages of each pair."""
    upstream = Service()
    gateway = Service("--upstream", "http://127.0.0.1:%d" % upstream.port)
    ids = []
    for at in range(12):
        fields = [{"name": "f%d" % i, "type": "long"} for i in range(at % 4)] + [{"name": "s%d" % at, "type": "string", "default": "d%d" % at}]
        same(upstream.ask("PUT", "/config", '{"compatibility":"NONE"}')[0], 200)
        status, told = upstream.ask("POST", "/subjects/t/versions", json.dumps({"schema": json.dumps({"type": "record", "name": "R", "fields": fields})}))
        same(status, 200)
        ids.append(told["id"])
    for writer in ids:
        payload = bytes(2 * (i + 1) for i in range((writer - 1) % 4)) + b"\x04hi"
        for reader in ids:
            same(gateway.transcode(reader, writer, payload), upstream.transcode(reader, writer, payload))
        same(gateway.ask("GET", "/schemas/ids/%d" % writer), upstream.ask("GET", "/schemas/ids/%d" % writer))
    same(gateway.ask("GET", "/schemas/ids/99"), UNKNOWN)
    for method, path in [("GET", "/subjects"), ("GET", "/subjects/t/versions"), ("GET", "/config"), ("POST", "/subjects/t/versions")]:
        same(gateway.ask(method, path, '{"schema":"\\"int\\""}' if method == "POST" else None), ELSEWHERE)
    gateway.stop()
    upstream.stop()
    return "%d pairs" % len(ids) ** 2


def answers_of_all_kinds():
    """Each kind of answer, to 8 clients at once, each kind for ids of its own."""
    fake = Fake()
    gateway = Service("--upstream", fake.url(), "--upstream-timeout", str(HOLD))
    problems = []

    def client(number):
        for case, want in random.sample(sorted(CASES.items()), len(CASES)):
            id = (number + 1) * 1_000_000_00 + case
            want = want if isinstance(want, tuple) else None
            try:
                found = gateway.ask("GET", "/schemas/ids/%d" % id)
                if want is None:
                    same(found[0], 200)
                    same(gateway.transcode(id, id - case, b"\x36"), wanted(id, b"\x36"))
                else:
                    same(found, want)
                    same(gateway.transcode(id, id - case, b"\x36"), want)
                    same(gateway.transcode(id - case, id, b"\x36"), want)
            except Exception as error:
                problems.append("id %d: %s" % (id, error))

    threads = [threading.Thread(target=client, args=(number,)) for number in range(CLIENTS)]
    for thread in threads:
        thread.start()
    for thread in threads:
        thread.join()
    assert not problems, "%d, as %s" % (len(problems), problems[0])
    for number in range(CLIENTS):
        for case, want in CASES.items():
            if not isinstance(want, tuple):
                same((case, fake.times((number + 1) * 1_000_000_00 + case)), (case, 2 if case == 73 else 1))
    same(gateway.transcode(100000001, 100000000, b""), fault(42250, "malformed Truncated at 0"))
    same(gateway.ask("POST", "/transcode/100000001", b"\0\0"), fault(42253, "bad envelope: ShortEnvelope"))
    gateway.stop()
    fake.process.kill()
    return "%d kinds, %d clients" % (len(CASES), CLIENTS)


def ids_of_32_bits():
    fake = Fake()
    gateway = Service("--upstream", fake.url())
    for writer, reader in [(4_294_967_200, 4_294_967_201), (1, 2), (16_777_216, 16_777_217), (65_601, 65_600), (2_147_483_701, 7)]:
        same(gateway.transcode(reader, writer, b"\x36" + (b"\x02x" if writer % 2 else b"")), wanted(reader, b"\x36"))
    same(gateway.ask("GET", "/schemas/ids/4294967296")[0], 404)
    gateway.stop()
    fake.process.kill()


def first_schema_stays():
    fake = Fake()
    gateway = Service("--upstream", fake.url())
    first = gateway.ask("GET", "/schemas/ids/100000044")
    for _ in range(20):
        same(gateway.ask("GET", "/schemas/ids/100000044"), first)
    same(fake.times(100000044), 1)
    gateway.stop()
    fake.process.kill()


def silent_ids():
    """100 requests for silent ids, and good ones meanwhile."""
    fake = Fake()
    gateway = Service("--upstream", fake.url(), "--upstream-timeout", str(HOLD), "--clients", "2")
    same(gateway.transcode(100000001, 100000000, b"\x36"), wanted(100000001, b"\x36"))
    found, times = collections.Counter(), []

    def silent(number):
        begin = time.monotonic()
        status, told = gateway.transcode(100000001, 200000063 + 100 * number, b"\x36", 60)
        found[(status, json.dumps(told))] += 1
        times.append(time.monotonic() - begin)

    threads = [threading.Thread(target=silent, args=(number,)) for number in range(100)]
    for thread in threads:
        thread.start()
    time.sleep(0.3)
    good = []
    for _ in range(50):
        begin = time.monotonic()
        same(gateway.transcode(100000001, 100000000, b"\x36"), wanted(100000001, b"\x36"))
        good.append(time.monotonic() - begin)
    for thread in threads:
        thread.join()
    same(sorted(found), [(503, json.dumps(LATE[1]))])
    assert max(times) < 2 * HOLD + 2, "one waited %.1f s" % max(times)
    assert max(good) < HOLD, "a good request took %.1f s" % max(good)
    same(gateway.transcode(100000003, 100000000, b"\x36"), wanted(100000003, b"\x36"))
    gateway.stop()
    fake.process.kill()
    return "good ones took at most %.0f ms" % (1000 * max(good))


def too_many_wait():
    """More ids than are asked for at once: those beyond are refused at once, and the rest are answered."""
    fake = Fake()
    gateway = Service("--upstream", fake.url(), "--upstream-timeout", str(HOLD), "--clients", "4", "--connections", "1024")
    found = collections.Counter()

    def silent(number):
        status, told = gateway.ask("GET", "/schemas/ids/%d" % (300000063 + 100 * number), timeout=60)
        found[told["message"]] += 1

    threads = [threading.Thread(target=silent, args=(number,)) for number in range(400)]
    for thread in threads:
        thread.start()
    for thread in threads:
        thread.join()
    busy, late = found.pop("upstream registry: too many requests wait", 0), found.pop("upstream registry: no answer in time", 0)
    assert not found and busy + late == 400 and busy > 50 and late > 100, (busy, late, found)
    same(gateway.transcode(100000001, 100000000, b"\x36"), wanted(100000001, b"\x36"))
    gateway.stop()
    fake.process.kill()
    return "%d refused at once, %d late" % (busy, late)


def flood_of_a_wrong_id():
    """A wrong id is asked for about once a second, and costs no memory."""
    fake = Fake()
    gateway = Service("--upstream", fake.url())
    begin = time.monotonic()
    for _ in range(300):
        same(gateway.ask("GET", "/schemas/ids/100000050"), UNKNOWN)
    took = time.monotonic() - begin
    assert fake.times(100000050) <= took + 2, "asked %d times in %.1f s" % (fake.times(100000050), took)

    def resident():
        return int(re.search(r"VmRSS:\s+(\d+)", open("/proc/%d/status" % gateway.process.pid).read()).group(1))

    before = resident()
    for number in range(WRONG):
        same(gateway.ask("GET", "/schemas/ids/%d" % (400000050 + 100 * number)), UNKNOWN)
    grown = resident() - before
    assert grown < 4_096, "%d KiB more" % grown
    gateway.stop()
    fake.process.kill()
    return "%d wrong ids took %d KiB" % (WRONG, max(grown, 0))


def upstream_away():
    """While the upstream is away what is held is answered, and the rest is 50305; when it is back all is."""
    fake = Fake()
    gateway = Service("--upstream", fake.url(), "--upstream-timeout", str(HOLD))
    same(gateway.transcode(100000001, 100000000, b"\x36"), wanted(100000001, b"\x36"))
    fake.process.kill()
    fake.process.wait()
    same(gateway.transcode(100000001, 100000000, b"\x36"), wanted(100000001, b"\x36"))
    same(gateway.transcode(100000001, 100000002, b"\x36"), fault(50305, "upstream registry: not reached"))
    again = subprocess.Popen([sys.executable, os.path.join(HERE, "fake_registry.py"), str(fake.port), fake.log], stdout=subprocess.PIPE)
    STARTED.append(again)
    again.stdout.readline()
    time.sleep(1.2)
    same(gateway.transcode(100000001, 100000002, b"\x36"), wanted(100000001, b"\x36"))
    gateway.stop()
    again.kill()


def stored(id, url, text):
    """The line of a store that keeps a text for an id (docs/FORMATS.md)."""
    body = "register %d %s %s" % (id, url, text)
    return "++%s %s\n" % (body, hashlib.sha256(body.encode()).hexdigest()[:16])


NOT_REACHED = fault(50305, "upstream registry: not reached")


def kept_in_a_store():
    """What was asked for is in the file, and a start while the upstream is away goes on with it."""
    fake, store = Fake(), os.path.join(ROOM, "kept.store")
    words = ["--upstream", fake.url("/"), "--store", store, "--upstream-timeout", str(HOLD)]
    gateway = Service(*words)
    same(open(store).read(), "--")
    ids = [100000001, 100000000, 4_294_967_200, 100000044, 7]
    texts = {id: gateway.ask("GET", "/schemas/ids/%d" % id) for id in ids}
    for id in ids:
        same(gateway.ask("GET", "/schemas/ids/%d" % id), texts[id])
    same(gateway.ask("GET", "/schemas/ids/100000050"), UNKNOWN)
    same(gateway.ask("GET", "/schemas/ids/100000077"), CASES[77])
    same(gateway.ask("GET", "/schemas/ids/100000051"), BAD)
    lines = open(store).read()
    same(lines, "".join(stored(id, fake.url(), schema_of(id)) for id in ids) + "--")
    gateway.stop()
    fake.stop()
    for _ in range(2):
        gateway = Service(*words)
        for id in ids:
            same(gateway.ask("GET", "/schemas/ids/%d" % id), texts[id])
        same(gateway.transcode(100000001, 100000000, b"\x36"), wanted(100000001, b"\x36"))
        same(gateway.transcode(100000001, 100000002, b"\x36"), NOT_REACHED)
        same(open(store).read(), lines)
        gateway.stop()
    fake = Fake(fake.port)
    gateway = Service(*words)
    same(gateway.ask("GET", "/schemas/ids/100000044"), texts[100000044])
    same(gateway.transcode(100000003, 100000000, b"\x36"), wanted(100000003, b"\x36"))
    same(fake.times(100000044), 0)
    same(open(store).read()[: len(lines) - 2], lines[:-2])
    gateway.stop()
    fake.stop()


def refused_start(words, text):
    """A start that ends with 3 and says this."""
    ended = subprocess.run([PROGRAM, "serve", "--port", "0", *words], capture_output=True, timeout=20, text=True)
    assert ended.returncode == 3 and text in ended.stdout, (words, ended)


def stores_of_others():
    """A store of another registry, of this program's own, a damaged one, one that is open: each is refused, and stays as it was."""
    url, store = "http://127.0.0.1:9/a", os.path.join(ROOM, "other.store")
    beside = ["--upstream", url, "--store", store]
    for text, why in [
        (stored(7, "http://127.0.0.1:9", '"int"'), "line 1 has no schema of this upstream registry"),
        (stored(7, "http://127.0.0.1:9/a/b", '"int"'), "line 1 has no schema of this upstream registry"),
        (stored(7, url, '"int"') + stored(1, "orders", '"int"'), "line 2 has no schema of this upstream registry"),
        (stored(7, url, '"int"').replace("7", "8", 1), "line 1: "),
        (stored(7, url, '"whole"'), "line 1 of the store is not held: invalid schema: Unknown"),
    ]:
        with open(store, "w") as file:
            file.write(text + "--")
        refused_start(beside, why)
        same(open(store).read(), text + "--")
    with open(store, "w") as file:
        file.write(stored(7, url, '"int"')[1:] + "--")
    refused_start(beside, "damaged at byte")
    with open(store, "w") as file:
        file.write(stored(7, url, '"int"') + "--")
    refused_start(["--store", store], "the store " + store)
    gateway = Service(*beside)
    same(gateway.ask("GET", "/schemas/ids/7"), (200, {"schema": '"int"'}))
    refused_start(beside, "another process has it open")
    gateway.stop()
    own = os.path.join(ROOM, "own.store")
    registry = Service("--store", own)
    same(registry.ask("POST", "/subjects/t/versions", '{"schema":"\\"int\\""}')[0], 200)
    registry.stop()
    refused_start(["--upstream", url, "--store", own], "line 1 has no schema of this upstream registry")


def killed_while_it_keeps():
    """What was answered before a kill is there after it, while the upstream is away."""
    fake, store, rounds, found = Fake(), os.path.join(ROOM, "killed.store"), 5 if SHORT else 40, {}
    words = ["--upstream", fake.url(), "--store", store, "--upstream-timeout", str(HOLD)]
    for round in range(rounds):
        gateway, lock = Service(*words), threading.Lock()

        def client(number):
            for at in range(200):
                id = 1_000_000 * (round + 1) + 10_000 * number + 100 * at
                try:
                    told = gateway.ask("GET", "/schemas/ids/%d" % id)
                except OSError:
                    return
                except http.client.HTTPException:
                    return
                same(told[0], 200)
                with lock:
                    found[id] = told

        threads = [threading.Thread(target=client, args=(number,)) for number in range(CLIENTS)]
        for thread in threads:
            thread.start()
        enough, end = len(found) + random.randint(1, 150), time.monotonic() + 20
        while len(found) < enough and time.monotonic() < end:
            time.sleep(0.001)
        gateway.stop()
        for thread in threads:
            thread.join()
        fake.stop()
        gateway = Service(*words)
        assert gateway.port, gateway.line
        for id, told in found.items():
            same(gateway.ask("GET", "/schemas/ids/%d" % id), told)
        gateway.stop()
        fake = Fake(fake.port)
    fake.stop()
    assert len(found) > rounds, "%d ids" % len(found)
    return "%d kills, %d ids" % (rounds, len(found))


def store_that_is_full():
    """A file that may not grow: 50304 for a schema that is not held, and what is held is answered."""
    fake, store = Fake(), os.path.join(ROOM, "full.store")
    words = ["--upstream", fake.url(), "--store", store]
    gateway = Service(*words)
    same(gateway.transcode(100000001, 100000000, b"\x36"), wanted(100000001, b"\x36"))
    gateway.stop()
    lines = open(store).read()
    gateway = Service(*words, most=len(lines) + 40)
    for _ in range(3):
        same(gateway.transcode(100000001, 100000002, b"\x36"), fault(50304, "not stored"))
        same(gateway.transcode(100000001, 100000000, b"\x36"), wanted(100000001, b"\x36"))
    gateway.stop()
    gateway = Service(*words)
    same(gateway.transcode(100000001, 100000002, b"\x36"), wanted(100000001, b"\x36"))
    same(gateway.transcode(100000001, 100000000, b"\x36"), wanted(100000001, b"\x36"))
    gateway.stop()
    same(open(store).read()[: len(lines) - 2], lines[:-2])
    fake.stop()


def prefix_and_credentials():
    """A path before /schemas, the Host field, and credentials of a file, which are in no word and in no line."""
    fake, path, log = Fake(), os.path.join(ROOM, "credentials"), os.path.join(ROOM, "gateway.log")
    with open(path, "w") as file:
        file.write("alice:s3cret word\n")
    gateway = Service("--upstream", fake.url("/apis/ccompat/v7/"), "--upstream-credentials", path, "--log", log=log)
    same(gateway.transcode(100000001, 100000000, b"\x36"), wanted(100000001, b"\x36"))
    same(gateway.ask("GET", "/schemas/ids/100000050"), UNKNOWN)
    token = base64.b64encode(b"alice:s3cret word").decode()
    for line in fake.lines():
        assert line.startswith("GET /apis/ccompat/v7/schemas/ids/"), line
        assert "host: 127.0.0.1:%d" % fake.port in line and "authorization: Basic " + token in line, line
    words = open("/proc/%d/cmdline" % gateway.process.pid).read()
    time.sleep(0.5)
    gateway.stop()
    lines = open(log).read()
    assert "s3cret" not in words + lines and token not in words + lines
    fetches = [line for line in lines.splitlines() if line.startswith("fetch ")]
    for id, code in [("100000000", "200"), ("100000001", "200"), ("100000050", "40403")]:
        assert any(re.fullmatch(r"fetch %s %s \d+" % (id, code), line) for line in fetches), fetches
    fake.process.kill()


def bad_words():
    """What is no upstream is refused before anything is served."""
    missing, empty = os.path.join(ROOM, "missing"), os.path.join(ROOM, "empty")
    open(empty, "w").close()
    for words, status in [(["--upstream", "registry"], 2), (["--upstream", "https://registry"], 2), (["--upstream", "http://u:p@registry"], 2),
                          (["--upstream", "http://r/?q"], 2), (["--upstream", "http://r", "--upstream-credentials", missing], 3),
                          (["--upstream", "http://r", "--upstream-credentials", empty], 3), (["--upstream", "http://r", "--upstream-timeout", "0"], 2)]:
        ended = subprocess.run([PROGRAM, "serve", "--port", "0", *words], capture_output=True, timeout=20)
        assert ended.returncode == status and (ended.stdout + ended.stderr).strip(), (words, ended)


def names_are_looked_up():
    fake = Fake()
    gateway = Service("--upstream", "http://localhost:%d" % fake.port)
    same(gateway.transcode(100000001, 100000000, b"\x36"), wanted(100000001, b"\x36"))
    gateway.stop()
    nowhere = Service("--upstream", "http://no-such-host.invalid:%d" % fake.port, "--upstream-timeout", "5")
    same(nowhere.transcode(100000001, 100000000, b"\x36"), fault(50305, "upstream registry: not reached"))
    nowhere.stop()
    fake.process.kill()


def nginx(text):
    """Starts nginx with this in its http block; returns its process."""
    path = tempfile.mkdtemp(prefix="nginx-", dir=ROOM)
    with open(os.path.join(path, "nginx.conf"), "w") as file:
        file.write("daemon off; pid %s/pid; error_log %s/error.log; events { worker_connections 1024; }\n" % (path, path))
        file.write("http { access_log off; client_max_body_size 20m;\n")
        for name in ["client_body", "proxy", "fastcgi", "uwsgi", "scgi"]:
            file.write("%s_temp_path %s/%s;\n" % (name, path, name))
        file.write(text + "}\n")
    process = subprocess.Popen(["nginx", "-e", path + "/error.log", "-p", path, "-c", path + "/nginx.conf"], stdout=subprocess.DEVNULL, stderr=subprocess.DEVNULL)
    STARTED.append(process)
    return process


def three_gateways():
    """Three gateways beside one registry behind nginx: messages of 50 pairs, and one is killed midway."""
    fake, port = Fake(), free_port()
    gateways = [Service("--upstream", fake.url()) for _ in range(3)]
    servers = "".join("server 127.0.0.1:%d max_fails=1 fail_timeout=1s; " % gateway.port for gateway in gateways)
    balancer = nginx("upstream gateways { %s } server { listen 127.0.0.1:%d; location / { proxy_pass http://gateways;\n"
                     "proxy_next_upstream error timeout http_502 non_idempotent; } }\n" % (servers, port))
    wait_for(port)
    pairs = [(100000000 + 100 * (n // 10), 100000001 + 100 * (n % 10)) for n in range(50)]
    done, problems, lock = [0], [], threading.Lock()

    def client():
        while True:
            with lock:
                done[0] += 1
                number = done[0]
            if number > MESSAGES:
                return
            if number == MESSAGES // 2:
                gateways[1].process.send_signal(signal.SIGKILL)
            writer, reader = pairs[number % 50]
            payload = bytes([2 * (number % 60)])
            try:
                same(ask(port, "POST", "/transcode/%d" % reader, message(writer, payload)), wanted(reader, payload))
            except Exception as error:
                problems.append("message %d: %s" % (number, error))

    threads = [threading.Thread(target=client) for _ in range(CLIENTS)]
    for thread in threads:
        thread.start()
    for thread in threads:
        thread.join()
    assert not problems, "%d, as %s" % (len(problems), problems[0])
    balancer.terminate()
    for gateway in gateways:
        gateway.stop()
    fake.process.kill()
    return "%d messages" % MESSAGES


def upstream_with_tls():
    """nginx before an upstream with https, as docs/OPERATING.md has it."""
    fake, front, back = Fake(), free_port(), free_port()
    key, certificate = os.path.join(ROOM, "key.pem"), os.path.join(ROOM, "certificate.pem")
    subprocess.run(["openssl", "req", "-x509", "-newkey", "rsa:2048", "-nodes", "-days", "2", "-subj", "/CN=registry.example",
                    "-addext", "subjectAltName=DNS:registry.example", "-keyout", key, "-out", certificate], check=True, capture_output=True)
    secure = nginx("server { listen 127.0.0.1:%d ssl; server_name registry.example; ssl_certificate %s; ssl_certificate_key %s;\n"
                   "location / { proxy_pass http://127.0.0.1:%d; } }\n" % (back, certificate, key, fake.port))
    plain = nginx("server { listen 127.0.0.1:%d; location / { proxy_pass https://127.0.0.1:%d; proxy_ssl_server_name on;\n"
                  "proxy_ssl_name registry.example; proxy_ssl_verify on; proxy_ssl_trusted_certificate %s;\n"
                  "proxy_set_header Host registry.example; } }\n" % (front, back, certificate))
    wait_for(front)
    wait_for(back)
    gateway = Service("--upstream", "http://127.0.0.1:%d" % front)
    same(gateway.transcode(100000001, 100000000, b"\x36"), wanted(100000001, b"\x36"))
    same(gateway.ask("GET", "/schemas/ids/100000050"), UNKNOWN)
    gateway.stop()
    secure.terminate()
    plain.terminate()
    fake.process.kill()


def consumer_of_the_page():
    """The program of docs/CLIENTS.md, between two topics of a mock cluster."""
    from confluent_kafka import Consumer, Producer

    page = open(os.path.join(HERE, "..", "..", "docs", "CLIENTS.md")).read()
    code = re.search(r"```python\n(import urllib.request\nfrom confluent_kafka.*?)```", page, re.S).group(1)
    cluster = Producer({"test.mock.num.brokers": 3})
    brokers = ",".join("%s:%d" % (broker.host, broker.port) for broker in cluster.list_topics(timeout=20).brokers.values())
    fake = Fake()
    gateway = Service("--upstream", fake.url())
    sent = [message(100000000 + 2 * (number % 5), bytes([2 * (number % 60)])) for number in range(50)]
    for number, value in enumerate(sent):
        cluster.produce("orders", value, str(number))
    cluster.flush(20)
    names = {"BROKERS": brokers, "READER": 100000001, "GATEWAY": "http://127.0.0.1:%d" % gateway.port, "PATIENCE": 15}
    exec(compile(code, "docs/CLIENTS.md", "exec"), names)
    names["consumer"].close()
    reader = Consumer({"bootstrap.servers": brokers, "group.id": "check", "auto.offset.reset": "earliest"})
    reader.subscribe(["orders-v2"])
    found = {}
    while len(found) < len(sent) and (got := reader.poll(15)):
        found[int(got.key())] = got.value()
    reader.close()
    same(found, {number: wanted(100000001, value[5:])[1] for number, value in enumerate(sent)})
    gateway.stop()
    fake.process.kill()
    return "%d messages" % len(sent)


def main():
    checks = [
        (own_registry, "beside our own service: its ids, texts and messages"),
        (answers_of_all_kinds, "answers of all kinds, each id asked for once"),
        (ids_of_32_bits, "ids of 32 bits"),
        (first_schema_stays, "the first schema of an id stays"),
        (silent_ids, "100 requests that wait for silent ids"),
        (too_many_wait, "more ids than are asked for at once"),
        (flood_of_a_wrong_id, "a flood of wrong ids"),
        (upstream_away, "an upstream that is away, and comes back"),
        (kept_in_a_store, "a start with a store while the upstream is away"),
        (stores_of_others, "stores that are refused"),
        (killed_while_it_keeps, "killed while it keeps"),
        (store_that_is_full, "a store that may not grow"),
        (prefix_and_credentials, "a prefix, credentials and the log"),
        (bad_words, "words that are refused"),
        (names_are_looked_up, "names are looked up"),
        (three_gateways, "three gateways behind nginx, one killed midway"),
        (upstream_with_tls, "an upstream with TLS behind nginx"),
        (consumer_of_the_page, "the consumer of docs/CLIENTS.md"),
    ]
    for check, name in checks:
        tried(check, name)
    print("all were tried", flush=True)


try:
    main()
finally:
    for process in STARTED:
        with contextlib.suppress(OSError):
            # (nginx ends its workers at SIGTERM alone)
            process.terminate()
            try:
                process.wait(5)
            except subprocess.TimeoutExpired:
                process.kill()
    subprocess.run(["rm", "-rf", ROOM])
