"""The checks of tests/registry_lock.sh. Usage: registry_lock.py PROGRAM"""
import json, os, socket, statistics, subprocess, sys, threading, time

PROGRAM = sys.argv[1]
SHORT = bool(os.environ.get("SHORT"))
VERSIONS = 1_000 if SHORT else 4_095  # the registry has 4,096 ids, and the schema that is compared with them takes the next one
LENGTH = 11  # records of each of these versions
FEW = 32  # versions that the lengths are tried with
LENGTHS = [2, 3, 5, 7, 13, 29, 53, 89, 151]  # records of the schema that is registered, none a multiple of LENGTH
WANTED_SECONDS, LEAST_SECONDS, PATIENCE = 4 if SHORT else 8, 0.5, 1800
MOST_MEDIAN, MOST_WAIT = 0.05, 0.5  # the parts of the registration that requests may wait: other load makes both longer
IDLE_ROUNDS = 50


class Server:
    def __init__(self):
        self.process = subprocess.Popen([PROGRAM, "serve", "--port", "0", "--request-timeout", str(PATIENCE)], stdout=subprocess.PIPE)
        told = self.process.stdout.readline().split()
        assert told[:1] == [b"listening"], told
        self.port = int(told[1])

    def ask(self, method, path, body=b""):
        """The status and the body of the answer."""
        head = "%s %s HTTP/1.1\r\ncontent-length: %d\r\n\r\n" % (method, path, len(body))
        got = bytearray()
        with socket.create_connection(("127.0.0.1", self.port), timeout=PATIENCE) as connection:
            connection.sendall(head.encode() + body)
            while piece := connection.recv(1 << 16):
                got += piece
        head, _, rest = bytes(got).partition(b"\r\n\r\n")
        return int(head.split()[1]), rest

    def register(self, subject, schema):
        """The id that the registration is answered."""
        status, rest = self.ask("POST", "/subjects/%s/versions" % subject, json.dumps({"schema": schema}).encode())
        assert status == 200, (status, rest)
        return json.loads(rest)["id"]

    def set_level(self, subject, level):
        answer = self.ask("PUT", "/config/" + subject, json.dumps({"compatibility": level}).encode())
        assert answer == (200, json.dumps({"compatibility": level}, separators=(",", ":")).encode()), answer

    def close(self):
        self.process.kill()
        self.process.wait()


def cycle(length, doc=""):
    """A schema of `length` records of one unqualified name, each of which refers to the one before it, and the first to
    the last. Two of them read each other; where their lengths have no common divisor, each record of one meets each of
    the other."""

    def record(at, fields):
        return {"type": "record", "name": "R", "namespace": "n%d" % at, "fields": fields}

    def field(name, kind):
        return {"name": name, "type": ["null", kind], "default": None}

    inner = [field("a%d" % at, record(at, [field("x", "n%d.R" % (at - 1))])) for at in range(1, length)]
    return json.dumps(record(0, inner + [field("x", "n%d.R" % (length - 1))]) | {"doc": doc})


MESSAGE = b"\0" + (1).to_bytes(4, "big") + b"\0" * LENGTH  # of the schema of id 1: each field is null
REQUESTS = {
    "GET /config": (("GET", "/config"), (200, b'{"compatibilityLevel":"NONE"}')),
    "POST /transcode": (("POST", "/transcode/1", MESSAGE), (200, MESSAGE)),
    "a registration under another subject": (
        ("POST", "/subjects/other/versions", json.dumps({"schema": cycle(LENGTH, "0")}).encode()),
        (200, b'{"id":1}'),
    ),
}


def timed(server, request, want):
    start = time.monotonic()
    got = server.ask(*request)
    took = time.monotonic() - start
    assert got == want, got
    return took


def check(name, is_right, why):
    print("ok %s: %s" % (name, why) if is_right else "FAILED %s: %s" % (name, why), flush=True)


def fill(server):
    status, rest = server.ask("PUT", "/config", b'{"compatibility":"NONE"}')
    assert status == 200, rest
    for at in range(VERSIONS):
        assert server.register("s", cycle(LENGTH, str(at))) == at + 1
    for at in range(FEW):
        assert server.register("few", cycle(LENGTH, str(at))) == at + 1
    assert server.register("other", cycle(LENGTH, "0")) == 1


def slow_schema(server):
    """A schema that is compared with all versions in some seconds, on this machine and by this build."""
    server.set_level("few", "FULL_TRANSITIVE")
    for length in LENGTHS:
        schema = cycle(length)
        body = json.dumps({"schema": schema}).encode()
        start = time.monotonic()
        for version in range(1, FEW + 1):
            answer = server.ask("POST", "/compatibility/subjects/few/versions/%d" % version, body)
            assert answer == (200, b'{"is_compatible":true}'), answer
        compared = time.monotonic() - start
        start = time.monotonic()
        for _ in range(FEW):
            server.ask("POST", "/subjects/few", body)  # is parsed, and not compared
        if (compared - (time.monotonic() - start)) / FEW * VERSIONS > WANTED_SECONDS:
            break
    return schema


def while_registering(server):
    schema = slow_schema(server)
    server.set_level("s", "FULL_TRANSITIVE")
    idle = {name: statistics.median(timed(server, *REQUESTS[name]) for _ in range(IDLE_ROUNDS)) for name in REQUESTS}
    answers, times = [], {name: [] for name in REQUESTS}
    start = time.monotonic()

    def register():
        answers.append((server.register("s", schema), time.monotonic() - start))

    registration = threading.Thread(target=register)
    registration.start()
    while registration.is_alive():
        for name in REQUESTS:
            times[name].append(timed(server, *REQUESTS[name]))
    registration.join()
    check("the registration is answered the next id", [id for id, _ in answers] == [VERSIONS + 1], "%r" % answers)
    took = answers[0][1]
    check("it takes long enough to tell", took > LEAST_SECONDS, "%.1f s" % took)
    for name in REQUESTS:
        median, most = statistics.median(times[name]), max(times[name])
        figures = median * 1e3, len(times[name]), most * 1e3, idle[name] * 1e3
        why = "median %.1f ms of %d, at most %.1f ms; %.1f ms idle" % figures
        is_brief = median < MOST_MEDIAN * took and most < MOST_WAIT * took
        check(name + " is answered meanwhile", is_brief, why)


server = Server()
try:
    fill(server)
    while_registering(server)
    print("all were tried")
finally:
    server.close()
