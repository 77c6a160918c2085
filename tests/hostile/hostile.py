"""The checks of tests/hostile.sh. With HTTP11=1 in the environment connections stay open, and each request asks for the
end of its own. Usage: hostile.py PROGRAM"""
import json, os, random, re, resource, socket, subprocess, sys, threading, time

PROGRAM = sys.argv[1]
MODE = ["--http11"] if os.environ.get("HTTP11") else []
FIELDS = "host: h\r\nconnection: close\r\n" if MODE else ""
DATE = re.compile(rb"\r\ndate: [^\r]*GMT\r\n")
CLIENTS, ROUNDS = 64, 4 if os.environ.get("SHORT") else 12
IDLE_SECONDS, MOST_IDLE_SHARE = 5 if os.environ.get("SHORT") else 10, 0.05  # of processor time, which other load does not add to
SILENT, TRICKLING, UNREAD = (200, 50, 20) if os.environ.get("SHORT") else (1_000, 200, 50)
GOOD = 100  # requests that are timed beside these
UNLOGGED = 1_000  # requests whose lines are more than a pipe and the service hold
FEW_FILES = 128  # open files of a service that meets its limit
MOST_HELD = 4 * (128 + 84) << 20  # bytes of a service of 4 clients: those of waiting connections, and of the request that is served
PATIENCE = 300  # seconds for one answer
LONGS = 100_000  # items of a message that takes many turns


def number(n):
    n = (n << 1) ^ (n >> 63)
    out = bytearray()
    while n > 127:
        out.append(n & 127 | 128)
        n >>= 7
    return bytes(out) + bytes([n])


def text(s):
    data = s.encode()
    return number(len(data)) + data


def envelope(id, payload):
    return b"\0" + id.to_bytes(4, "big") + payload


def record(name, *fields):
    return json.dumps({"type": "record", "name": name, "fields": [dict(zip(("name", "type", "default"), f)) for f in fields]})


# the schemas of ids 1 to 4
SCHEMAS = [
    record("T", ("a", "long"), ("b", "string")),
    record("T", ("b", "string"), ("c", "int", 7)),
    json.dumps({"type": "array", "items": "int"}),
    json.dumps({"type": "array", "items": "long"}),
]


class Server:
    def __init__(self, *words, files=None, stderr=None):
        limit = None if files is None else (lambda: resource.setrlimit(resource.RLIMIT_NOFILE, (files, files)))
        self.process = subprocess.Popen([PROGRAM, "serve", "--port", "0", *MODE, *words], stdout=subprocess.PIPE, stderr=stderr, preexec_fn=limit)
        told = self.process.stdout.readline().split()
        assert told[:1] == [b"listening"], told
        self.port = int(told[1])

    def connect(self):
        return socket.create_connection(("127.0.0.1", self.port), timeout=PATIENCE)

    def processor_time(self):
        with open("/proc/%d/stat" % self.process.pid) as stat:
            return sum(map(int, stat.read().rsplit(")", 1)[1].split()[11:13])) / os.sysconf("SC_CLK_TCK")

    def most_memory(self):
        """The most bytes that were resident."""
        with open("/proc/%d/status" % self.process.pid) as status:
            return next(int(line.split()[1]) << 10 for line in status if line.startswith("VmHWM"))

    def exchange(self, data, pieces=1, pause=0.0, cut=False):
        """All bytes that come back before the server closes, to bytes that are sent in so many pieces."""
        got = bytearray()
        with self.connect() as connection:
            step = len(data) // pieces + 1
            for at in range(0, len(data), step):
                connection.sendall(data[at : at + step])
                time.sleep(pause)
            if cut:
                connection.shutdown(socket.SHUT_WR)
            while piece := connection.recv(1 << 20):
                got += piece
        return without_date(bytes(got))

    def close(self):
        self.process.kill()
        self.process.wait()


def without_date(got):
    """The bytes of an answer without the date of its head, which has one where connections stay open."""
    return DATE.sub(b"\r\n", got[:400], count=1) + got[400:] if MODE else got


def request(method, path, body=b""):
    return ("%s %s HTTP/1.1\r\n%scontent-length: %d\r\n\r\n" % (method, path, FIELDS, len(body))).encode() + body


STATUSES = {200: "OK", 400: "Bad Request", 404: "Not Found", 422: "Unprocessable Entity"}
JSON, BYTES = "application/vnd.schemaregistry.v1+json", "application/octet-stream"


def answer(status, kind, body):
    head = "HTTP/1.1 %d %s\r\ncontent-type: %s\r\ncontent-length: %d\r\nconnection: close\r\n\r\n"
    return (head % (status, STATUSES[status], kind, len(body))).encode() + body


def fault(status, code, message):
    return answer(status, JSON, ('{"error_code":%d,"message":"%s"}' % (code, message)).encode())


def messages(chance):
    """A request, how it is sent, and its answer."""
    a, b = chance.randrange(-(1 << 63), 1 << 63), "x" * chance.randrange(300)
    payload = number(a) + text(b)
    return request("POST", "/transcode/2", envelope(1, payload)), answer(200, BYTES, envelope(2, text(b) + number(7)))


def longs(seed):
    chance = random.Random(seed)
    return number(LONGS) + b"".join(number(chance.randrange(-(1 << 31), 1 << 31)) for _ in range(LONGS)) + b"\0"


LONG_PAYLOADS = [longs(seed) for seed in range(4)]  # made before, so that no client waits for them


def long_messages(chance):
    payload = chance.choice(LONG_PAYLOADS)
    return request("POST", "/transcode/4", envelope(3, payload)), answer(200, BYTES, envelope(4, payload))


def long_messages_and_more(chance):
    """Bytes after the body are no part of the request, and must not cost any of its answer."""
    bytes_, want = long_messages(chance)
    return bytes_ + chance.choice([b"\r\n", request("GET", "/config"), b"x" * 100_000]), want


def truncated(chance):
    payload = number(chance.randrange(1 << 40)) + number(5) + b"abc"
    return request("POST", "/transcode/2", envelope(1, payload)), fault(422, 42250, "malformed Truncated at %d" % len(payload))


def no_envelope(chance):
    return request("POST", "/transcode/2", b"\1\0\0\0\1\2\2"), fault(422, 42253, "bad envelope: BadMagic")


def no_schema(chance):
    return request("POST", "/transcode/9", envelope(1, b"\2\2x")), fault(404, 40403, "schema not found")


def cut_off(chance):
    whole, _ = messages(chance)
    return whole[:-1], fault(400, 400, "bad request")


def no_head(chance):
    return b"\0\r\n\r\n", fault(400, 400, "bad request")


ORDERLY = [messages, messages, messages, long_messages, long_messages_and_more, truncated, no_envelope, no_schema]
HOSTILE = ["slow", "cut", "malformed", "gone"]


wrong, done, lock = [], [0], threading.Lock()


def told(kind, got, want):
    with lock:
        done[0] += 1
        if got != want:
            wrong.append("%s: %d bytes, %.200r, wanted %d, %.200r" % (kind, len(got), got, len(want), want))


def orderly(server, seed):
    chance = random.Random(seed)
    for _ in range(ROUNDS):
        kind = chance.choice(ORDERLY)
        bytes_, want = kind(chance)
        told(kind.__name__, server.exchange(bytes_), want)


def hostile(server, seed):
    chance = random.Random(seed)
    for _ in range(ROUNDS):
        kind = chance.choice(HOSTILE)
        if kind == "slow":
            bytes_, want = messages(chance)
            told(kind, server.exchange(bytes_, pieces=chance.randrange(2, 30), pause=0.02), want)
        elif kind == "cut":
            bytes_, want = cut_off(chance)
            told(kind, server.exchange(bytes_, cut=True), want)
        elif kind == "malformed":
            bytes_, want = no_head(chance)
            told(kind, server.exchange(bytes_), want)
        else:
            bytes_, _ = chance.choice([messages, long_messages])(chance)
            with server.connect() as connection:
                connection.sendall(bytes_[: chance.randrange(1, len(bytes_))])


def guarded(call, *words):
    """A reset is an exception, and so it is told."""
    try:
        call(*words)
    except Exception as error:
        with lock:
            wrong.append("%s: %r" % (call.__name__, error))


def register(server):
    for at, schema in enumerate(SCHEMAS):
        got = server.exchange(request("POST", "/subjects/s%d/versions" % at, json.dumps({"schema": schema}).encode()))
        assert got.endswith(b'{"id":%d}' % (at + 1)), got


def check(name, is_right, why=""):
    name = "with connections that stay: " * bool(MODE) + name
    print("ok " + name if is_right else "FAILED %s: %s" % (name, why), flush=True)


def at_once(name, *words):
    server = Server("--request-timeout", str(10 * PATIENCE), *words)
    try:
        register(server)
        wrong.clear()
        done[0] = 0
        threads = [threading.Thread(target=guarded, args=(hostile if at % 3 == 0 else orderly, server, at)) for at in range(CLIENTS)]
        for thread in threads:
            thread.start()
        for thread in threads:
            thread.join()
        check("%s: %d answers to %d clients at once are those that were computed" % (name, done[0], CLIENTS), not wrong, "; ".join(wrong[:5]))
        check("%s: the server still runs" % name, server.process.poll() is None, server.process.poll())
        time.sleep(1)
        idle(server, "%s: after all of them" % name)
    finally:
        server.close()


def idle(server, name):
    before = server.processor_time()
    time.sleep(IDLE_SECONDS)
    share = (server.processor_time() - before) / IDLE_SECONDS
    check("%s an idle service takes under %.0f %% of a processor" % (name, MOST_IDLE_SHARE * 100), share < MOST_IDLE_SHARE, "%.2f %%" % (share * 100))


def good_ones(server, count):
    """How many of so many requests are answered rightly, and the seconds of each."""
    chance = random.Random(1)
    right, times = 0, []
    for _ in range(count):
        bytes_, want = messages(chance)
        begin = time.monotonic()
        right += server.exchange(bytes_) == want
        times.append(time.monotonic() - begin)
    return right, sorted(times)


def told_times(times):
    return "median %.1f ms, worst %.1f ms" % (times[len(times) // 2] * 1e3, times[-1] * 1e3)


def trickle(server, stop):
    """Sends requests a byte at a time, one after another, and compares their answers."""
    chance = random.Random(3)
    while not stop.is_set():
        bytes_, want = messages(chance)
        with server.connect() as connection:
            for at in range(len(bytes_)):
                connection.sendall(bytes_[at : at + 1])
                if stop.wait(0.005):  # a request takes two seconds at most, of the ten that it may
                    return
            got = b""
            while piece := connection.recv(1 << 16):
                got += piece
        told("trickling", without_date(got), want)


def crowd():
    """Default options: silent ones, trickling ones, ones that read nothing, cut and malformed ones."""
    server = Server()
    stop = threading.Event()
    wrong.clear()
    try:
        register(server)
        held = [server.connect() for _ in range(SILENT)]
        for _ in range(UNREAD):
            held.append(server.connect())
            held[-1].sendall(long_messages(random.Random(5))[0])
        threads = [threading.Thread(target=guarded, args=(trickle, server, stop)) for _ in range(TRICKLING)]
        threads += [threading.Thread(target=guarded, args=(hostile, server, at)) for at in range(8)]
        for thread in threads:
            thread.start()
        right, times = good_ones(server, GOOD)
        stop.set()
        for thread in threads:
            thread.join()
        name = "%d good requests beside %d silent, %d trickling, %d unread and 8 hostile clients: %s"
        check(name % (GOOD, SILENT, TRICKLING, UNREAD, told_times(times)), right == GOOD and not wrong, "%d right; %s" % (right, "; ".join(wrong[:5])))
        most = server.most_memory()
        check("the service took %d MiB at most, within its bound" % (most >> 20), most < MOST_HELD, most)
        for connection in held:
            connection.close()
    finally:
        stop.set()
        server.close()


def flood():
    """Clients that send without end after their request, more than there are threads: good requests are answered beside."""
    server = Server()
    stop = threading.Event()
    wrong.clear()

    def pour():
        while not stop.is_set():
            try:
                with server.connect() as connection:
                    connection.sendall(request("GET", "/nothing"))
                    while not stop.is_set():
                        connection.sendall(b"x" * (1 << 20))
            except OSError:
                pass  # it is closed after its two seconds

    try:
        register(server)
        threads = [threading.Thread(target=pour) for _ in range(16)]
        for thread in threads:
            thread.start()
        time.sleep(0.5)
        right, times = good_ones(server, GOOD)
        check("%d good requests beside 16 clients that send without end: %s" % (GOOD, told_times(times)), right == GOOD, "%d right" % right)
    finally:
        stop.set()
        server.close()
        for thread in threads:
            thread.join()


def late_ones_are_closed():
    """A head, a body and an answer that take longer than their time."""
    server = Server("--head-timeout", "1", "--request-timeout", "3")
    try:
        register(server)
        whole, _ = messages(random.Random(7))
        for name, start, least in ("head", whole[:9], 0.9), ("body", whole[:-1], 2.9):
            begin = time.monotonic()
            with server.connect() as connection:
                connection.sendall(start)
                got = connection.recv(1 << 16)
            took = time.monotonic() - begin
            check("a %s that does not come is closed after its time: %.1f s" % (name, took), got == b"" and took > least, "%r" % got[:100])
    finally:
        server.close()


def no_more_files():
    """More silent connections than a service may have open files: the oldest go, and good requests are answered."""
    server = Server("--head-timeout", str(10 * PATIENCE), "--request-timeout", str(10 * PATIENCE), files=FEW_FILES)
    try:
        register(server)
        held = [server.connect() for _ in range(2 * FEW_FILES)]
        right, times = good_ones(server, GOOD)
        check("%d silent connections to a service of %d open files: %s" % (2 * FEW_FILES, FEW_FILES, told_times(times)), right == GOOD, "%d right" % right)
        for connection in held:
            connection.close()
    finally:
        server.close()


def log_of(lines):
    """How many answers these lines tell, and how many they say were dropped; None where one of them is neither."""
    told_ones = dropped = 0
    for line in lines:
        words = line.split()
        if len(words) == 2 and words[0] == b"dropped":
            dropped += int(words[1])
        elif len(words) == 6 and words[0] in (b"GET", b"POST", b"-") and all(word.isdigit() for word in words[2:]):
            told_ones += 1
        else:
            return None
    return told_ones, dropped


def log_holds_up_nobody():
    """A log that nobody reads: requests are answered, and what was not written is counted."""
    server = Server("--clients", "1", "--log", stderr=subprocess.PIPE)
    path = "/" + "x" * 255
    want = fault(404, 404, "no such route")
    try:
        register(server)
        right = sum(server.exchange(request("GET", path)) == want for _ in range(UNLOGGED))
        check("%d requests to a service whose log nobody reads" % UNLOGGED, right == UNLOGGED, "%d right" % right)
        lines = []
        reader = threading.Thread(target=lambda: lines.extend(server.process.stderr))
        reader.start()
        time.sleep(1)
        right = sum(server.exchange(request("GET", path + "?query")) == want for _ in range(10))
        time.sleep(1)
        server.close()
        reader.join()
        told_all = log_of(lines)
        asked = len(SCHEMAS) + UNLOGGED + 10
        check("the log tells each answer, or counts it as dropped: %s" % (told_all,), right == 10 and told_all is not None and sum(told_all) == asked and told_all[1] > 0, "%d asked" % asked)
    finally:
        server.close()


def large_at_once():
    """Bodies of a MiB from 16 clients at once."""
    server = Server("--request-timeout", str(10 * PATIENCE))
    wrong.clear()
    payload = number(1) + text("x" * (1 << 20))
    want = answer(200, BYTES, envelope(2, text("x" * (1 << 20)) + number(7)))

    def ask():
        for _ in range(ROUNDS):
            told("1 MiB", server.exchange(request("POST", "/transcode/2", envelope(1, payload))), want)

    try:
        register(server)
        threads = [threading.Thread(target=guarded, args=(ask,)) for _ in range(16)]
        for thread in threads:
            thread.start()
        for thread in threads:
            thread.join()
        check("messages of 1 MiB from 16 clients at once", not wrong, "; ".join(wrong[:5]))
    finally:
        server.close()


def bytes_behind():
    """What comes after a request costs none of its answer, whatever that is, and nobody is reset."""
    server = Server()
    wrong.clear()
    try:
        register(server)
        long_request, long_answer = long_messages(random.Random(9))
        kinds = [
            (request("GET", "/subjects/none/versions"), fault(404, 40401, "subject not found")),
            (request("GET", "/nothing"), fault(404, 404, "no such route")),
            (request("DELETE", "/subjects"), None),
            (b"POST /transcode/2 HTTP/1.1\r\ncontent-length: 99999999\r\n\r\n", None),
            (long_request, long_answer),
            no_head(None),
            no_envelope(None),
        ]
        for bytes_, want in kinds:
            for behind in b"", b"\r\n", request("GET", "/config"), b"x" * 100_000, b"x" * 3_000_000:
                got = server.exchange(bytes_ + behind, pieces=3, pause=0.01)
                told("behind", got, got if want is None and got.startswith(b"HTTP/1.1 4") else want)
        check("%d answers to requests with bytes behind them are whole" % (5 * len(kinds)), not wrong, "; ".join(wrong[:5]))
    except Exception as error:
        check("answers to requests with bytes behind them", False, repr(error))
    finally:
        server.close()


soft, hard = resource.getrlimit(resource.RLIMIT_NOFILE)
resource.setrlimit(resource.RLIMIT_NOFILE, (min(hard, 16_384) if hard > 0 else 16_384, hard))
at_once("4 clients and 4 workers", "--clients", "4", "--workers", "4")
at_once("4 clients and 1 worker", "--clients", "4", "--workers", "1")
at_once("1 client and 4 workers", "--clients", "1", "--workers", "4")
crowd()
flood()
late_ones_are_closed()
no_more_files()
log_holds_up_nobody()
large_at_once()
bytes_behind()
print("all were tried")
