"""The checks of tests/http11.sh. Usage: http11.py PROGRAM"""
import contextlib, http.client, json, os, random, re, resource, signal, socket, subprocess, sys, tempfile, threading, time

PROGRAM, HERE = sys.argv[1], os.path.dirname(os.path.abspath(__file__))
SHORT = bool(os.environ.get("SHORT"))
SECONDS = 10 if SHORT else 60  # of wrk
PIPELINED = 1_000
MOST = 16_777_221  # bytes of a content
ROOM = tempfile.mkdtemp(prefix="http11-")
STARTED = []
random.seed(int(os.environ.get("SEED", "72")))
DATE = re.compile(rb"date: [A-Z][a-z]{2}, \d\d [A-Z][a-z]{2} \d{4} \d\d:\d\d:\d\d GMT\r\n")
DATE_SIZE = len(b"date: Thu, 01 Jan 2026 00:00:00 GMT\r\n")


def say(name, problem=None):
    print("ok " + name if not problem else "FAILED %s: %s" % (name, problem), flush=True)


def tried(check, name):
    """Does a check, which returns what it has to add to its name, and says what came of it."""
    try:
        more = check()
        say(name + (": " + more if more else ""))
    except Exception as error:  # a check that ends by any fault has failed
        say(name, "%s %s" % (type(error).__name__, str(error)[:300]))


def same(found, wanted):
    assert found == wanted, "%.300r, and not %.300r" % (found, wanted)


def number(n):
    n = (n << 1) ^ (n >> 63)
    out = bytearray()
    while n > 127:
        out.append(n & 127 | 128)
        n >>= 7
    return bytes(out) + bytes([n])


def text(data):
    return number(len(data)) + data


def message(id, payload):
    return b"\0" + id.to_bytes(4, "big") + payload


# the schemas of ids 1 to 4
SCHEMAS = ['"int"', '"long"', '"bytes"', '["null","bytes"]']


class Service:
    """`avrogate serve --http11`, which has the schemas."""

    def __init__(self, *words, log=None, empty=False):
        self.stderr = open(log, "w") if log else subprocess.DEVNULL
        self.process = subprocess.Popen([PROGRAM, "serve", "--port", "0", *words], stdout=subprocess.PIPE, stderr=self.stderr)
        STARTED.append(self.process)
        line = self.process.stdout.readline().split()
        assert line[:1] == [b"listening"], line
        self.port = int(line[1])
        for count, schema in enumerate([] if empty else SCHEMAS):
            status, told = self.ask("POST", "/subjects/s%d/versions" % count, json.dumps({"schema": schema}))
            same((status, told), (200, {"id": count + 1}))

    def connect(self, timeout=60):
        return socket.create_connection(("127.0.0.1", self.port), timeout=timeout)

    def ask(self, method, path, body=None, timeout=60):
        connection = http.client.HTTPConnection("127.0.0.1", self.port, timeout=timeout)
        try:
            connection.request(method, path, body)
            answer = connection.getresponse()
            data = answer.read()
        finally:
            connection.close()
        with contextlib.suppress(ValueError):
            return answer.status, json.loads(data)
        return answer.status, data

    def all_of(self, data, cut=False, timeout=60):
        """All bytes that come back to some bytes until the service closes, without their dates."""
        with self.connect(timeout) as connection:
            connection.sendall(data)
            if cut:
                connection.shutdown(socket.SHUT_WR)
            return read_all(connection)

    def memory(self):
        """The number of bytes that are resident."""
        with open("/proc/%d/status" % self.process.pid) as status:
            return next(int(line.split()[1]) << 10 for line in status if line.startswith("VmRSS"))

    def stop(self):
        self.process.kill()
        self.process.wait()


def read_all(connection):
    got = bytearray()
    with contextlib.suppress(ConnectionResetError):
        while piece := connection.recv(1 << 20):
            got += piece
    return DATE.sub(b"", bytes(got))


REASONS = {200: "OK", 400: "Bad Request", 404: "Not Found", 405: "Method Not Allowed", 413: "Payload Too Large", 422: "Unprocessable Entity", 501: "Not Implemented"}
JSON, BYTES = "application/vnd.schemaregistry.v1+json", "application/octet-stream"


def answer(status, kind, body, last=False):
    head = "HTTP/1.1 %d %s\r\ncontent-type: %s\r\ncontent-length: %d\r\n%s\r\n"
    return (head % (status, REASONS[status], kind, len(body), "connection: close\r\n" if last else "")).encode() + body


def fault(status, code, told, last=True):
    return answer(status, JSON, ('{"error_code":%d,"message":"%s"}' % (code, told)).encode(), last)


def request(method, path, body=b"", *fields):
    head = "%s %s HTTP/1.1\r\nhost: h\r\n%s" % (method, path, "".join(field + "\r\n" for field in fields))
    return (head + ("content-length: %d\r\n\r\n" % len(body) if body else "\r\n")).encode() + body


def in_chunks(method, path, body, size, *fields, rest=b""):
    head = "%s %s HTTP/1.1\r\nhost: h\r\ntransfer-encoding: chunked\r\n%s\r\n" % (method, path, "".join(field + "\r\n" for field in fields))
    out = [head.encode()]
    for at in range(0, len(body), size):
        piece = body[at:at + size]
        out.append(b"%x\r\n%s\r\n" % (len(piece), piece))
    return b"".join(out) + b"0\r\n" + rest + b"\r\n"


def numbered(n, last=False):
    """A request of a number's message, and its answer."""
    body, fields = message(1, number(n)), ["connection: close"] if last else []
    made = in_chunks("POST", "/transcode/2", body, random.randint(1, 9), *fields) if n % 3 == 0 else request("POST", "/transcode/2", body, *fields)
    return made, answer(200, BYTES, message(2, number(n)), last)


def one_after_another():
    """Several requests over one connection, the peer waiting for each answer, of each kind of content."""
    connection = http.client.HTTPConnection("127.0.0.1", SERVICE.port, timeout=60)
    connection.connect()
    port = connection.sock.getsockname()
    for n in range(200):
        if n % 4 == 3:
            connection.request("POST", "/transcode/2", iter([message(1, number(n))[:4], message(1, number(n))[4:]]), encode_chunked=True)
        else:
            connection.request("POST", "/transcode/2", message(1, number(n)))
        found = connection.getresponse()
        same((found.status, found.read()), (200, message(2, number(n))))
        same(found.getheader("connection"), None)
        assert DATE.match(("date: %s\r\n" % found.getheader("date")).encode()), found.getheader("date")
        same(connection.sock and connection.sock.getsockname(), port)
        if n % 10 == 0:
            connection.request("GET", "/schemas/ids/9")
            found = connection.getresponse()
            same((found.status, found.read()), (404, b'{"error_code":40403,"message":"schema not found"}'))
    connection.close()


def without_waiting():
    """1,000 requests that do not wait for answers, in parts that end anywhere."""
    made = [numbered(n, n == PIPELINED - 1) for n in range(PIPELINED)]
    data, want = b"".join(m[0] for m in made), b"".join(m[1] for m in made)
    same(SERVICE.all_of(data), want)
    with SERVICE.connect() as connection:
        def send():
            at = 0
            while at < len(data):
                step = random.randint(1, 5_000)
                connection.sendall(data[at:at + step])
                at += step
        sender = threading.Thread(target=send)
        sender.start()
        same(read_all(connection), want)
        sender.join()


def a_byte_at_a_time():
    made = [numbered(n, n == 5) for n in range(6)]
    data = b"".join(m[0] for m in made)
    with SERVICE.connect() as connection:
        connection.setsockopt(socket.IPPROTO_TCP, socket.TCP_NODELAY, 1)
        for byte in data:
            connection.sendall(bytes([byte]))
        same(read_all(connection), b"".join(m[1] for m in made))


def cut_anywhere():
    """Two requests, of which the second is cut at each byte: the first is answered, the second refused."""
    first, want = numbered(1)
    second = request("POST", "/transcode/2", message(1, number(2)))
    for cut in range(0, len(second), 1 if not SHORT else 7):
        refusal = fault(400, 400, "bad request") if cut else b""
        same(SERVICE.all_of(first + second[:cut], cut=True), want + refusal)


def careless_readings():
    """Texts of which a careless server makes two requests of one, or one of two."""
    inner = request("GET", "/subjects")
    one = request("POST", "/transcode/4", message(3, text(inner)), "connection: close")
    same(SERVICE.all_of(one), answer(200, BYTES, message(4, number(1) + text(inner)), True))
    chunked = in_chunks("POST", "/transcode/4", message(3, text(inner)), 5, "connection: close")
    same(SERVICE.all_of(chunked), answer(200, BYTES, message(4, number(1) + text(inner)), True))
    bad = fault(400, 400, "bad request")
    good, want = numbered(1)
    both = b"POST /transcode/2 HTTP/1.1\r\nhost: h\r\ncontent-length: 6\r\ntransfer-encoding: chunked\r\n\r\n0\r\n\r\n" + good
    for refused in [
        both,
        b"POST /transcode/2 HTTP/1.1\r\nhost: h\r\ncontent-length: 6\r\ncontent-length: 7\r\n\r\n" + message(1, b"\2") + b"G",
        b"POST /transcode/2 HTTP/1.1\r\nhost: h\r\ncontent-length: +6\r\n\r\n" + message(1, b"\2"),
        b"POST /transcode/2 HTTP/1.1\r\nhost: h\r\ntransfer-encoding: chunked\r\n\r\n+6\r\n" + message(1, b"\2") + b"\r\n0\r\n\r\n",
        b"POST /transcode/2 HTTP/1.1\r\nhost: h\r\ntransfer-encoding: chunked\r\n\r\n0x6\r\n" + message(1, b"\2") + b"\r\n0\r\n\r\n",
        b"POST /transcode/2 HTTP/1.1\r\nhost: h\r\ntransfer-encoding: chunked\r\n\r\n6\r\n" + message(1, b"\2") + b"xx0\r\n\r\n",
        b"POST /transcode/2 HTTP/1.1\r\nhost: h\r\ntransfer-encoding: chunked\r\n\r\n6\n" + message(1, b"\2") + b"\n0\n\n",
        b"GET /subjects HTTP/1.1\nhost: h\n\n",
        b"GET /subjects HTTP/1.1\r\n\r\n",
        b"GET /subjects HTTP/1.1\r\nhost: a\r\nhost: b\r\n\r\n",
        b"GET /subjects HTTP/1.1\r\nhost : h\r\n\r\n",
        b"GET  /subjects HTTP/1.1\r\nhost: h\r\n\r\n",
        b"GET /subjects HTTP/1.1\r\nhost: h\r\n x: y\r\n\r\n",
        b"GET /subjects HTTP/2.0\r\nhost: h\r\n\r\n",
        b"\x16\x03\x01\x02\0\1\0\1\xfc\x03\x03\r\n\r\n",
    ]:
        same((refused[:60], SERVICE.all_of(good + refused + good, cut=True)), (refused[:60], want + bad))
    coded = b"POST /transcode/2 HTTP/1.1\r\nhost: h\r\ntransfer-encoding: gzip, chunked\r\n\r\n"
    same(SERVICE.all_of(good + coded + good), want + fault(501, 501, "unknown transfer coding"))
    trailers = in_chunks("POST", "/transcode/2", message(1, number(7)), 3, "connection: close", rest=b"x-check: 1\r\ncontent-length: 99\r\n")
    same(SERVICE.all_of(trailers), answer(200, BYTES, message(2, number(7)), True))
    hosts = request("POST", "/subjects/none/versions", b'{"schema":"\\"int\\""}').replace(b"host: h\r\n", b"host: a b\r\n")
    assert SERVICE.all_of(hosts).startswith(b"HTTP/1.1 400 Bad Request\r\n")
    same(SERVICE.ask("GET", "/subjects/none/versions")[0], 404)


def refusals_by_the_head():
    """What the head alone decides is answered before the content, which is not asked for."""
    waits = "expect: 100-continue"
    for head, want in [
        ("POST /nowhere HTTP/1.1\r\nhost: h\r\ncontent-length: 100\r\n%s\r\n\r\n" % waits, fault(404, 404, "no such route")),
        ("DELETE /subjects HTTP/1.1\r\nhost: h\r\ncontent-length: 100\r\n%s\r\n\r\n" % waits, fault(405, 405, "method not allowed")),
        ("POST /transcode/2 HTTP/1.1\r\nhost: h\r\ncontent-length: %d\r\n%s\r\n\r\n" % (MOST + 1, waits), fault(413, 41301, "too large")),
        ("POST /transcode/2 HTTP/1.1\r\nhost: h\r\ncontent-length: 99999999999999999999\r\n%s\r\n\r\n" % waits, None),
    ]:
        found = SERVICE.all_of(head.encode())
        assert found == want or (want is None and found[9:12] in (b"400", b"413")), found
    head = SERVICE.all_of(b"HEAD /subjects HTTP/1.1\r\nhost: h\r\n\r\n")
    same(head, fault(405, 405, "method not allowed").split(b"\r\n\r\n")[0] + b"\r\n\r\n")


def asked_for_content():
    with SERVICE.connect() as connection:
        body = message(1, number(77))
        connection.sendall(b"POST /transcode/2 HTTP/1.1\r\nhost: h\r\ncontent-length: %d\r\nexpect: 100-continue\r\n\r\n" % len(body))
        same(connection.recv(1_000), b"HTTP/1.1 100 Continue\r\n\r\n")
        connection.sendall(body + numbered(78, True)[0])
        same(read_all(connection), answer(200, BYTES, message(2, number(77))) + numbered(78, True)[1])


def limits_of_contents():
    """The longest content by a length and in chunks; one byte more is refused as soon as it has come."""
    longest = message(3, text(b"x" * (MOST - 5 - 4)))
    same(len(longest), MOST)
    want = answer(200, BYTES, message(4, number(1) + longest[5:]), True)
    too_long = fault(422, 42252, "output too large", True)
    for made in [request("POST", "/transcode/4", longest, "connection: close"), in_chunks("POST", "/transcode/4", longest, 1 << 16, "connection: close")]:
        found = SERVICE.all_of(made, timeout=300)
        assert found in (want, too_long), found[:200]
    same_id = SERVICE.all_of(in_chunks("POST", "/transcode/3", longest, 70_001, "connection: close"), timeout=300)
    same(same_id == answer(200, BYTES, longest, True), True)
    data = in_chunks("POST", "/transcode/4", longest + b"y", 1 << 20)[:-7]
    same(SERVICE.all_of(data, timeout=300), fault(413, 41301, "too large"))


def versions_and_wishes():
    """HTTP/1.0 with and without `keep-alive`, and `close`."""
    get = b"GET /config HTTP/1.0\r\n"
    body = b'{"compatibilityLevel":"BACKWARD"}'
    assert SERVICE.all_of(get + b"\r\n" + get + b"\r\n").count(body) == 1
    kept = SERVICE.all_of(get + b"connection: keep-alive\r\n\r\n" + get + b"\r\n")
    assert kept.count(body) == 2 and b"connection: keep-alive" in kept, kept
    closed = SERVICE.all_of(request("GET", "/config", b"", "connection: close") + request("GET", "/config"))
    same(closed, answer(200, JSON, body, True))


def silent_peers():
    """A connection that is idle for longer than it may is closed; one that asks in time stays."""
    service = Service("--http11", "--idle-timeout", "2", "--head-timeout", "3", "--request-timeout", "3")
    get, want = request("GET", "/config"), answer(200, JSON, b'{"compatibilityLevel":"BACKWARD"}')
    with service.connect() as idle, service.connect() as busy, service.connect() as half, service.connect() as stalled:
        begin = time.monotonic()
        for connection in (idle, busy, half, stalled):
            connection.sendall(get)
        half.sendall(get[:20])
        stalled.sendall(b"POST /transcode/2 HTTP/1.1\r\nhost: h\r\ncontent-length: 100\r\n\r\nabc")
        ends = {}

        def wait(name, connection):
            same(read_all(connection), want)
            ends[name] = time.monotonic() - begin

        threads = [threading.Thread(target=wait, args=item) for item in (("idle", idle), ("half", half), ("stalled", stalled))]
        for thread in threads:
            thread.start()
        got = DATE.sub(b"", busy.recv(1_000))
        for _ in range(8):
            time.sleep(0.5)
            busy.sendall(get)
            got += DATE.sub(b"", busy.recv(1_000))
        same(got, want * 9)
        for thread in threads:
            thread.join()
    assert 1.5 < ends["idle"] < 3 + 20 and 2.5 < ends["half"] < 23 and 2.5 < ends["stalled"] < 23, ends
    service.stop()


def more_connections_than_may_be():
    """Where as many are open as may be, idle ones make way, the oldest first; the others go on."""
    service = Service("--http11", "--clients", "1", "--connections", "8")
    get, want = request("GET", "/config"), answer(200, JSON, b'{"compatibilityLevel":"BACKWARD"}')
    working = [service.connect() for _ in range(4)]
    for connection in working:
        connection.sendall(b"POST /transcode/2 HTTP/1.1\r\nhost: h\r\ncontent-length: 6\r\n\r\nabc")
    for _ in range(40):
        with service.connect() as connection:
            connection.sendall(get)
            same(DATE.sub(b"", connection.recv(1_000)), want)
            idle = [service.connect() for _ in range(2)]
            for other in idle:
                other.sendall(get)
                same(DATE.sub(b"", other.recv(1_000)), want)
    for connection in working:
        connection.sendall(b"def")
        assert b"42253" in connection.recv(1_000)
    service.stop()


def memory_of_idle_connections():
    """Connections over which a large message went hold no more than others once they are idle."""
    service = Service("--http11", "--clients", "1", "--idle-timeout", "600")
    connections, large = [], message(3, text(b"x" * 4_000_000))
    made, want = request("POST", "/transcode/3", large), answer(200, BYTES, large)
    for _ in range(32):
        connection = service.connect(300)
        connection.sendall(made)
        got = bytearray()
        while len(got) < len(want) + DATE_SIZE:
            got += connection.recv(1 << 20)
        same(DATE.sub(b"", bytes(got)) == want, True)
        connections.append(connection)
    held = service.memory()
    for connection in connections:
        connection.sendall(request("GET", "/config"))
        assert connection.recv(1_000).startswith(b"HTTP/1.1 200 OK\r\n")
        connection.close()
    service.stop()
    assert held < 100 << 20, held
    return "%d MiB with 32 idle connections, over each of which 4 MB came and went" % (held >> 20)


def chunks_of_a_byte():
    """A content of a MiB in chunks of a byte, beside good requests."""
    body = message(3, text(b"z" * 1_000_000))
    data = in_chunks("POST", "/transcode/3", body, 1, "connection: close")
    before = SERVICE.memory()
    same(SERVICE.all_of(data, timeout=300) == answer(200, BYTES, body, True), True)
    taken = SERVICE.memory() - before
    assert taken < 64 << 20, taken
    return "%d KiB" % (taken >> 10)


def curl(*words, body=None):
    made = subprocess.run(["curl", "-sS", "--max-time", "60", "-w", "\n%{http_code} %{num_connects} %{time_total}", *words], input=body, stdout=subprocess.PIPE, stderr=subprocess.PIPE)
    data, told = made.stdout.rsplit(b"\n", 1)
    status, connects, seconds = told.split()
    return int(status), data, int(connects), float(seconds)


def by_curl():
    large = message(3, text(b"c" * 2_000_000))
    url = "http://127.0.0.1:%d/transcode/3" % SERVICE.port
    begin = time.monotonic()
    for words in [("-X", "POST", "-T", "-"), ("--data-binary", "@-"), ("--data-binary", "@-", "-H", "Expect: 100-continue"), ("--data-binary", "@-", "-H", "Transfer-Encoding: chunked"), ("--http1.0", "--data-binary", "@-")]:
        status, data, _, _ = curl("-H", "content-type: application/octet-stream", *words, url, body=large)
        same((words, status, data == large), (words, 200, True))
    config = "http://127.0.0.1:%d/config" % SERVICE.port
    found = subprocess.run(["curl", "-sS", "-w", "%{num_connects}\n", "-o", os.path.join(ROOM, "one"), config, "-o", os.path.join(ROOM, "two"), config], stdout=subprocess.PIPE).stdout.split()
    same(found, [b"1", b"0"])
    return "five ways of 2 MB in %.1f s" % (time.monotonic() - begin)


def by_requests():
    import requests
    with requests.Session() as session:
        for n in range(100):
            content = message(1, number(n))
            found = session.post("http://127.0.0.1:%d/transcode/2" % SERVICE.port, data=content if n % 2 else iter([content[:3], content[3:]]))
            same((found.status_code, found.content), (200, message(2, number(n))))


def by_program(*words):
    made = subprocess.run([*words, str(SERVICE.port)], stdout=subprocess.PIPE, stderr=subprocess.STDOUT, timeout=300, cwd=ROOM, env=dict(os.environ, GO111MODULE="off", GOCACHE=os.path.join(ROOM, "cache")))
    lines = made.stdout.decode().splitlines()
    assert made.returncode == 0 and not [line for line in lines if "problem" in line], lines[:5]
    return lines[-1]


def by_go():
    told = by_program("go", "run", os.path.join(HERE, "client.go"))
    assert int(told.split()[1]) > 700, told
    return told + " of 800"


def by_node():
    told = by_program("node", os.path.join(HERE, "client.js"))
    assert int(told.split()[1]) > 150, told
    return told + " of 200"


def by_java():
    told = by_program("java", os.path.join(HERE, "Client.java"))
    same(told, "good 200")
    return told


def free_port():
    with socket.socket() as listener:
        listener.bind(("127.0.0.1", 0))
        return listener.getsockname()[1]


def nginx(ports):
    """nginx with a pool of connections to the service. Returns its port."""
    port = free_port()
    room = tempfile.mkdtemp(dir=ROOM)
    conf = os.path.join(room, "nginx.conf")
    servers = " ".join("server 127.0.0.1:%d;" % p for p in ports)
    open(conf, "w").write("""daemon off; worker_processes 2; pid %s/pid; error_log stderr crit;
events { worker_connections 512; }
http {
  access_log off; client_body_temp_path %s/body; proxy_temp_path %s/proxy; fastcgi_temp_path %s/f; uwsgi_temp_path %s/u; scgi_temp_path %s/s;
  upstream gateway { %s keepalive 16; }
  server {
    listen 127.0.0.1:%d;
    client_max_body_size 32m;
    location / { proxy_pass http://gateway; proxy_http_version 1.1; proxy_set_header Connection ""; }
  }
}
""" % (room, room, room, room, room, room, servers, port))
    STARTED.append(subprocess.Popen(["nginx", "-p", room, "-e", "stderr", "-c", conf], stdout=subprocess.DEVNULL, stderr=subprocess.DEVNULL))
    end = time.monotonic() + 20
    while time.monotonic() < end:
        with contextlib.suppress(OSError):
            socket.create_connection(("127.0.0.1", port), 1).close()
            return port
        time.sleep(0.05)
    raise AssertionError("nginx does not listen")


def connections_of(port):
    """How many connections of this machine are open to a port."""
    with open("/proc/net/tcp") as table:
        rows = [line.split() for line in table.readlines()[1:]]
    return sum(1 for row in rows if row[2].endswith(":%04X" % port) and row[3] == "01")


def careless_peers(port, stop, problems):
    """Peers that cut, stall, send a byte at a time and send 1,000 requests without waiting, until they are stopped."""
    made = [numbered(n, n == PIPELINED - 1) for n in range(PIPELINED)]
    data, want = b"".join(m[0] for m in made), b"".join(m[1] for m in made)

    def until(peer):
        while not stop.is_set():
            try:
                peer()
            except Exception as error:
                problems.append("%s: %s" % (peer.__name__, error))
                return

    def cuts():
        with socket.create_connection(("127.0.0.1", port), 60) as connection:
            connection.sendall(data[:random.randint(1, 3_000)])

    def stalls():
        with socket.create_connection(("127.0.0.1", port), 60) as connection:
            connection.sendall(data[:random.randint(1, 3_000)])
            stop.wait(2)

    def trickles():
        with socket.create_connection(("127.0.0.1", port), 60) as connection:
            one, answer_ = numbered(4, True)
            for byte in one:
                connection.sendall(bytes([byte]))
            same(read_all(connection), answer_)

    def pipelines():
        with socket.create_connection(("127.0.0.1", port), 60) as connection:
            connection.sendall(data)
            same(read_all(connection) == want, True)

    threads = [threading.Thread(target=until, args=(peer,)) for peer in (cuts, stalls, trickles, pipelines)]
    for thread in threads:
        thread.start()
    return threads


def behind_nginx():
    """wrk by way of nginx with a pool, and past it, beside careless peers."""
    port = nginx([SERVICE.port])
    stop, problems = threading.Event(), []
    threads = careless_peers(SERVICE.port, stop, problems)
    rates = []
    try:
        for target, what in ((port, "by way of nginx"), (SERVICE.port, "alone")):
            made = subprocess.run(["wrk", "-t", "2", "-c", "16", "-d", "%ds" % SECONDS, "-s", os.path.join(HERE, "wrk.lua"), "http://127.0.0.1:%d" % target], stdout=subprocess.PIPE, stderr=subprocess.STDOUT)
            told = made.stdout.decode()
            assert made.returncode == 0 and "problem" not in told and "Non-2xx" not in told and "Socket errors" not in told, told[-600:]
            rates.append("%s %s" % (re.search(r"Requests/sec:\s*([\d.]+)", told).group(1), what))
            if target == port:
                assert connections_of(SERVICE.port) <= 16 + 16 + 8, connections_of(SERVICE.port)
    finally:
        stop.set()
        for thread in threads:
            thread.join()
    assert not problems, problems[0]
    connection = http.client.HTTPConnection("127.0.0.1", port, timeout=60)
    for n in range(300):
        connection.request("POST", "/transcode/2", message(1, number(n)))
        found = connection.getresponse()
        same((found.status, found.read()), (200, message(2, number(n))))
    return ", ".join(rates) + " a second, beside 4 careless peers"


def many_clients():
    """16 clients, each with a connection of its own for 500 messages of its own numbers, of all sizes."""
    problems = []

    def client(which):
        chance = random.Random(which)
        try:
            connection = http.client.HTTPConnection("127.0.0.1", SERVICE.port, timeout=300)
            for turn in range(100 if SHORT else 500):
                body = bytes([which]) + str(turn).encode() * chance.choice([1, 10, 1_000, 50_000])
                connection.request("POST", "/transcode/4", message(3, text(body)))
                found = connection.getresponse()
                same((found.status, found.read() == message(4, number(1) + text(body))), (200, True))
        except Exception as error:
            problems.append("%s %s" % (type(error).__name__, error))

    threads = [threading.Thread(target=client, args=(which,)) for which in range(16)]
    for thread in threads:
        thread.start()
    for thread in threads:
        thread.join()
    assert not problems, problems[0]


def lines_of_the_log():
    path = os.path.join(ROOM, "log")
    service = Service("--http11", "--log", log=path)
    data = request("GET", "/config?x") + numbered(1)[0] + request("GET", "/nowhere")
    got = service.all_of(data)
    end = time.monotonic() + 10
    lines = []
    while time.monotonic() < end and len(lines) < len(SCHEMAS) + 3:
        time.sleep(0.1)
        lines = open(path).read().splitlines()
    service.stop()
    # (the registrations are of other connections, whose lines may come later)
    same(len(lines), len(SCHEMAS) + 3)
    lines = [line for line in lines if "/subjects/" not in line]
    found = [line.split(" ")[:3] for line in lines]
    same(found, [["GET", "/config", "200"], ["POST", "/transcode/2", "200"], ["GET", "/nowhere", "404"]])
    sizes = [tuple(map(int, line.split(" ")[3:5])) for line in lines]
    same([size[0] for size in sizes], [len(request("GET", "/config?x")), len(numbered(1)[0]), len(request("GET", "/nowhere"))])
    same(sum(size[1] for size in sizes), len(got) + 3 * DATE_SIZE)


def as_before_without_the_word():
    """Without the word a connection is closed after its first answer, which has no date."""
    service = Service()
    with service.connect() as connection:
        connection.sendall(request("GET", "/config") * 2)
        got = b""
        while piece := connection.recv(1_000):
            got += piece
    same(got, answer(200, JSON, b'{"compatibilityLevel":"BACKWARD"}', True))
    service.stop()


def beside_an_upstream():
    """The ids of an upstream registry, over connections that stay."""
    gateway = Service("--http11", "--upstream", "http://127.0.0.1:%d" % SERVICE.port, empty=True)
    connection = http.client.HTTPConnection("127.0.0.1", gateway.port, timeout=60)
    for n in range(50):
        connection.request("POST", "/transcode/2", message(1, number(n)))
        found = connection.getresponse()
        same((found.status, found.read()), (200, message(2, number(n))))
    made = [numbered(n, n == 99) for n in range(100)]
    same(gateway.all_of(b"".join(m[0] for m in made)), b"".join(m[1] for m in made))
    gateway.stop()


def main():
    global SERVICE
    SERVICE = Service("--http11", "--request-timeout", "300", "--head-timeout", "60")
    try:
        for check, name in [
            (one_after_another, "one request after another"),
            (without_waiting, "%d requests that do not wait for answers" % PIPELINED),
            (a_byte_at_a_time, "a byte at a time"),
            (cut_anywhere, "the second request cut at each byte"),
            (careless_readings, "texts that a careless server reads otherwise"),
            (refusals_by_the_head, "what the head alone decides"),
            (asked_for_content, "a content that is asked for"),
            (limits_of_contents, "the longest content, and one byte more"),
            (versions_and_wishes, "HTTP/1.0, keep-alive and close"),
            (silent_peers, "idle, half and stalled connections"),
            (more_connections_than_may_be, "more connections than may be open"),
            (memory_of_idle_connections, "memory of idle connections"),
            (chunks_of_a_byte, "a MiB in chunks of a byte"),
            (by_curl, "curl"),
            (by_requests, "Python's requests, with a session"),
            (by_go, "Go's client"),
            (by_node, "Node's clients"),
            (by_java, "Java's client"),
            (many_clients, "16 clients with messages of all sizes"),
            (behind_nginx, "nginx with a pool of connections"),
            (lines_of_the_log, "a line a request"),
            (beside_an_upstream, "beside an upstream registry"),
            (as_before_without_the_word, "without the word"),
        ]:
            tried(check, name)
        say("the service runs", None if SERVICE.process.poll() is None else "it ended with %s" % SERVICE.process.returncode)
        print("all were tried", flush=True)
    finally:
        for process in STARTED:
            if process.poll() is None:
                # (nginx ends its workers at SIGTERM alone)
                process.terminate()
                try:
                    process.wait(5)
                except subprocess.TimeoutExpired:
                    process.kill()


if __name__ == "__main__":
    main()
