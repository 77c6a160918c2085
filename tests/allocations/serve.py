"""`avrogate serve` with each of its allocations refused in turn, one a run: it ends before it serves, with status 4; or each
request is answered as it should be, or 50301, or closed where its connection or that answer finds no memory, and asked
once more it is answered.
With `store` the service begins with a schema in its file, and after each run one starts again from the file, with no
allocation refused, and finds what was answered, also where the service ended for want of memory in the middle. With
`upstream` it asks a registry of the test's own, and a request is asked once more until a failure is forgotten, which takes
a second. With `http11` its connections stay, each for two requests.
Usage: serve.py PROGRAM REFUSE.so FOLDER [store|upstream|http11]   (with SHORT=1 in the environment at distances that grow)"""
import hashlib, http.server, json, os, socket, subprocess, sys, threading, time

PROGRAM, LIBRARY, FOLDER, *MODE = sys.argv[1:]
STORE, UPSTREAM, HTTP11 = (MODE == [mode] for mode in ("store", "upstream", "http11"))
PATIENCE = 300
WANTS = (b'"error_code":50301', b'"error_code":50304') if STORE else (b'"error_code":50301',)  # the level of all is "not stored"
WRITER = json.dumps({"type": "record", "name": "T", "fields": [{"name": "a", "type": "long"}, {"name": "b", "type": "string"}]})
READER = json.dumps({"type": "record", "name": "T", "fields": [{"name": "b", "type": "string"}, {"name": "c", "type": "int", "default": 7}]})


def number(n):
    n, out = n << 1, bytearray()
    while n > 127:
        out.append(n & 127 | 128)
        n >>= 7
    return bytes(out) + bytes([n])


def text(size):
    return number(size) + b"x" * size


def message(size):
    return b"\0\0\0\0\1" + number(1) + text(size), b"\0\0\0\0\2" + text(size) + number(7)


def stored(body):
    return b"++" + body + b" " + hashlib.sha256(body).hexdigest()[:16].encode() + b"\n"


# a request, and the body of its answer
def requests():
    if not UPSTREAM:
        yield from registrations()
    for size in 3, 100_000, 1_000_000:
        yield "POST", "/transcode/2", *message(size)


def registrations():
    yield "POST", "/subjects/t/versions", json.dumps({"schema": WRITER}).encode(), b'{"id":1}'
    if STORE:
        yield "PUT", "/config", b'{"compatibility":"FORWARD"}', b'{"compatibility":"FORWARD"}'
        yield "PUT", "/config/t", b'{"compatibility":"NONE"}', b'{"compatibility":"NONE"}'
    yield "POST", "/subjects/t/versions", json.dumps({"schema": READER}).encode(), b'{"id":2}'
    yield "GET", "/subjects/t/versions", b"", b"[1,2]"


class Registry(http.server.BaseHTTPRequestHandler):
    """Answers the writer's schema for the id 1, and the reader's for the id 2."""

    def do_GET(self):
        body = json.dumps({"schema": WRITER if self.path == "/schemas/ids/1" else READER}).encode()
        self.send_response(200)
        self.send_header("Content-Length", str(len(body)))
        self.end_headers()
        self.wfile.write(body)

    def log_message(self, *_):
        pass


class Server(http.server.ThreadingHTTPServer):
    def handle_error(self, *_):
        """Says nothing of a question whose service has ended."""


def exchange(port, method, path, body):
    """The body of the answer, or None where the connection is closed without one, maybe before all was sent. Over a
    connection that stays two requests are sent, and the body is that of the second."""
    got = b""
    request = b"%s %s HTTP/1.1\r\nhost: t\r\ncontent-length: %d\r\n" % (method.encode(), path.encode(), len(body))
    try:
        with socket.create_connection(("127.0.0.1", port), timeout=PATIENCE) as connection:
            if HTTP11:
                connection.sendall(request + b"\r\n" + body)
                if not whole_answer(connection):
                    return None
            connection.sendall(request + b"connection: close\r\n\r\n" + body)
            while piece := connection.recv(1 << 20):
                got += piece
    except (ConnectionResetError, BrokenPipeError):
        got = b""
    return got.split(b"\r\n\r\n", 1)[1] if got else None


def whole_answer(connection):
    """Reads one answer with a length, and returns whether it came whole."""
    got = b""
    while b"\r\n\r\n" not in got or len(got.split(b"\r\n\r\n", 1)[1]) < length_of(got):
        piece = connection.recv(1 << 20)
        if not piece:
            return False
        got += piece
    return True


def length_of(got):
    """The length that the head of an answer says."""
    fields = (line.partition(b":") for line in got.split(b"\r\n\r\n", 1)[0].split(b"\r\n"))
    return next(int(value) for name, _, value in fields if name.lower() == b"content-length")


def served(port, answered):
    """What is wrong with the answers, or None; each one that is as it should be is put into `answered`."""
    for method, path, body, want in requests():
        for attempt in range(ATTEMPTS):
            got = exchange(port, method, path, body)
            if got == want:
                answered.add((method, path, want))
                break
            if attempt == ATTEMPTS - 1 or got is not None and not any(code in got for code in WANTS):
                return "%s %s: %.100r" % (method, path, got)
            time.sleep(0.1 if UPSTREAM else 0)
    return None


def served_by(server, port, answered):
    """What is wrong with the answers of a server that says where it listens, or None; it may end then for want of memory."""
    try:
        return served(port, answered)
    except OSError as error:
        try:
            status = server.wait(timeout=10)
        except subprocess.TimeoutExpired:
            return repr(error)
        return None if status == 4 else "it ended with status %d" % status


def run(at):
    """Whether the allocation of that number was made, and what went wrong."""
    mark = FOLDER + "/served"
    if os.path.exists(mark):
        os.remove(mark)
    environment = {**os.environ, "REFUSE": str(at), "REFUSED": mark, "LD_PRELOAD": LIBRARY}
    if STORE:
        with open(FOLDER + "/registry", "wb") as file:
            file.write(stored(b"register 1 t " + WRITER.encode()) + b"--")
    answered = set()
    server = subprocess.Popen(COMMAND, env=environment, stdout=subprocess.PIPE)
    try:
        told = server.stdout.readline().split()
        wrong = served_by(server, int(told[1]), answered) if told[:1] == [b"listening"] else None
        if told[:1] != [b"listening"] and (told or server.wait() != 4):
            wrong = "status %s, %r" % (server.poll(), told)
    finally:
        server.kill()
        server.wait()
    return os.path.exists(mark), wrong or (STORE and told[:1] == [b"listening"] and found_again(answered))


# for what was answered to a change: what a start has to find, and where
FOUND = {
    ("POST", "/subjects/t/versions", b'{"id":1}'): ("/subjects/t/versions", (b"[1]", b"[1,2]")),
    ("POST", "/subjects/t/versions", b'{"id":2}'): ("/subjects/t/versions", (b"[1,2]",)),
    ("PUT", "/config", b'{"compatibility":"FORWARD"}'): ("/config", (b'{"compatibilityLevel":"FORWARD"}',)),
    ("PUT", "/config/t", b'{"compatibility":"NONE"}'): ("/config/t", (b'{"compatibilityLevel":"NONE"}',)),
}


def found_again(answered):
    """What is wrong with what a start finds of the changes that were answered, or None."""
    server = subprocess.Popen(COMMAND, stdout=subprocess.PIPE)
    try:
        told = server.stdout.readline().split()
        if told[:1] != [b"listening"]:
            return "the store after it: %r" % told
        for path, wants in (FOUND[change] for change in answered if change in FOUND):
            got = exchange(int(told[1]), "GET", path, b"")
            if got not in wants:
                return "the store after it: %s %r" % (path, got)
    finally:
        server.kill()
        server.wait()
    return None


ATTEMPTS = 30 if UPSTREAM else 2
COMMAND = [PROGRAM, "serve", "--port", "0", "--clients", "1", "--workers", "1"]
if STORE:
    COMMAND += ["--store", FOLDER + "/registry"]
if HTTP11:
    COMMAND += ["--http11"]
if UPSTREAM:
    registry = Server(("127.0.0.1", 0), Registry)
    threading.Thread(target=registry.serve_forever, daemon=True).start()
    COMMAND += ["--upstream", "http://127.0.0.1:%d" % registry.server_port]
at, runs, failed = 1, 0, []
while True:
    was_refused, wrong = run(at)
    if wrong:
        failed.append("avrogate serve, allocation %d: %s" % (at, wrong))
    if not was_refused or len(failed) > 20:
        break
    runs += 1
    at += 1 + (at // 5 if os.environ.get("SHORT") else 0)
for line in failed:
    print(line)
print("avrogate serve%s: %d allocations refused in turn" % ("".join(" --" + mode for mode in MODE), runs))
sys.exit(1 if failed or runs == 0 else 0)
