#!/usr/bin/env bash
# The memory of `avrogate serve --upstream` once it holds all that it may: 16,384 ids of 4,096 schemas of about 100 bytes,
# of ids that follow one another and of ids that lie far apart, beside a script that answers as a registry does. A line for
# each, of the process's resident memory before and after. It takes about a minute and builds nothing. Not part of the gate.
# Usage: bench/upstream_memory.sh [PROGRAM]   (crates/avrogate/out/avrogate if it is left out)
set -euo pipefail
here=$(dirname "$(realpath "$0")")
exec python3 - "$(realpath "${1:-$here/../crates/avrogate/out/avrogate}")" <<'PYTHON'
import concurrent.futures, http.client, http.server, json, re, subprocess, sys, threading

IDS, SCHEMAS, CLIENTS = 16_384, 4_096, 8


class Registry(http.server.BaseHTTPRequestHandler):
    """Answers the schema of an id: a record of one field, of which there are SCHEMAS by the id."""

    def do_GET(self):
        schema = {"type": "record", "name": "Event", "fields": [{"name": "field_of_a_long_name_%d" % (number_of(self.path) % SCHEMAS), "type": "string"}]}
        body = json.dumps({"schema": json.dumps(schema)}).encode()
        self.send_response(200)
        self.send_header("Content-Length", str(len(body)))
        self.end_headers()
        self.wfile.write(body)

    def log_message(self, *_):
        pass


class Server(http.server.ThreadingHTTPServer):
    request_queue_size = 256
    daemon_threads = True


def number_of(path):
    """Which of the ids a path has, counted from 0: ids that lie far apart are multiples of 2^18."""
    found = int(path.rsplit("/", 1)[1])
    return found >> 18 if found >= 1 << 18 else found


def resident(pid):
    """The process's resident memory in MB."""
    with open("/proc/%d/status" % pid) as status:
        return int(re.search(r"VmRSS:\s*(\d+) kB", status.read())[1]) / 1000


def ask(port, ids):
    for at in ids:
        for _ in range(20):
            connection = http.client.HTTPConnection("127.0.0.1", port, timeout=30)
            connection.request("GET", "/schemas/ids/%d" % at)
            answer = connection.getresponse()
            body = answer.read()
            connection.close()
            if answer.status != 503:
                break
        assert answer.status == 200, (at, answer.status, body)


def held(name, ids):
    server = subprocess.Popen([sys.argv[1], "serve", "--port", "0", "--upstream", "http://127.0.0.1:%d" % registry.server_port], stdout=subprocess.PIPE)
    try:
        port = int(server.stdout.readline().split()[1])
        before = resident(server.pid)
        with concurrent.futures.ThreadPoolExecutor(CLIENTS) as clients:
            list(clients.map(lambda part: ask(port, ids[part::CLIENTS]), range(CLIENTS)))
        connection = http.client.HTTPConnection("127.0.0.1", port, timeout=30)
        connection.request("GET", "/schemas/ids/%d" % (max(ids) + 1))
        body = connection.getresponse().read()
        assert b"50302" in body, body
        print("%d ids that %s: %.1f MB before, %.1f MB after" % (len(ids), name, before, resident(server.pid)), flush=True)
    finally:
        server.kill()
        server.wait()


registry = Server(("127.0.0.1", 0), Registry)
threading.Thread(target=registry.serve_forever, daemon=True).start()
held("follow one another", list(range(IDS)))
held("lie far apart", [at << 18 for at in range(IDS)])
PYTHON
