#!/usr/bin/env bash
# `avrogate serve` beside a small server by hand (bench/service.cpp), each with 4 client threads and one request a
# connection, under the load of wrk (Debian's package, which is installed if it is missing): a schema by its id, and
# messages of about 100 bytes, 10 KB, 1 MiB and 8 MiB, of many texts and of one byte string, to a reader with a promoted
# and an added field, of ours with 1 and 4 workers, and with 4 beside an upstream registry, the one with 4, whose schemas
# are held by then (`--upstream`). First all have to answer the same bytes; then come 3 rounds of 2 seconds, in each of which all come in turn.
# It prints, of each, the median of requests a second and of processor time a request (user and system, of the server
# alone). wrk shares the machine, so that requests a second say less than processor time. It takes about two minutes. With
# HTTP11=1 in the environment connections stay open: ours by `--http11`, the one by hand with a thread for each
# connection; and two rows more, ours with connections that close, and nginx (Debian's) that answers 100 bytes. Not part
# of the gate.
# Usage: bench/service.sh [PROGRAM]   (crates/avrogate/out/avrogate if it is left out)
set -euo pipefail
export PYTHONDONTWRITEBYTECODE=1 PYTHONPATH=$(dirname "$(realpath "$0")")
here=$(dirname "$(realpath "$0")")
program=$(realpath "${1:-$here/../crates/avrogate/out/avrogate}")
command -v wrk >/dev/null || { apt-get update -qq && DEBIAN_FRONTEND=noninteractive apt-get install -y -qq --no-install-recommends wrk; } >&2
[ -z "${HTTP11:-}" ] || command -v nginx >/dev/null || { apt-get update -qq && DEBIAN_FRONTEND=noninteractive apt-get install -y -qq --no-install-recommends nginx-light; } >&2
folder=$(mktemp -d)
trap 'rm -rf "$folder"' EXIT
g++ -std=c++17 -O2 -pthread -o "$folder/service" "$here/service.cpp"
python3 - "$program" "$folder" <<'PYTHON'
import json, os, re, socket, statistics, subprocess, sys, time
from avro_encoding import number, text

program, folder = sys.argv[1:]
KEEPS = bool(os.environ.get("HTTP11"))
MODE = ["--http11"] if KEEPS else []
CLOSING, NGINX = "closing", "nginx"
ROUNDS, SECONDS, THREADS, CONNECTIONS, WORKERS = 3, 2, 2, 16, (1, 4)
BESIDE = "beside"


def schema(*fields):
    fields = [dict(zip(("name", "type", "default"), field)) for field in fields]
    return json.dumps({"type": "record", "name": "Event", "fields": fields}, separators=(",", ":"), sort_keys=True)


SHARED = ("id", "long"), ("name", "string"), ("tags", {"type": "array", "items": "string"}), ("data", "bytes")
writer = schema(*SHARED, ("score", "int"))
reader = schema(*SHARED, ("score", "long"), ("source", "string", "none"))


# the message of a record with so many tags and so many bytes
def message_of(many, data=b""):
    tags = ["alpha-%d" % (n % 10) * 2 for n in range(many)]
    front = b"\0\0\0\0\1" + number(1 << 40) + text("Grüße aus dem Büro im Hof") + (number(many) + b"".join(map(text, tags)) if many else b"")
    return front + b"\0" + number(len(data)) + data + number(-1234567)


MIB = 1 << 20
TAGS = ["alpha-%d" % n * 2 for n in range(4)]
message = message_of(4)
payload = message[5:]
MESSAGES = {"100 bytes": message, "10 KB": message_of(600), "1 MiB of texts": message_of(MIB // 15), "1 MiB of bytes": message_of(0, b"\xfe" * MIB),
            "8 MiB of texts": message_of(8 * MIB // 15), "8 MiB of bytes": message_of(0, b"\xfe" * (8 * MIB))}
SPOILT = [message[:-1], message + b"\0", message[:5] + b"\x80" * 10 + payload, message.replace(b"\xc3", b"\xff", 1), message[:4], b"\1" + message[1:],
          b"\0\0\0\0\1" + payload.replace(number(4) + text(TAGS[0]), number(-4) + number(1) + text(TAGS[0]))]


def start(words):
    server = subprocess.Popen(words, stdout=subprocess.PIPE)
    servers.append(server)
    told = server.stdout.readline().split()
    assert told[:1] == [b"listening"], told
    return server.pid, "http://127.0.0.1:%d" % int(told[1])


# the answer's bytes, head and all; `100 Continue` is not asked for, which the server by hand does not send
def curl(url, *words, data=None):
    words = [*words, "-H", "Expect:", "--data-binary", "@-"] if data is not None else words
    return subprocess.run(["curl", "-sSi", "--max-time", "10", *words, url], input=data, capture_output=True, check=True).stdout


def same(path, *words, data=None):
    first, *others = (re.sub(rb"date: [^\r]*\r\n", b"", curl(url + path, *words, data=data), count=1) for _, url in started)
    for other in others:
        assert first == other, (path, first[:200], other[:200])
    return first


# processor seconds of a process so far
def processor_time(pid):
    with open("/proc/%d/stat" % pid) as stat:
        times = stat.read().rsplit(")", 1)[1].split()[11:13]
    return sum(map(int, times)) / os.sysconf("SC_CLK_TCK")


# requests a second, and processor microseconds a request
def load(server, path, script, closes=not KEEPS):
    pid, url = server
    before = processor_time(pid)
    said = subprocess.run(["wrk", "-t%d" % THREADS, "-c%d" % CONNECTIONS, "-d%ds" % SECONDS, *(["-H", "Connection: close"] if closes else []), *script, url + path],
                          capture_output=True, text=True, check=True).stdout
    took = processor_time(pid) - before
    requests = int(re.search(r"(\d+) requests in", said)[1])
    faults.update(line.strip() for line in said.splitlines() if "Socket errors" in line or "Non-2xx" in line)
    return float(re.search(r"Requests/sec:\s*([\d.]+)", said)[1]), took / max(requests, 1) * 1e6


# nginx, which answers 100 bytes over connections that stay open
def nginx():
    if not front:
        with socket.socket() as listener:
            listener.bind(("127.0.0.1", 0))
            port = listener.getsockname()[1]
        with open(folder + "/nginx.conf", "w") as out:
            out.write("""daemon off; worker_processes 4; pid %s/pid; error_log stderr crit; events { worker_connections 512; }
http { access_log off; keepalive_requests 1000000000; client_body_temp_path %s/b; proxy_temp_path %s/p; fastcgi_temp_path %s/f; uwsgi_temp_path %s/u; scgi_temp_path %s/s;
server { listen 127.0.0.1:%d; location / { return 200 "%s"; } } }
""" % (folder, folder, folder, folder, folder, folder, port, "x" * 100))
        servers.append(subprocess.Popen(["nginx", "-p", folder, "-e", "stderr", "-c", folder + "/nginx.conf"], stdout=subprocess.DEVNULL, stderr=subprocess.DEVNULL))
        front.append((servers[-1].pid, "http://127.0.0.1:%d" % port))
        time.sleep(1)
    return front[0]


servers, faults, front = [], set(), []
try:
    by_hand = start([folder + "/service", "0", "4", *MODE])
    ours = {many: start([program, "serve", "--port", "0", "--clients", "4", "--workers", str(many), *MODE]) for many in WORKERS}
    started = [by_hand, *ours.values()]
    for text_of in (writer, reader):
        assert b'\r\n\r\n{"id":' in same("/subjects/events/versions", data=json.dumps({"schema": text_of}).encode())
    ours[BESIDE] = start([program, "serve", "--port", "0", "--clients", "4", "--workers", str(WORKERS[-1]), "--upstream", ours[WORKERS[-1]][1], *MODE])
    started.append(ours[BESIDE])
    if KEEPS:
        ours[CLOSING] = start([program, "serve", "--port", "0", "--clients", "4", "--workers", str(WORKERS[-1]), "--upstream", ours[WORKERS[-1]][1]])
        curl(ours[CLOSING][1] + "/transcode/2", data=message)
    assert b"200 OK" in same("/schemas/ids/1") and b"200 OK" in same("/schemas/ids/2") and b"40403" in same("/schemas/ids/3")
    for sent in MESSAGES.values():
        assert b"200 OK" in same("/transcode/2", data=sent)
    for spoilt in SPOILT:
        assert b"422 " in same("/transcode/2", data=spoilt)
    print("all answer the same bytes to %d requests" % (5 + len(MESSAGES) + len(SPOILT)))
    LOADS = [("GET /schemas/ids/1", "/schemas/ids/1", [], (*WORKERS[-1:], BESIDE))]
    for at, (name, sent) in enumerate(MESSAGES.items()):
        with open(folder + "/message%d" % at, "wb") as out:
            out.write(sent)
        with open(folder + "/post%d.lua" % at, "w") as out:
            out.write('wrk.method = "POST"\nwrk.headers["Content-Type"] = "application/octet-stream"\nwrk.body = io.open("%s/message%d", "rb"):read("*a")\n' % (folder, at))
        LOADS.append(("a message of " + name, "/transcode/2", ["-s", folder + "/post%d.lua" % at], (*WORKERS, BESIDE)))
    taken = {}
    for _ in range(ROUNDS):
        for name, path, script, many in LOADS:
            for which in ("by hand", *many):
                taken.setdefault((name, which), []).append(load(by_hand if which == "by hand" else ours[which], path, script))
        if KEEPS:
            taken.setdefault(CLOSING, []).append(load(ours[CLOSING], LOADS[1][1], LOADS[1][2], True)[0])
            taken.setdefault(NGINX, []).append(load(nginx(), "/", [])[0])
    print("%-36s %12s %12s %7s   %14s %12s %7s" % ("", "requests/s", "by hand", "ratio", "processor us", "by hand", "ratio"))
    for name, _, _, many in LOADS:
        their_rate, their_micros = (statistics.median(column) for column in zip(*taken[name, "by hand"]))
        for workers in many:
            rate, micros = (statistics.median(column) for column in zip(*taken[name, workers]))
            label = "%s, %s" % (name, "beside a registry" if workers == BESIDE else "%d workers" % workers)
            print("%-36s %12.0f %12.0f %7.2f   %14.1f %12.1f %7.2f" % (label, rate, their_rate, rate / their_rate, micros, their_micros, micros / their_micros))
    if KEEPS:
        print("requests/s: %.0f of 100 bytes over connections that close, ours; %.0f of nginx, which answers 100 bytes" % tuple(statistics.median(taken[which]) for which in (CLOSING, NGINX)))
    with open("/proc/sys/net/ipv4/ip_local_port_range") as ports:
        low, high = map(int, ports.read().split())
    for fault in sorted(faults):
        print("wrk told: %s (the kernel has %d ports for connections)" % (fault, high - low + 1))
    for server in servers:
        assert server.poll() is None, "a server ended with status %s" % server.returncode
finally:
    for server in servers:
        # (nginx ends its workers at SIGTERM alone)
        server.terminate() if front and server.pid == front[0][0] else server.kill()
        server.wait()
sys.exit(1 if faults else 0)
PYTHON
