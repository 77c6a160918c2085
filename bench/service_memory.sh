#!/usr/bin/env bash
# What `avrogate serve` keeps of memory after it has answered: its resident bytes (VmRSS) at the begin, after 10,000
# messages of 1 KB, and after 256 messages of 16 MiB more, which 8 connections at once send; and the most that it had
# (VmHWM). Each answer is verified. Targets: under 64 MB, and under 256 MB. It comes twice: as it is, and with
# MALLOC_MMAP_THRESHOLD_=1048576 in the environment, by which the C library gives blocks of a megabyte and more back to
# the system at once, instead of keeping them for the thread. It takes about a minute. Not part of the gate.
# Usage: bench/service_memory.sh [PROGRAM]   (crates/avrogate/out/avrogate if it is left out)
set -euo pipefail
here=$(dirname "$(realpath "$0")")
program=$(realpath "${1:-$here/../crates/avrogate/out/avrogate}")
export PYTHONDONTWRITEBYTECODE=1 PYTHONPATH=$here
python3 - "$program" <<'PYTHON'
import json, os, re, socket, subprocess, sys, threading, time
from avro_encoding import number

program = sys.argv[1]
AT_ONCE = 8
SCHEMA = {"type": "record", "name": "T", "fields": [{"name": "id", "type": "long"}, {"name": "rest", "type": "bytes"}]}


def exchange(data):
    got = bytearray()
    with socket.create_connection(("127.0.0.1", port), timeout=60) as connection:
        connection.sendall(data)
        while piece := connection.recv(1 << 20):
            got += piece
    return bytes(got)


def post(path, body):
    return exchange(b"POST %s HTTP/1.1\r\ncontent-length: %d\r\n\r\n" % (path, len(body)) + body)


# a message whose payload has so many bytes
def message(size):
    first = number(1 << 20)
    for prefix in range(1, 6):
        rest = size - len(first) - prefix
        if len(number(rest)) == prefix:
            return b"\0\0\0\0\1" + first + number(rest) + bytes(rest)


def kilobytes(name):
    with open("/proc/%d/status" % server.pid) as status:
        return int(re.search(name + r":\s*(\d+) kB", status.read())[1])


def tell(what):
    time.sleep(1)
    print("%-36s %7.1f MB (at most %.1f MB so far)" % (what, kilobytes("VmRSS") / 1e3, kilobytes("VmHWM") / 1e3), flush=True)


def send_all(size, count):
    sent = message(size)
    assert len(sent) == size + 5
    wrong = []

    def some(many):
        for _ in range(many):
            if not post(b"/transcode/1", sent).endswith(b"\r\n\r\n" + sent):
                wrong.append(1)

    threads = [threading.Thread(target=some, args=(count // AT_ONCE,)) for _ in range(AT_ONCE)]
    for thread in threads:
        thread.start()
    for thread in threads:
        thread.join()
    assert not wrong, "%d wrong answers" % len(wrong)


for name, more in (("as it is", {}), ("with MALLOC_MMAP_THRESHOLD_=1048576", {"MALLOC_MMAP_THRESHOLD_": "1048576"})):
    server = subprocess.Popen([program, "serve", "--port", "0"], stdout=subprocess.PIPE, env={**os.environ, **more})
    try:
        port = int(server.stdout.readline().split()[1])
        assert b'{"id":1}' in post(b"/subjects/t/versions", json.dumps({"schema": json.dumps(SCHEMA)}).encode())
        print(name)
        tell("at the begin")
        send_all(1_000, 10_000)
        tell("after 10,000 messages of 1 KB")
        send_all(16_777_216, 256)
        tell("after 256 messages of 16 MiB")
        assert server.poll() is None
    finally:
        server.kill()
        server.wait()
PYTHON
