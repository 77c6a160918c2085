#!/usr/bin/env bash
# What a store costs: the median time of a registration that makes a version, of one that the subject has, and of a level
# that is set, over HTTP, with and without --store in one run, one after another on one connection each; and how long a start
# takes with 1,000 and with 4,000 schemas, beside registering them. The folder of the store is that of TMPDIR.
# Usage: bench/store.sh [PROGRAM [TIMES]]   (crates/avrogate/out/avrogate and 300 if they are left out)
set -euo pipefail
here=$(dirname "$(realpath "$0")")
program=$(realpath "${1:-$here/../crates/avrogate/out/avrogate}")
PYTHONDONTWRITEBYTECODE=1 python3 - "$program" "${2:-300}" <<'PYTHON'
import http.client, json, os, statistics, subprocess, sys, tempfile, time

program, times = sys.argv[1], int(sys.argv[2])


def schema(number):
    fields = [{"name": "f%d" % at, "type": ["null", "string"], "default": None} for at in range(8)]
    return json.dumps({"type": "record", "name": "R%d" % number, "fields": fields})


class Service:
    def __init__(self, *words):
        begin = time.perf_counter()
        self.process = subprocess.Popen([program, "serve", "--port", "0", *words], stdout=subprocess.PIPE)
        self.port = int(self.process.stdout.readline().split()[1])
        self.seconds = time.perf_counter() - begin

    def ask(self, method, path, body):
        connection = http.client.HTTPConnection("127.0.0.1", self.port)
        data = json.dumps(body)
        begin = time.perf_counter()
        connection.request(method, path, data)
        answer = connection.getresponse()
        answer.read()
        took = time.perf_counter() - begin
        connection.close()
        assert answer.status == 200, answer.status
        return took

    def stop(self):
        self.process.kill()
        self.process.wait()


with tempfile.TemporaryDirectory() as folder:
    services = {"without": Service(), "with": Service("--store", folder + "/registry")}
    took = {(name, kind): [] for name in services for kind in ("new", "known", "level")}
    for number in range(times):
        for name, service in services.items():
            path = "/subjects/s%d/versions" % number
            took[name, "new"].append(service.ask("POST", path, {"schema": schema(number)}))
            took[name, "known"].append(service.ask("POST", path, {"schema": schema(number)}))
            took[name, "level"].append(service.ask("PUT", "/config/s%d" % (number % 50), {"compatibility": "FULL"}))
    for service in services.values():
        service.stop()
    for kind, what in (("new", "a registration that makes a version"), ("known", "one that the subject has"), ("level", "a level")):
        print("%s: %.0f µs with a store, %.0f without" % (what, *(statistics.median(took[name, kind]) * 1e6 for name in ("with", "without"))))
    lines = "".join("register s%d %s\n" % (number, schema(number)) for number in range(4000))
    for count in (1000, 4000):
        store = folder + "/of%d" % count
        begin = time.perf_counter()
        subprocess.run([program, "import", "--store", store], input="".join(lines.splitlines(True)[:count]).encode(), stdout=subprocess.DEVNULL, check=True)
        made = time.perf_counter() - begin
        service = Service("--store", store)
        print("%d schemas of %d bytes: made in %.2f s, a start in %.3f s" % (count, len(lines) // 4000, made, service.seconds))
        service.stop()
PYTHON
