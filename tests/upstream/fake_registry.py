"""A script that answers as Confluent's Schema Registry does, and as none should. Usage: fake_registry.py PORT LOG

GET [/PREFIX]/schemas/ids/N goes by the last two digits of N, as `answer_to` lists. Each request is a line of LOG.
"""
import collections, json, socket, sys, threading, time

SCHEMA_TYPE = b"application/vnd.schemaregistry.v1+json"
asked, lock = collections.Counter(), threading.Lock()


def schema_of(number):
    """A record of one int; of odd numbers with a second field, which has a default."""
    fields = [{"name": "a", "type": "int"}]
    if number % 2:
        fields.append({"name": "b", "type": "string", "default": "x"})
    return json.dumps({"type": "record", "name": "R", "fields": fields})


def answer(status, body, extra=b"", kind=SCHEMA_TYPE):
    body = body if isinstance(body, bytes) else body.encode()
    head = b"HTTP/1.1 %d X\r\nDate: Thu, 01 Jan 2026 00:00:00 GMT\r\nContent-Type: %s\r\nVary: Accept-Encoding\r\n" % (status, kind)
    return head + extra + b"Content-Length: %d\r\n\r\n" % len(body) + body


def chunked(body, size=7):
    body, out = body.encode(), b"HTTP/1.1 200 OK\r\nContent-Type: " + SCHEMA_TYPE + b"\r\nTransfer-Encoding: chunked\r\n\r\n"
    for at in range(0, len(body), size):
        part = body[at:at + size]
        out += b"%x;x=y\r\n%s\r\n" % (len(part), part)
    return out + b"0\r\n\r\n"


def send_slowly(connection, data, pause, most=1000.0):
    """Sends byte by byte with a pause after each for `most` seconds, and then the rest at once."""
    begin = time.monotonic()
    for at, byte in enumerate(data):
        if time.monotonic() - begin > most:
            connection.sendall(data[at:])
            return
        connection.sendall(bytes([byte]))
        time.sleep(pause)


def serve_id(connection, number, times):
    """Answers for one id: `times` is how often it was asked for."""
    case, good = number % 100, json.dumps({"schema": schema_of(number)})
    unknown = answer(404, '{"error_code":40403,"message":"Schema not found"}')
    fixed = {
        20: chunked(good), 21: chunked(good), 22: chunked(good, 1),
        30: b"HTTP/1.0 200 OK\r\nContent-Type: application/json\r\n\r\n" + good.encode(),
        40: answer(200, json.dumps({"schemaType": "AVRO", "schema": schema_of(number)})),
        41: answer(200, json.dumps({"schemaType": "PROTOBUF", "schema": 'syntax = "proto3";'})),
        42: answer(200, json.dumps({"schema": schema_of(number), "references": [{"name": "x.Y", "subject": "s", "version": 1}]})),
        43: answer(200, json.dumps({"schema": schema_of(number), "references": [], "maxId": number})),
        44: answer(200, json.dumps({"schema": schema_of(number + times - 1)})),
        45: answer(200, json.dumps({"schemaType": "JSON", "schema": "{}"})),
        50: unknown,
        51: answer(500, '{"error_code":50001,"message":"Error in the backend data store"}'),
        52: answer(401, '{"error_code":401,"message":"Unauthorized"}'),
        53: answer(301, "", b"Location: /schemas/ids/100000001\r\n"),
        54: answer(404, "<html>not here</html>", kind=b"text/html"),
        55: answer(200, "<html>hello</html>"), 56: answer(200, '{"id":1}'),
        57: answer(404, '{"error_code":40401,"message":"Subject not found"}'),
        60: answer(200, good)[:-5], 61: chunked(good)[:-12],
        67: b"\x16\x03\x01garbage\r\n\r\n",
        68: b"HTTP/1.1 103 Early Hints\r\nLink: </x>\r\n\r\n" + answer(200, good),
        69: b"HTTP/1.1 200 OK\r\nTransfer-Encoding: chunked\r\n\r\nxyz\r\n" + good.encode(),
        70: b"HTTP/1.1 200 OK\r\nTransfer-Encoding: chunked\r\nContent-Length: 5\r\n\r\n0\r\n\r\n",
        74: answer(200, b"\x1f\x8b\x08\x00zzzz", b"Content-Encoding: gzip\r\n"),
        76: answer(200, good).replace(b"\r\n", b"\n"),
        77: answer(200, json.dumps({"schema": '{"type":"nonsense"}'})),
        78: answer(200, json.dumps({"schema": '{"type":"fixed","name":"F","size":1.5}'})),
    }
    long = {
        65: lambda: answer(200, good, b"X-Long: " + b"y" * 100_000 + b"\r\n"),
        66: lambda: answer(200, json.dumps({"schema": schema_of(number), "pad": "p" * 4_000_000})),
        80: lambda: answer(200, good, b"X: " + b"z" * 9_000_000 + b"\r\n"),
        81: lambda: answer(200, json.dumps({"schema": schema_of(number), "pad": "p" * 9_000_000})),
    }
    if case < 20:
        connection.sendall(answer(200, good))
    elif case in fixed:
        connection.sendall(fixed[case])
    elif case in long:
        connection.sendall(long[case]())
    elif case == 62:
        send_slowly(connection, answer(200, good), 0.001, 0.2)
    elif case == 63:
        time.sleep(15)
    elif case == 64:
        return
    elif case == 71:
        time.sleep(0.5)
        connection.sendall(answer(200, good))
    elif case == 72:
        connection.sendall(b"H")
        time.sleep(15)
    elif case == 73:
        if times > 1:
            connection.sendall(answer(200, good))
    elif case == 75:
        connection.sendall(b"HTTP/1.1 200 OK\r\nContent-Length: 100000\r\n\r\n")
        send_slowly(connection, b" " * 1000, 0.1)
    elif case == 79:
        connection.sendall(answer(200, good))
        time.sleep(15)
    else:
        connection.sendall(unknown)


def serve(connection, log):
    try:
        connection.settimeout(20)
        data = b""
        while b"\r\n\r\n" not in data:
            more = connection.recv(4096)
            if not more:
                return
            data += more
        line, head = data.split(b"\r\n")[0].decode("latin1"), data.decode("latin1")
        path = line.split(" ")[1]
        with lock:
            asked[path] += 1
            times = asked[path]
            fields = [field for field in head.split("\r\n")[1:] if field.lower().startswith(("authorization:", "host:"))]
            log.write("%s | %s\n" % (line, " | ".join(fields)))
            log.flush()
        front, _, number = path.rpartition("/schemas/ids/")
        if not number.isdigit():
            connection.sendall(answer(404, '{"error_code":404,"message":"HTTP 404 Not Found"}'))
        else:
            serve_id(connection, int(number), times)
    except OSError:
        pass
    finally:
        connection.close()


def main():
    log = open(sys.argv[2], "a")
    listener = socket.socket()
    listener.setsockopt(socket.SOL_SOCKET, socket.SO_REUSEADDR, 1)
    listener.bind(("127.0.0.1", int(sys.argv[1])))
    listener.listen(512)
    print("listening", listener.getsockname()[1], flush=True)
    while True:
        connection, _ = listener.accept()
        threading.Thread(target=serve, args=(connection, log), daemon=True).start()


if __name__ == "__main__":
    main()
