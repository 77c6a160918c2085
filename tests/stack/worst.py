"""The checks of tests/stack.sh: the worst schemas, JSON, data and heads within the limits, and just past them, sent to a
running server, which has to answer each as it should and to answer GET /subjects after each.
Usage: worst.py PORT SECONDS [PART ..]   (SECONDS is the server's --request-timeout; a PART is a function at the end)"""
import json, os, socket, string, sys

port, timeout = int(sys.argv[1]), float(sys.argv[2])
TEXT, DEPTH, LEVELS = 262_144, 127, 1_000
PATIENCE = 300  # seconds for one answer
SHORT = bool(os.environ.get("SHORT"))


def exchange(data, half_closed=False):
    """All bytes that come back before the server closes. A reset is raised: no answer may end with one."""
    got = bytearray()
    with socket.create_connection(("127.0.0.1", port), timeout=PATIENCE) as connection:
        connection.sendall(data)
        if half_closed:
            connection.shutdown(socket.SHUT_WR)
        while piece := connection.recv(1 << 20):
            got += piece
    return bytes(got)


def ask(method, path, body=b""):
    """The status and the body of an answer, or of a fault its text alone."""
    head = "%s %s HTTP/1.1\r\ncontent-length: %d\r\n\r\n" % (method, path, len(body))
    head, _, answer = exchange(head.encode() + body).partition(b"\r\n\r\n")
    if not head:
        return 0, "no answer"
    status = int(head.split(b" ")[1])
    return (status, answer) if status == 200 else (status, json.loads(answer)["message"])


def check(name, want, call):
    try:
        got = call()
        ok, why = (got == want), "%.200r, wanted %.200r" % (got, want)
        after = ask("GET", "/subjects")
        if after[0] != 200:
            ok, why = False, why + "; then GET /subjects: %r" % (after,)
    except Exception as fault:
        ok, why = False, repr(fault)
    print("ok " + name if ok else "FAILED %s: %s" % (name, why), flush=True)


def register(subject, text):
    answer = ask("POST", "/subjects/%s/versions" % subject, json.dumps({"schema": text}).encode())
    return json.loads(answer[1])["id"] if answer[0] == 200 else answer


def envelope(id, payload):
    return b"\0" + id.to_bytes(4, "big") + payload


def transcode(writer, reader, payload):
    """A payload's answer, without its envelope where it is rewritten."""
    status, answer = ask("POST", "/transcode/%d" % reader, envelope(writer, payload))
    if status == 200 and answer[:5] != envelope(reader, b""):
        return status, answer[:5]
    return status, answer[5:] if status == 200 else answer


def number(n):
    n, out = n << 1 ^ n >> 63, bytearray()
    while n > 127:
        out.append(n & 127 | 128)
        n >>= 7
    return bytes(out) + bytes([n])


def nested(levels, begin, middle, end):
    return begin * levels + middle + end * levels


def padded(text):
    """A schema's text, which has the word PAD where more letters may stand, at the greatest length."""
    return text.replace("PAD", "x" * (TEXT - len(text.encode()) + 3), 1)


# Schemas, each a text with PAD somewhere and a payload of it.

def arrays(levels):
    inner = '{"type":"array","doc":"PAD","items":"int"}'
    return nested(levels - 1, '{"type":"array","items":', inner, "}"), b"\2" * levels + b"\6" + b"\0" * levels

def maps(levels):
    inner = '{"type":"map","doc":"PAD","values":"int"}'
    return nested(levels - 1, '{"type":"map","values":', inner, "}"), b"\2\2k" * levels + b"\6" + b"\0" * levels

def unions(levels):
    """Unions in one another by arrays, of two levels of JSON each."""
    many, odd = divmod(levels, 2)
    inner = '{"type":"fixed","name":"F","doc":"PAD","size":1}' if odd else '"null"'
    payload = (b"\2\2" * many + (b"a" if odd else b"")) + b"\0" * many
    return nested(many, '["null",{"type":"array","items":', inner, "}]"), payload

def records(levels):
    """Records in one another, of three levels of JSON each."""
    many = (levels - 1) // 3
    begin = "".join('{"type":"record","name":"R%d","fields":[{"name":"f","type":' % i for i in range(many))
    return begin + '{"type":"int","doc":"PAD"}' + "}]}" * many, b"\6"

def standing(levels):
    """Objects that each stand for the next."""
    return nested(levels - 1, '{"type":', '{"type":"int","doc":"PAD"}', "}"), b"\6"

def ignored(levels):
    """Arrays of JSON in an attribute that nothing reads, as many as there is room for."""
    one = nested(levels - 2, "[", "", "]")
    many = (TEXT - 100) // (len(one) + 1)
    return '{"type":"int","doc":"PAD","more":[%s]}' % ",".join([one] * many), b"\6"

def defaults(levels):
    """A default of arrays in arrays, which ends in many numbers, of a type as deep."""
    kind = nested(levels - 3, '{"type":"array","items":', '"int"', "}")
    value = nested(levels - 4, "[", "[%s]" % ",".join("1" * 100_000), "]")
    return '{"type":"record","name":"D","doc":"PAD","fields":[{"name":"d","type":%s,"default":%s}]}' % (kind, value), b"\0"

def record_defaults(levels):
    """A default of records in one another by arrays, two levels of JSON each."""
    value = nested((levels - 5) // 2, '{"c":[', '{"c":[]}', "]}")
    kind = '{"type":"record","name":"C","fields":[{"name":"c","type":{"type":"array","items":"C"}}]}'
    return '{"type":"record","name":"D","doc":"PAD","fields":[{"name":"c","type":%s,"default":%s}]}' % (kind, value), b"\0"

def symbols(levels):
    """An enum of many symbols, in arrays in arrays."""
    names = ",".join('"S%04d"' % i for i in range(4096))
    inner = '{"type":"enum","name":"E","doc":"PAD","symbols":[%s]}' % names
    return nested(levels - 2, '{"type":"array","items":', inner, "}"), b"\2" * (levels - 2) + number(4095) + b"\0" * (levels - 2)

SHAPES = arrays, maps, unions, records, standing, ignored, defaults, record_defaults, symbols


def greatest_depth(shape):
    """Up to which depth a shape is taken, and what the deeper ones are answered."""
    taken, others = 0, set()
    for levels in range(DEPTH - 1, DEPTH + 2) if SHORT else range(DEPTH - 5, DEPTH + 14):
        answer = register("depth.%s.%d" % (shape.__name__, levels), padded(shape(levels)[0]))
        if isinstance(answer, int):
            taken = levels
        else:
            others.add(answer)
    return taken, others


def rewritten(name, writer, reader, payload, want=None):
    """A message from one schema to the other, which read the same and differ in what is ignored; and whether they go together."""
    one, two = register(name + ".writer", writer), register(name + ".reader", reader)
    if not isinstance(one, int) or not isinstance(two, int):
        return one, two
    goes = ask("POST", "/compatibility/subjects/%s.writer/versions/latest" % name, json.dumps({"schema": reader}).encode())
    if goes != (200, b'{"is_compatible":true}'):
        return goes
    again = register(name + ".writer", reader)
    if again != two:
        return again
    if one == two:
        return "one schema"
    answer = transcode(one, two, payload)
    return "rewritten" if answer == (200, payload) else answer


def shapes():
    for shape in SHAPES:
        text, payload = shape(DEPTH)
        writer = padded(text)
        reader = padded(text).replace("xxx", "yyy", 1)
        check("%s, %d levels of JSON in %d bytes" % (shape.__name__, DEPTH, len(writer)), "rewritten",
              lambda: rewritten(shape.__name__, writer, reader, payload))
        more = padded(text).replace("xxx", "xxxx", 1)
        check("%s, a byte too many" % shape.__name__, (422, "invalid schema: TooLarge"), lambda: register(shape.__name__ + ".more", more))
    for shape in (arrays, maps, standing, ignored, unions):
        check("%s: %d levels of JSON are taken, and no more" % (shape.__name__, DEPTH), (DEPTH, {(422, "invalid schema: NotJson")}),
              lambda: greatest_depth(shape))


def crossed_unions(members, levels):
    """Unions in one another by arrays, each of so many fixed, which are defined in the first."""
    letters = string.ascii_letters + "_"
    names = [*letters, *(a + b for a in letters for b in letters + string.digits)][:members]
    first = ",".join('{"type":"fixed","name":"%s","size":1}' % name for name in names)
    others = ",".join('"%s"' % name for name in names)
    into = ',{"type":"array","items":['
    text = "[" + first + into + (others + into) * (levels - 2) + others + "]" + "}]" * (levels - 1)
    payload = (number(members) + b"\2") * (levels - 1) + number(members - 1) + b"z" + b"\0" * (levels - 1)
    return text, payload


def unions_of_many_members():
    for members, levels in ((775, 61), (980, 20)):
        writer, payload = crossed_unions(members, levels)
        reader = writer.replace('"size":1', '"doc":"", "size":1', 1)
        texts = {"writer": writer, "reader": reader}
        check("%d unions in one another, of %d fixed each, in %d bytes" % (levels, members, len(writer)), "rewritten",
              lambda: rewritten("crossed-%d" % members, writer, reader, payload))
        check("the same, cut", (422, "malformed Truncated at %d" % (len(payload) - levels)),
              lambda: transcode(*(register("crossed-%d.%s" % (members, text), texts[text]) for text in texts), payload[:-levels]))


def registered(name, text, *parts):
    """The ids of a text with each of these parts in it."""
    return [register("%s-%d" % (name, i), text % part) for i, part in enumerate(parts)]


def many_data():
    """Data of as many items as there may be, and of records that are turned round."""
    [nulls] = registered("nulls", '{"type":"array","items":"%s"}', "null")
    check("2^20 items", (200, number(1 << 20) + b"\0"), lambda: transcode(nulls, nulls, number(1 << 20) + b"\0"))
    check("2^20 + 1 items", (422, "malformed TooMany at 4"), lambda: transcode(nulls, nulls, number((1 << 20) + 1) + b"\0"))
    ints, longs = registered("numbers", '{"type":"array","items":"%s"}', "int", "long")
    check("2^20 blocks of an item", (200, number(1 << 20) + b"\6" * (1 << 20) + b"\0"), lambda: transcode(ints, longs, b"\2\6" * (1 << 20) + b"\0"))
    a, b, rows = '{"name":"a","type":"int"}', '{"name":"b","type":"string"}', (1 << 19) - 1
    pairs, turned = registered("pairs", '{"type":"array","items":{"type":"record","name":"P","fields":[%s,%s]}}', (a, b), (b, a))
    check("2^19 - 1 records, each turned round", (200, number(rows) + b"\2k\6" * rows + b"\0"),
          lambda: transcode(pairs, turned, number(rows) + b"\6\2k" * rows + b"\0"))
    b = '{"name":"b","type":["null","R"]}'
    lists, backs = registered("lists", '{"type":"record","name":"R","fields":[%s,%s]}', (a, b), (b, a))
    check("a record in itself, each turned round, %d levels" % LEVELS, (200, b"\2" * (LEVELS - 1) + b"\0" + b"\6" * LEVELS),
          lambda: transcode(lists, backs, b"\6\2" * (LEVELS - 1) + b"\6\0"))


def sized(levels):
    """Records in one another, each but the last the only item of the array of the one before it, in a block with its size."""
    data = b"\0"
    for _ in range(levels - 1):
        data = b"\1" + number(len(data)) + data + b"\0"
    return data


def deep_data():
    plain = '{"type":"record","name":"R","fields":[{"name":"r","type":["null","R"]}]}'
    listed = '{"type":"record","name":"R","fields":[{"name":"r","type":{"type":"array","items":"R"}}]}'
    mapped = '{"type":"record","name":"R","fields":[{"name":"r","type":{"type":"map","values":"R"}}]}'
    for name, text, each, end in ("a union", plain, b"\2", b""), ("an array", listed, b"\2", b"\0"), ("a map", mapped, b"\2\2k", b"\0"):
        texts = (padded(text.replace('"name":"R"', '"name":"R","doc":"%sPAD"' % which, 1)) for which in "wr")
        one, two = (register("deep-" + name[-3:], one) for one in texts)
        step = 2 if end else 1  # an array or a map is a level too
        for levels in LEVELS // step, LEVELS // step + 1:
            payload = each * (levels - 1) + b"\0" + end * (levels - 1)
            want = (200, payload) if levels * step <= LEVELS else (422, "malformed TooDeep at %d" % (len(each) * (levels - 1)))
            check("a record in itself by %s, %d levels" % (name, levels * step), want, lambda: transcode(one, two, payload))
    texts = (padded(listed.replace('"name":"R"', '"name":"R","doc":"%sPAD"' % which, 1)) for which in "wr")
    one, two = (register("sized", one) for one in texts)
    for levels in 20, 100, LEVELS // 2:
        check("a record in itself by an array with its size, %d levels" % (2 * levels), (200, b"\2" * (levels - 1) + b"\0" * levels), lambda: transcode(one, two, sized(levels)))
    endless = register("endless", '{"type":"record","name":"R","fields":[{"name":"r","type":"R"}]}')
    check("a record in itself", (422, "malformed TooDeep at 0"), lambda: transcode(endless, endless, b""))


def fields(count, kind, first="", pad="PAD", default=""):
    each = ['{"name":"f%d","type":%s%s}' % (i, kind, default) for i in range(count)]
    return '{"type":"record","name":"R","doc":"%s","fields":[%s]}' % (pad, ",".join(([first] if first else []) + each))


def wide_records():
    fixed = '{"name":"g","type":{"type":"fixed","name":"F","size":1}}'
    too_large = (422, "invalid schema: TooLarge")
    for name, good, bad, payload in (("1,024 nodes", fields(1023, '"int"'), fields(1024, '"int"'), b"\6" * 1023),
                                     ("1,024 fields of one fixed", fields(1023, '"F"', fixed), fields(1024, '"F"', fixed), b"a" * 1024)):
        writer = padded(good)
        reader = writer.replace("xxx", "yyy", 1)
        subject = "wide-" + name.split()[-1]
        check("a record of %s" % name, "rewritten", lambda: rewritten(subject, writer, reader, payload))
        check("a record of %s, and one more" % name, too_large, lambda: register(subject + ".more", padded(bad)))
    reader = register("wide-default", padded(fields(1023, '"int"', default=',"default":-1')))
    empty = register("wide-empty", fields(0, "", pad=""))
    check("a record of 1,023 defaults", (200, b"\1" * 1023), lambda: transcode(empty, reader, b""))


def deep_bodies():
    for levels in (10_000, 2_000_000):
        whole = nested(levels, "[", "", "]")
        bodies = {"arrays": whole, "objects": nested(levels, '{"a":', "1", "}"), "arrays that do not end": "[" * levels,
                  "a schema of arrays": '{"schema":%s}' % whole}
        for name, body in bodies.items():
            for route in "POST /subjects/s/versions", "POST /subjects/s", "POST /compatibility/subjects/s/versions/1", "PUT /config":
                check("%s of %s, %d levels deep" % (route, name, levels), (400, "bad request"), lambda: ask(*route.split(), body.encode()))
    text = json.dumps({"schema": nested(130_000, "[", "", "]")}).encode()
    check("a schema of arrays of JSON 130,000 levels deep", (422, "invalid schema: NotJson"), lambda: ask("POST", "/subjects/s/versions", text))


def cut_heads():
    """A request that ends at each place, closed there or left idle."""
    whole = b"GET /config HTTP/1.1\r\nHost: xy\r\n\r\n"
    posted = b"POST /transcode/1 HTTP/1.1\r\nContent-Length: 10\r\n\r\n0123456789"
    bad = b'{"error_code":400,"message":"bad request"}'
    for request in (whole, posted):
        def closed():
            answers = [exchange(request[:at], half_closed=True).partition(b"\r\n\r\n")[2] for at in range(len(request))]
            return [at for at, answer in enumerate(answers) if answer != (bad if at else b"")]
        check("%r, cut and closed at each of %d places" % (request[:12], len(request)), [], closed)

    def idle():
        """Two at a time, as there are two clients; the server closes, with a fault or with none."""
        wrong = []
        for at in range(0, len(whole), 10 if SHORT else 2):
            connections = [socket.create_connection(("127.0.0.1", port), timeout=timeout + PATIENCE) for _ in range(2)]
            for more, connection in enumerate(connections):
                connection.sendall(whole[:at + more])
            for more, connection in enumerate(connections):
                try:
                    got = b"".join(iter(lambda: connection.recv(1 << 16), b""))
                except ConnectionResetError:
                    got = b"reset"
                except socket.timeout:
                    got = b"still open"
                connection.close()
                if got.partition(b"\r\n\r\n")[2] not in (bad, b"") or (got and not got.startswith(b"HTTP/1.1 400 ")):
                    wrong.append((at + more, got))
        return wrong
    check("%r, left idle at each of %d places, is closed" % (whole[:12], len(whole)), [], idle)


for part in shapes, unions_of_many_members, deep_data, many_data, wide_records, deep_bodies, cut_heads:
    if len(sys.argv) == 3 or part.__name__ in sys.argv[3:]:
        try:
            part()
        except Exception as fault:
            print("FAILED %s: %r" % (part.__name__, fault))
print("all were tried")
