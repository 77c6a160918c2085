"""The Python part of tests/clients.sh: each call of Confluent's client for Python (its new and its old registry client), of
requests, and messages that the client's own serializers write and read, with /transcode between them.
Usage: clients.py URL   (a server of `avrogate serve`; subjects of other names do not matter)"""
import io, json, logging, sys, types
import avro.io, avro.schema, requests

def stand_in():
    """The three functions that the client's AvroSerializer and AvroDeserializer take from fastavro, by Apache Avro."""
    def parsed(schema):
        return avro.schema.parse(json.dumps(schema))

    def write(out, schema, datum):
        avro.io.DatumWriter(parsed(schema)).write(datum, avro.io.BinaryEncoder(out))

    def read(given, writer, reader=None, return_record_name=False):
        return avro.io.DatumReader(parsed(writer), parsed(reader or writer)).read(avro.io.BinaryDecoder(given))

    fast = types.ModuleType("fastavro")
    fast.parse_schema, fast.schemaless_writer, fast.schemaless_reader = lambda schema: schema, write, read
    return fast

try:
    import fastavro
    BY = "fastavro"
except ImportError:  # Debian 12 has none
    sys.modules["fastavro"] = stand_in()
    BY = "python3-avro in place of fastavro"

from confluent_kafka.avro import CachedSchemaRegistryClient, loads
from confluent_kafka.avro.error import ClientError
from confluent_kafka.avro.serializer.message_serializer import MessageSerializer
from confluent_kafka.schema_registry import Schema, SchemaReference, SchemaRegistryClient
from confluent_kafka.schema_registry.avro import AvroDeserializer, AvroSerializer
from confluent_kafka.schema_registry.error import SchemaRegistryError
from confluent_kafka.serialization import MessageField, SerializationContext

url = sys.argv[1]
logging.disable(logging.CRITICAL)
JSON = "application/vnd.schemaregistry.v1+json"


def told(call):
    """What a call answers, or what it raises, as a client's user sees it."""
    try:
        return call()
    except SchemaRegistryError as fault:
        return fault.http_status_code, fault.error_code, fault.error_message
    except ClientError as fault:
        return fault.message
    except Exception as fault:
        return repr(fault)


def check(name, want, call):
    got = told(call)
    print("works " + name if got == want else "FAILED %s: %.300r, wanted %.300r" % (name, got, want))


def left_out(name, want, call):
    """A call that the profile leaves out, and the refusal that names it."""
    got = told(call)
    if got == want:
        print("left out %s: %s" % (name, "%d %s (%d)" % (got[0], got[2], got[1]) if isinstance(got, tuple) else got))
    else:
        print("FAILED to refuse what is left out: %s: %.300r, wanted %.300r" % (name, got, want))


def record(name, *fields, **more):
    """A record of fields, each a name, a type and maybe a default, or as JSON has it."""
    fields = [field if isinstance(field, dict) else dict(zip(("name", "type", "default"), field)) for field in fields]
    return {"type": "record", "name": name, "fields": fields, **more}


def enum(name, *symbols, **more):
    return {"type": "enum", "name": name, "symbols": list(symbols), **more}


def fixed(name, size):
    return {"type": "fixed", "name": name, "size": size}


def array(items):
    return {"type": "array", "items": items}


def map_of(values):
    return {"type": "map", "values": values}


def compact(schema):
    """The text that a registry of this project answers for a schema."""
    return json.dumps(schema, separators=(",", ":"), sort_keys=True)


def registered(found):
    return found.schema_id, found.schema.schema_str, found.subject, found.version


FIRST = record("T", ("a", "long"), ("b", "string"))
WORSE = record("T", ("a", "long"), ("b", "string"), ("c", "int"))
BETTER = record("T", ("a", "long"), ("b", "string"), ("c", "int", 0))
OTHER = record("T", ("a", "string"))


def new_client():
    def client():
        return SchemaRegistryClient({"url": url})  # a client keeps what it has seen, so that only a new one asks

    def schema(value, kind="AVRO", references=()):
        return Schema(json.dumps(value), kind, list(references))

    s, first, worse, better, other = "py.new-value", *map(schema, (FIRST, WORSE, BETTER, OTHER))
    one = client().register_schema(s, first)
    print("works register_schema")
    check("register_schema again", one, lambda: client().register_schema(s, first))
    check("register_schema in another spelling", one, lambda: client().register_schema(s, Schema(json.dumps(FIRST, indent=3), "AVRO")))
    check("register_schema under another subject", one, lambda: client().register_schema("py.new-key", first))
    check("register_schema, incompatible", (409, 409, "incompatible schema"), lambda: client().register_schema(s, worse))
    check("register_schema, a next version", one + 1, lambda: client().register_schema(s, better))
    check("register_schema, no schema", (422, 42201, "invalid schema: Unknown"), lambda: client().register_schema(s, schema("flaot")))
    check("register_schema, no JSON", (422, 42201, "invalid schema: NotJson"), lambda: client().register_schema(s, Schema("{", "AVRO")))
    check("get_schema", compact(FIRST), lambda: client().get_schema(one).schema_str)
    check("get_schema of no id", (404, 40403, "schema not found"), lambda: client().get_schema(99999))
    check("lookup_schema", (one, compact(FIRST), s, 1), lambda: registered(client().lookup_schema(s, first)))
    check("lookup_schema of none", (404, 40403, "schema not found"), lambda: client().lookup_schema(s, worse))
    check("lookup_schema, no subject", (404, 40401, "subject not found"), lambda: client().lookup_schema("py.none", first))
    check("get_latest_version", (one + 1, compact(BETTER), s, 2), lambda: registered(client().get_latest_version(s)))
    check("get_latest_version, no subject", (404, 40401, "subject not found"), lambda: client().get_latest_version("py.none"))
    check("get_version", (one, compact(FIRST), s, 1), lambda: registered(client().get_version(s, 1)))
    check("get_version of no version", (404, 40402, "version not found"), lambda: client().get_version(s, 3))
    check("get_version 0", (422, 42202, "invalid version"), lambda: client().get_version(s, 0))
    check("get_versions", [1, 2], lambda: client().get_versions(s))
    check("get_versions, no subject", (404, 40401, "subject not found"), lambda: client().get_versions("py.none"))
    check("get_subjects", ["py.new-key", s], lambda: [name for name in client().get_subjects() if name.startswith("py.new")])
    check("test_compatibility", [True, True, False], lambda: [client().test_compatibility(s, each) for each in (better, worse, other)])
    check("test_compatibility with a version", [True, False], lambda: [client().test_compatibility(s, each, 1) for each in (better, worse)])
    check("test_compatibility with no version", (404, 40402, "version not found"),
          lambda: told_by_post("compatibility/subjects/%s/versions/9" % s, FIRST))
    check("get_compatibility", "BACKWARD", lambda: client().get_compatibility())
    check("get_compatibility of a subject without a level", "BACKWARD", lambda: client().get_compatibility(s))
    for level in ("NONE", "BACKWARD", "BACKWARD_TRANSITIVE", "FORWARD", "FORWARD_TRANSITIVE", "FULL", "FULL_TRANSITIVE"):
        check("set_compatibility " + level, ({"compatibility": level}, level),
              lambda: (client().set_compatibility(s, level), client().get_compatibility(s)))
    check("set_compatibility of all subjects", ({"compatibility": "FULL"}, "FULL", {"compatibility": "BACKWARD"}),
          lambda: (client().set_compatibility(level="FULL"), client().get_compatibility("py.none"),
                   client().set_compatibility(level="BACKWARD")))
    check("set_compatibility to no level", (422, 42203, "invalid level"), lambda: client().set_compatibility(s, "SOMETIMES"))
    check("set_compatibility NONE, then what was incompatible", ((409, 409, "incompatible schema"), "NONE", one + 2),
          lambda: (told(lambda: client().register_schema(s, other)), client().set_compatibility(s, "NONE")["compatibility"],
                   client().register_schema(s, other)))

    out = (405, 405, "method not allowed")
    left_out("delete_subject", out, lambda: client().delete_subject(s))
    left_out("delete_version", out, lambda: client().delete_version(s, 1))
    body = (422, 42201, "invalid schema: Body")
    left_out("schema references", body, lambda: client().register_schema(s, schema(FIRST, references=[SchemaReference("T", s, 1)])))
    left_out("schemas of type JSON", body, lambda: client().register_schema(s, schema({"type": "object"}, "JSON")))
    left_out("schemas of type PROTOBUF", body, lambda: client().register_schema(s, Schema('syntax = "proto3";', "PROTOBUF")))
    for kind in ("float", "double", {"type": "error", "name": "E", "fields": []}):
        left_out("type " + (kind if isinstance(kind, str) else "error"), (422, 42201, "invalid schema: OutOfProfile"),
                 lambda: client().register_schema("py.out", schema(kind)))
    left_out("a subject outside letters, digits, '.', '_', '-' (the client sends %3A)", (422, 42261, "invalid subject"),
             lambda: client().register_schema("py:new", first))


def old_client():
    def client():
        return CachedSchemaRegistryClient({"url": url})

    s, first, worse, better = "py.old-value", *(loads(json.dumps(each)) for each in (FIRST, WORSE, BETTER))
    one = client().register(s, first)
    print("works register")
    check("register, incompatible", "Incompatible Avro schema:409 message:{'error_code': 409, 'message': 'incompatible schema'}",
          lambda: client().register(s, worse))
    two = client().register(s, better)
    check("check_registration", [one, two], lambda: [client().check_registration(s, each) for each in (first, better)])
    check("check_registration of none", "Schema or subject not found:404", lambda: client().check_registration(s, worse))
    check("get_by_id", first, lambda: client().get_by_id(one))
    check("get_by_id of none", None, lambda: client().get_by_id(99999))
    check("get_latest_schema", (two, better, 2), lambda: client().get_latest_schema(s))
    check("get_latest_schema, no subject", (None, None, None), lambda: client().get_latest_schema("py.none"))
    check("get_by_version", (one, first, 1), lambda: client().get_by_version(s, 1))
    check("get_version of a schema", [1, 2, None], lambda: [client().get_version(s, each) for each in (first, better, worse)])
    check("test_compatibility of the old client", [True, False],
          lambda: [client().test_compatibility(s, each, 1) for each in (better, worse)])
    check("update_compatibility", ["FULL", "FULL"], lambda: [client().update_compatibility("FULL", s), client().get_compatibility(s)])
    check("update_compatibility of all subjects", ["FORWARD", "FORWARD", "BACKWARD"],
          lambda: [client().update_compatibility("FORWARD"), client().get_compatibility(), client().update_compatibility("BACKWARD")])


def asked(method, path, body=None, **more):
    """The status, the code of a fault if it is one, and the body or the fault's message."""
    data = body if body is None or isinstance(body, bytes) else json.dumps(body)
    answer = requests.request(method, "%s/%s" % (url, path), data=data, timeout=300, **more)
    assert answer.headers["connection"] == "close" and int(answer.headers["content-length"]) == len(answer.content), answer.headers
    if answer.status_code == 200 and path.startswith("transcode"):
        assert answer.headers["content-type"] == "application/octet-stream", answer.headers
        return answer.content
    assert answer.headers["content-type"] == JSON and compact(answer.json()).encode() == answer.content, answer.content
    return answer.json() if answer.status_code == 200 else (answer.status_code, answer.json()["error_code"], answer.json()["message"])


def told_by_post(path, schema):
    return asked("POST", path, {"schema": json.dumps(schema)})


def by_requests():
    s = "py.requests"
    one = told_by_post("subjects/%s/versions" % s, FIRST)["id"]
    print("works POST /subjects/{s}/versions by requests")
    found = {"id": one, "schema": compact(FIRST), "subject": s, "version": 1}
    check("POST /subjects/{s} by requests", found, lambda: told_by_post("subjects/" + s, FIRST))
    check("GET /subjects by requests", True, lambda: s in asked("GET", "subjects"))
    check("GET /subjects/{s}/versions by requests", [1], lambda: asked("GET", "subjects/%s/versions" % s))
    check("GET /subjects/{s}/versions/{v} by requests", [found, found],
          lambda: [asked("GET", "subjects/%s/versions/%s" % (s, v)) for v in (1, "latest")])
    check("GET /schemas/ids/{id} by requests", {"schema": compact(FIRST)}, lambda: asked("GET", "schemas/ids/%d" % one))
    check("POST /compatibility by requests", [{"is_compatible": False}, {"is_compatible": True}],
          lambda: [told_by_post("compatibility/subjects/%s/versions/%s" % (s, v), each) for v, each in (("latest", WORSE), (1, BETTER))])
    check("PUT and GET /config/{s} by requests", [{"compatibility": "FULL"}, {"compatibilityLevel": "FULL"}],
          lambda: [asked("PUT", "config/" + s, {"compatibility": "FULL"}), asked("GET", "config/" + s)])
    check("PUT and GET /config by requests", [{"compatibility": "BACKWARD"}, {"compatibilityLevel": "BACKWARD"}],
          lambda: [asked("PUT", "config", {"compatibility": "BACKWARD"}), asked("GET", "config")])
    check("one session of many requests", [[1]] * 20, lambda: many("subjects/%s/versions" % s))
    two = told_by_post("subjects/%s/versions" % s, BETTER)["id"]
    message, rewritten = (b"\0" + id.to_bytes(4, "big") + payload for id, payload in ((one, b"\x36\x06foo"), (two, b"\x36\x06foo\0")))
    check("POST /transcode/{id} by requests", rewritten, lambda: asked("POST", "transcode/%d" % two, message))
    check("a message that is cut", (422, 42250, "malformed Truncated at 4"), lambda: asked("POST", "transcode/%d" % two, message[:-1]))
    check("a message with a byte too many", (422, 42250, "malformed Trailing at 5"),
          lambda: asked("POST", "transcode/%d" % two, message + b"\0"))
    check("a message that has no place in the reader", (422, 42251, "mismatch NoDefault 0 3"),
          lambda: asked("POST", "transcode/%d" % told_by_post("subjects/py.worse/versions", WORSE)["id"], message))
    check("a message without its envelope", (422, 42253, "bad envelope: BadMagic"), lambda: asked("POST", "transcode/%d" % two, b"\x36\x06foo"))
    check("a message too short", (422, 42253, "bad envelope: ShortEnvelope"), lambda: asked("POST", "transcode/%d" % two, message[:4]))
    check("a message of no writer", (404, 40403, "schema not found"), lambda: asked("POST", "transcode/%d" % two, b"\0\0\1\0\0\0"))
    check("a message to no reader", (404, 40403, "schema not found"), lambda: asked("POST", "transcode/99999", message))
    check("a body that is no JSON", (400, 400, "bad request"), lambda: asked("POST", "subjects/%s/versions" % s, b"{"))
    check("a body without a schema", (422, 42201, "invalid schema: Body"), lambda: asked("POST", "subjects/%s/versions" % s, {"schemas": 1}))

    none, method = (404, 404, "no such route"), (405, 405, "method not allowed")
    for path in ("", "schemas", "schemas/types", *("schemas/ids/%d/%s" % (one, more) for more in ("schema", "subjects", "versions")),
                 *("subjects/%s/versions/1/%s" % (s, more) for more in ("schema", "referencedby")),
                 "mode", "mode/" + s, "contexts", "exporters", "v1/metadata/id"):
        left_out("GET /" + path.replace(s, "{s}"), none, lambda: asked("GET", path))
    left_out("PUT /mode", none, lambda: asked("PUT", "mode", {"mode": "READONLY"}))
    left_out("POST /compatibility/subjects/{s}/versions", none, lambda: told_by_post("compatibility/subjects/%s/versions" % s, FIRST))
    for path in ("config", "config/" + s, "subjects/" + s, "subjects/%s/versions/1" % s):
        left_out("DELETE /" + path.replace(s, "{s}"), method, lambda: asked("DELETE", path))
    left_out("bodies in chunks", (400, 400, "bad request"), lambda: chunked("subjects/%s/versions" % s))
    for query in ("deleted=true", "subjectPrefix=x", "deletedOnly=true"):
        left_out("GET /subjects?%s, which is dropped" % query, "answered as without", lambda: same("GET", "subjects", query))
    left_out("POST /subjects/{s}/versions?normalize=true, which is dropped", "answered as without",
             lambda: same("POST", "subjects/%s/versions" % s, "normalize=true"))
    left_out("POST /compatibility?verbose=true, which is dropped", "answered as without",
             lambda: same("POST", "compatibility/subjects/%s/versions/latest" % s, "verbose=true"))
    left_out("GET /config/{s}?defaultToGlobal=true, which is dropped", "answered as without",
             lambda: same("GET", "config/py.none", "defaultToGlobal=true"))


def many(path):
    with requests.Session() as session:
        return [session.get("%s/%s" % (url, path), timeout=300).json() for _ in range(20)]


def chunked(path):
    answer = requests.post("%s/%s" % (url, path), data=iter([b'{"schema":', b'"\\"int\\""}']), timeout=300)
    return answer.status_code, answer.json()["error_code"], answer.json()["message"]


def same(method, path, query):
    body = {"schema": json.dumps(FIRST)} if method == "POST" else None
    one, two = (asked(method, path + more, body) for more in ("", "?" + query))
    return "answered as without" if one == two else two


POINT = record("Point", ("x", "int"), ("y", "int"))
LABELLED = record("Point", ("y", "long"), ("label", "string", "none"), ("x", "long"))
LONG = "größer 中文 😀 " * 20000


def point(x, y):
    return {"x": x, "y": y}


def labelled(x, y):
    return {"x": x, "y": y, "label": "none"}


def linked(*values, **more):
    """A list of records of these values."""
    return {"value": values[0], "next": linked(*values[1:], **more) if values[1:] else None, **more}


# name, the writer's schema, the reader's, what is written, what is read; and whether Apache Avro for Python, given the
# reader's schema, reads the writer's message so too (it has no aliases, no defaults of enums, no promoted items)
PAIRS = [
    ("fields dropped, added and reordered",
     record("T", ("a", "long"), ("b", "string"), ("c", "boolean")), record("T", ("b", "string"), ("d", "int", 7), ("a", "long")),
     {"a": 27, "b": "foo", "c": True}, {"a": 27, "b": "foo", "d": 7}, True),
    ("int to long, string to bytes, bytes to string",
     record("P", ("i", "int"), ("s", "string"), ("b", "bytes")), record("P", ("i", "long"), ("s", "bytes"), ("b", "string")),
     {"i": -2**31, "s": "größer", "b": "naïve".encode()}, {"i": -2**31, "s": "größer".encode(), "b": "naïve"}, False),
    ("unions",
     record("U", ("a", ["null", "string"]), ("b", ["null", "string"]), ("c", "int"), ("d", ["int", "string"])),
     record("U", ("a", ["string", "null"]), ("b", ["null", "string"]), ("c", ["null", "long", "string"]), ("d", ["string", "long"])),
     {"a": "x", "b": None, "c": 5, "d": 6}, {"a": "x", "b": None, "c": 5, "d": 6}, True),
    ("an enum with a default",
     record("S", ("e", enum("E", "A", "B", "C")), ("f", "E")), record("S", ("e", enum("E", "C", "A", default="A")), ("f", "E")),
     {"e": "B", "f": "C"}, {"e": "A", "f": "C"}, False),
    ("arrays and maps of records",
     record("M", ("ps", array(POINT)), ("m", map_of("Point")), ("none", array("int")), ("empty", map_of("int"))),
     record("M", ("m", map_of(LABELLED)), ("ps", array("Point")), ("none", array("long")), ("empty", map_of("long"))),
     {"ps": [point(1, 2), point(-3, 4)], "m": {"p": point(5, 6), "q": point(7, 8)}, "none": [], "empty": {}},
     {"ps": [labelled(1, 2), labelled(-3, 4)], "m": {"p": labelled(5, 6), "q": labelled(7, 8)}, "none": [], "empty": {}}, False),
    ("fixed",
     record("F", ("f", fixed("F4", 4)), ("g", array("F4")), ("h", fixed("Dropped", 16))), record("F", ("g", array(fixed("F4", 4))), ("f", "F4")),
     {"f": b"\0\xff\1\xfe", "g": [b"abcd", b"efgh"], "h": bytes(16)}, {"f": b"\0\xff\1\xfe", "g": [b"abcd", b"efgh"]}, True),
    ("aliases",
     record("Old", ("was", "int"), ("e", enum("Hue", "RED", "BLUE")), namespace="n.old"),
     record("New", {"name": "is", "type": "long", "aliases": ["other", "was"]}, ("e", enum("Color", "BLUE", "RED", aliases=["n.old.Hue"])),
            aliases=["n.old.Old"]),
     {"was": 3, "e": "BLUE"}, {"is": 3, "e": "BLUE"}, False),
    ("a list of records",
     record("Linked", ("value", "long"), ("next", ["null", "Linked"])),
     record("Linked", ("next", ["null", "Linked"]), ("value", "long"), ("n", "int", -1)),
     linked(1, 2, 3), linked(1, 2, 3, n=-1), True),
    ("defaults of simple types",
     record("D", ("keep", "null")),
     record("D", ("b", "boolean", True), ("i", "int", -1), ("l", "long", 2**40), ("s", "string", "ß"), ("y", "bytes", "\u00ff\u0000"),
            ("n", "null", None), ("f", fixed("F2", 2), "\u0001\u00fe"), ("e", enum("E", "A", "B"), "B"), ("keep", "null")),
     {"keep": None}, {"b": True, "i": -1, "l": 2**40, "s": "ß", "y": b"\xff\0", "n": None, "f": b"\1\xfe", "e": "B", "keep": None}, False),
    ("defaults of types with parts",
     record("C", ("keep", "int")),
     record("C", ("a", array("int"), [1, 2]), ("m", map_of("int"), {"k": 1}), ("p", POINT, point(3, 4)), ("u", ["null", "int"], None),
            ("v", ["int", "null"], 9), ("keep", "int")),
     {"keep": 5}, {"a": [1, 2], "m": {"k": 1}, "p": point(3, 4), "u": None, "v": 9, "keep": 5}, True),
    ("names in other namespaces",
     record("a.b.T", ("e", enum("E", "X"))), record("T", ("e", enum("E", "X", "Y", namespace="c")), namespace="d"), {"e": "X"}, {"e": "X"}, False),
    ("a long text",
     record("L", ("s", "string"), ("n", "int")), record("L", ("n", "long"), ("s", "string")),
     {"s": LONG, "n": 2**31 - 1}, {"s": LONG, "n": 2**31 - 1}, True),
    ("many items",
     record("I", ("a", array("int"))), record("I", ("a", array("long"))), {"a": list(range(-5000, 5000))}, {"a": list(range(-5000, 5000))}, False),
]


def transcoded(id, message):
    return asked("POST", "transcode/%d" % id, message)


def serializers():
    for at, (name, writer, reader, written, read, by_apache) in enumerate(PAIRS):
        topic, client = "py.pair-%d" % at, SchemaRegistryClient({"url": url})
        context = SerializationContext(topic, MessageField.VALUE)
        texts = json.dumps(writer), json.dumps(reader)

        def rewritten():
            message = AvroSerializer(client, texts[0])(written, context)
            return message, transcoded(client.register_schema(topic + "-value", Schema(texts[1], "AVRO")), message)

        def reading(reader, message):
            return AvroDeserializer(SchemaRegistryClient({"url": url}), reader)(message, context)

        check("AvroSerializer, transcode, AvroDeserializer: %s (%s)" % (name, BY), read, lambda: reading(texts[1], rewritten()[1]))
        check("AvroDeserializer without the reader's schema: %s" % name, read, lambda: reading(None, rewritten()[1]))
        if by_apache and BY != "fastavro":
            check("as Apache Avro for Python resolves: %s" % name, read, lambda: reading(texts[1], rewritten()[0]))

        def by_old_serializer():
            cached = CachedSchemaRegistryClient({"url": url})
            message = MessageSerializer(cached).encode_record_with_schema(topic + ".old", loads(texts[0]), written)
            answer = transcoded(cached.register(topic + ".old-value", loads(texts[1])), message)
            return MessageSerializer(CachedSchemaRegistryClient({"url": url}), reader_value_schema=loads(texts[1])).decode_message(answer)

        check("MessageSerializer, transcode, MessageSerializer: %s" % name, read, by_old_serializer)


new_client()
old_client()
by_requests()
serializers()
