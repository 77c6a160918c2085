"""Writes random pairs of schemas with payloads: for each pair a line with the number of payloads, the two schemas, and the payloads."""
import json
import random
import sys
from evolution import Evolution
from model import Model
from payloads import broken, pairs, spelled, valid
from random_schemas import Maker
from rules import rules_of
from schema_text import Text, text_of
from spoil import Spoiler

LIBRARIES = [rules_of("python"), rules_of("java")]
STEPS = 3000


def ends(models, payload):
    """Whether nobody takes more than so many steps for a payload."""
    return all(model.answer(payload, STEPS)[0] != "endless" for model in models)


def spoiled(rng, holder):
    return json.dumps(Spoiler(rng, Text(rng).of(holder["type"])).spoiled(), ensure_ascii=rng.random() < 0.5)


def pair(rng):
    """A pair of schemas and some payloads of the first."""
    holder = Maker(rng).schema()
    other = Maker(rng).schema() if rng.random() < 0.03 else Evolution(rng, holder).evolved()
    writer = spoiled(rng, holder) if rng.random() < 0.02 else text_of(rng, holder)
    reader = spoiled(rng, other) if rng.random() < 0.04 else text_of(rng, other)
    if rng.random() < 0.002:
        reader = reader[:rng.randrange(len(reader))]
    given = [valid(rng, holder["type"]) for _ in range(rng.choice((2, 3)))] + [broken(rng, holder["type"]) for _ in range(2)]
    models = [Model(writer, reader, rules) for rules in LIBRARIES + [()]]
    return writer, reader, [payload for payload in given if ends(models, payload)]


def chain(depth):
    """A payload of a record in a record, so many times."""
    return b"\2" * (depth - 1) + b"\0"


def rare():
    """Pairs that show what is seldom drawn: records in themselves, and blocks whose count is -2^63."""
    endless = '{"type":"array","items":{"type":"record","name":"A","fields":[{"name":"a","type":"A"}]}}'
    yield endless, endless, [b"\0", b"\2"]
    kind = '{"type":"record","name":"Kind","fields":[{"name":"right","type":["null","Item"]}]}'
    item = '{"type":"record","name":"Item","fields":[{"name":"note","type":{"type":"array","items":"Item"}},{"name":"tags","type":%s}]}' % kind
    yield item, '{"type":"record","name":"Item","fields":[]}', [b"\0\0", b"\2\0\0\0\0"]
    least = spelled((1 << 64) - 1) + b"\0"
    longs = '{"type":"array","items":"long"}'
    yield longs, longs, [least, b"\2\6" + least]
    for kind in ("long", "string"):
        holder = '{"type":"record","name":"R","fields":[{"name":"a","type":%s},{"name":"b","type":"%s"}]}' % (longs, kind)
        yield holder, holder, [least + b"\2\6"]


def at_limits():
    """Pairs at our limits, and just beyond."""
    node = '{"type":"record","name":"Node","fields":[{"name":"next","type":["null","Node"]}]}'
    yield node, node, [chain(1000), chain(1001)]
    yield '{"type":"record","name":"R","fields":[{"name":"a","type":"bytes"}]}', '{"type":"record","name":"R","fields":[]}', [spelled(pairs(1 << 25))]
    nulls = '{"type":"array","items":"null"}'
    yield nulls, nulls, [spelled(pairs(1 << 20)) + b"\0", spelled(pairs((1 << 20) + 1)) + b"\0"]
    for count in (1023, 1024):
        fields = ",".join('{"name":"f%d","type":"null"}' % index for index in range(count))
        text = '{"type":"record","name":"R","fields":[%s]}' % fields
        yield text, text, [b""]
    for count in (4096, 4097):
        text = '{"type":"enum","name":"E","symbols":[%s]}' % ",".join('"S%d"' % index for index in range(count))
        yield text, text, [b"\0", spelled(pairs(count - 1))]
    for size in (1 << 20, (1 << 20) + 1):
        text = '{"type":"fixed","name":"F","size":%d}' % size
        yield text, text, [b"abc", bytes(size)]
    for length in (262144, 262145):
        text = '{"type":"null","doc":"%s"}' % ("a" * (length - 24))
        yield text, '"null"', [b""]


def main(path, count, seed):
    given = list(rare()) + list(at_limits())
    rng = random.Random(seed)
    with open(path, "w", encoding="utf-8", newline="\n") as out:
        for index in range(count):
            writer, reader, payloads = given[index] if index < len(given) else pair(rng)
            out.write("%d\n%s\n%s\n" % (len(payloads), writer, reader))
            out.writelines(payload.hex() + "\n" for payload in payloads)


if __name__ == "__main__":
    main(sys.argv[1], int(sys.argv[2]), int(sys.argv[3]))
