"""Writes pairs of schemas and payloads of tests/peers' generator with what the model of the specification answers to
each, for the tests of the bindings: for each pair a line with the number of payloads, the two schemas, and for each
payload a line `HEX ANSWER`, where no bytes are `-`. An answer is `done HEX`, `mismatch KIND NODE NODE`,
`malformed KIND at OFFSET`, `bad schema 1 FAULT` or `bad schema 2 FAULT`."""
import os
import random
import sys

sys.path.insert(0, os.path.join(os.path.dirname(os.path.abspath(__file__)), "..", "peers"))
import generate
from model import Model


def main(path, count, seed):
    """Returns how many payloads there are."""
    total = 0
    given = list(generate.rare()) + list(generate.at_limits())
    rng = random.Random(seed)
    with open(path, "w", encoding="utf-8", newline="\n") as out:
        for index in range(count):
            writer, reader, payloads = given[index] if index < len(given) else generate.pair(rng)
            model, total = Model(writer, reader), total + len(payloads)
            out.write("%d\n%s\n%s\n" % (len(payloads), writer, reader))
            out.writelines("%s %s\n" % (payload.hex() or "-", model.answer(payload)[0]) for payload in payloads)
    return total


if __name__ == "__main__":
    print(main(sys.argv[1], int(sys.argv[2]), int(sys.argv[3])))
