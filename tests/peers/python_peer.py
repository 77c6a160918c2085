"""Answers pairs of schemas and payloads by Apache Avro for Python: for each payload a line, `done HEX` or `refused: WHY`."""
import io
import sys
import threading
import warnings
import avro.io
import avro.schema
from pairs_file import pairs_of


def why(error):
    return "refused: " + " ".join(("%s: %s" % (type(error).__name__, error)).split())[:300]


def answer(writer, reader, payload):
    try:
        datum = avro.io.DatumReader(writer, reader).read(avro.io.BinaryDecoder(io.BytesIO(bytes.fromhex(payload))))
        out = io.BytesIO()
        avro.io.DatumWriter(reader).write(datum, avro.io.BinaryEncoder(out))
        return "done " + (out.getvalue().hex() or "-")
    except Exception as error:
        return why(error)


def main(given, answers):
    with open(answers, "w", encoding="utf-8", errors="replace") as out:
        for writer, reader, payloads in pairs_of(given):
            try:
                schemas = avro.schema.parse(writer), avro.schema.parse(reader)
            except Exception as error:
                out.writelines(why(error) + "\n" for _ in payloads)
                continue
            out.writelines(answer(*schemas, payload) + "\n" for payload in payloads)


if __name__ == "__main__":
    warnings.simplefilter("ignore")
    sys.setrecursionlimit(40000)
    threading.stack_size(1 << 29)
    thread = threading.Thread(target=main, args=sys.argv[1:3])
    thread.start()
    thread.join()
