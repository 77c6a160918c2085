"""The package on pairs of schemas and payloads whose answers are known, in the file that CASES names."""
import os
import threading
import unittest

import avrogate
from avrogate import (
    AvrogateError,
    BadEnvelope,
    BadSchema,
    Closed,
    Malformed,
    Mismatch,
    OtherWriter,
    Status,
    Transcoder,
    can_read,
)

WRITER = '{"type":"record","name":"T","fields":[{"name":"a","type":"long"},{"name":"b","type":"string"}]}'
READER = (
    '{"type":"record","name":"T","fields":[{"name":"b","type":["null","string"]},'
    '{"name":"c","type":"int","default":7}]}'
)
PAYLOAD, OUTPUT = b"\x36\x06foo", b"\x02\x06foo\x0e"


def cases(path):
    """The pairs of a file, each with its payloads and answers."""
    with open(path, encoding="utf-8", newline="\n") as lines:
        for count in lines:
            writer, reader = next(lines)[:-1], next(lines)[:-1]
            rows = [next(lines)[:-1].split(" ", 1) for _ in range(int(count))]
            yield writer, reader, [(b"" if hex == "-" else bytes.fromhex(hex), answer) for hex, answer in rows]


def word(kind):
    """A kind's name as the answers have it."""
    return "".join(part.capitalize() for part in kind.name.removeprefix("SCHEMA_").split("_"))


def line(error):
    """The answer that an error stands for."""
    if isinstance(error, BadSchema):
        return "bad schema %d %s" % (1 if error.status == Status.BAD_WRITER else 2, word(error.fault))
    if isinstance(error, Malformed):
        return "malformed %s at %d" % (word(error.kind), error.offset)
    if isinstance(error, Mismatch):
        return "mismatch %s %d %d" % (word(error.kind), error.writer_node, error.reader_node)
    return error.status.name


def answer(call):
    """The answer of a call."""
    try:
        return "done " + (call().hex() or "-")
    except AvrogateError as error:
        return line(error)


class Cases(unittest.TestCase):
    def test_answers(self):
        count = 0
        for writer, reader, rows in cases(os.environ["CASES"]):
            try:
                transcoder = Transcoder(writer, reader)
            except BadSchema as error:
                for _, wanted in rows:
                    self.assertEqual(line(error), wanted)
                count += len(rows)
                continue
            with transcoder:
                for payload, wanted in rows:
                    self.assertEqual(answer(lambda: transcoder.transcode(payload)), wanted)
                    message = answer(lambda: transcoder.transcode_message(7, 9, b"\0\0\0\0\7" + payload))
                    output = wanted.removeprefix("done ").removeprefix("-")
                    self.assertEqual(message, "done 0000000009" + output if wanted.startswith("done") else wanted)
                batch = transcoder.transcode_batch([payload for payload, _ in rows])
                told = [line(item.error) if item.error else "done " + (item.output.hex() or "-") for item in batch]
                self.assertEqual(told, [wanted for _, wanted in rows])
            count += len(rows)
        self.assertGreater(count, 0)
        print(count, "payloads alone, as messages and in batches")


class Calls(unittest.TestCase):
    def test_versions_agree(self):
        self.assertEqual(avrogate.library_version(), "0.1.0")

    def test_safety(self):
        self.assertTrue(can_read(WRITER, READER))
        self.assertFalse(can_read(READER, WRITER))
        with self.assertRaises(BadSchema):
            can_read("{", READER)

    def test_messages(self):
        with Transcoder(WRITER.encode(), READER) as transcoder:
            self.assertEqual(transcoder.transcode_message(258, 3, b"\0\0\0\1\2" + PAYLOAD), b"\0\0\0\0\3" + OUTPUT)
            with self.assertRaises(OtherWriter) as caught:
                transcoder.transcode_message(258, 3, b"\0\0\0\1\3" + PAYLOAD)
            self.assertEqual(caught.exception.writer_id, 259)
            for bad in (b"", b"\0\0\0\1", b"\1\0\0\1\2" + PAYLOAD):
                with self.assertRaises(BadEnvelope):
                    transcoder.transcode_message(258, 3, bad)

    def test_outputs_longer_than_rooms(self):
        long = b"\x36" + b"\xc0\xbb\x01" + b"x" * 12000
        with Transcoder(WRITER, READER) as transcoder:
            self.assertEqual(len(transcoder.transcode(long)), 12005)
        fixed = '{"type":"fixed","name":"F","size":999}'
        grown = '{"type":"record","name":"R","fields":[{"name":"x","type":%s,"default":"%s"}]}' % (fixed, "." * 999)
        with Transcoder('{"type":"record","name":"R","fields":[]}', grown) as transcoder:
            self.assertEqual([item.output for item in transcoder.transcode_batch([b""] * 100)], [b"." * 999] * 100)

    def test_closed(self):
        transcoder = Transcoder(WRITER, READER)
        transcoder.close()
        transcoder.close()
        for call in (lambda: transcoder.transcode(PAYLOAD), lambda: transcoder.transcode_batch([PAYLOAD])):
            with self.assertRaises(Closed):
                call()

    def test_threads_share_one(self):
        wrong = []

        def work():
            wrong.extend(1 for _ in range(500) if transcoder.transcode(PAYLOAD) != OUTPUT)

        with Transcoder(WRITER, READER) as transcoder:
            threads = [threading.Thread(target=work) for _ in range(4)]
            for thread in threads:
                thread.start()
            for thread in threads:
                thread.join()
        self.assertEqual(wrong, [])


if __name__ == "__main__":
    unittest.main()
