"""A consumer that upgrades: librdkafka's own mock cluster (its producer's client makes it), messages of two versions
of a schema, and a DeserializingConsumer that has each as a third has it. Each is compared with what this file encodes
itself. The program prints how many there were, and ends with status 1 where one differs.
Usage: kafka_upgrade.py [COUNT]"""
import sys
import time

from avrogate.kafka import Upgrading
from confluent_kafka import DeserializingConsumer, Producer

TOPIC, COUNT, SECONDS = "orders", int(sys.argv[1]) if len(sys.argv) > 1 else 10000, 600
FIELDS = '{"type":"record","name":"Order","fields":[%s]}'
FIRST = FIELDS % '{"name":"number","type":"int"},{"name":"customer","type":"string"}'
SECOND = FIELDS % (
    '{"name":"customer","type":"string"},{"name":"number","type":"long"},'
    '{"name":"tags","type":{"type":"array","items":"string"}}'
)
READER = FIELDS % (
    '{"name":"number","type":"long"},{"name":"customer","type":["null","string"]},'
    '{"name":"tags","type":{"type":"array","items":"string"},"default":[]},'
    '{"name":"paid","type":"boolean","default":false}'
)
WRITERS, READER_ID = {101: FIRST, 102: SECOND}, 103


def number(value):
    """The zig-zag spelling of a number that is not negative."""
    value, out = 2 * value, bytearray()
    while value > 127:
        out.append(value & 127 | 128)
        value >>= 7
    return bytes(out + bytes([value]))


def text(value):
    return number(len(value.encode())) + value.encode()


def strings(values):
    return number(len(values)) + b"".join(map(text, values)) + b"\0" if values else b"\0"


def envelope(id):
    return b"\0" + id.to_bytes(4, "big")


def order(index):
    """An order's number, customer and tags, and whether its message is of the second version."""
    customer = "customer %d %s" % (index % 97, "\u00e9" * (index % 5))
    return index * 7919 % 1000003, customer, ["tag%d" % it for it in range(index % 4)], index % 3 == 0


def sent(index):
    of, customer, tags, is_second = order(index)
    if is_second:
        return envelope(102) + text(customer) + number(of) + strings(tags)
    return envelope(101) + number(of) + text(customer)


def wanted(index):
    of, customer, tags, is_second = order(index)
    return envelope(READER_ID) + number(of) + b"\2" + text(customer) + strings(tags if is_second else []) + b"\0"


def main():
    producer = Producer({"test.mock.num.brokers": 3})
    broker = next(iter(producer.list_topics(timeout=SECONDS).brokers.values()))
    for index in range(COUNT):
        while True:
            try:
                producer.produce(TOPIC, sent(index), key=str(index))
                break
            except BufferError:
                producer.poll(1)
    assert producer.flush(SECONDS) == 0, "not all messages were sent"
    upgrading = Upgrading(READER, READER_ID, WRITERS.__getitem__)
    words = {"bootstrap.servers": "%s:%d" % (broker.host, broker.port), "group.id": "readers"}
    words["auto.offset.reset"] = "earliest"
    consumer = DeserializingConsumer({**words, "value.deserializer": upgrading})
    consumer.subscribe([TOPIC])
    seen, differ, end = set(), 0, time.monotonic() + SECONDS
    while len(seen) < COUNT and time.monotonic() < end:
        message = consumer.poll(1)
        if message is None:
            continue
        assert not message.error(), message.error()
        index = int(message.key())
        seen.add(index)
        differ += message.value() != wanted(index)
    consumer.close()
    upgrading.close()
    print("%d messages upgraded, %d differ" % (len(seen), differ))
    return 0 if len(seen) == COUNT and not differ else 1


if __name__ == "__main__":
    sys.exit(main())
