"""What the model answers to payloads of a pair of schemas, with the rules that are given on."""
import sys
import aliases
from defaults import default_datum
from reading import UNITS, Endless, Malformed, Reader
from resolution import Planner, is_endless
from rules import Switches
from schemas import BadSchema, Parser, Refused
from writing import ValueWriter, Writer

ENDLESS = 2 * UNITS
sys.setrecursionlimit(1000000)


class Model:
    def __init__(self, writer, reader, names=()):
        self.names, self.switches = names, Switches(names)
        self.refusal = None
        line = 1
        try:
            written = Parser(self.switches)
            root, self.written_nodes = written.parse(writer), written.nodes
            line, self.parser = 2, Parser(self.switches)
            self.reader = self.parser.parse(reader)
            by_alias = aliases.add_matches(written.nodes, self.parser.nodes, self.switches.take)
            self.plan = Planner(self.switches, default_datum, by_alias).plan(root, self.reader)
            if "endless-record" in names and is_endless(self.plan) and self.switches.take("endless-record"):
                raise Refused("a record in itself")
        except BadSchema as fault:
            self.refusal = "bad schema %d %s" % (line, fault)
        except Refused as why:
            self.refusal = "refused: %s" % why

    def answer(self, payload, steps=ENDLESS):
        """The line that answers a payload, and the rules that came to matter."""
        switches = Switches(self.names)
        line = self.refusal or self.line(payload, switches, steps)
        return line, self.switches.asked | switches.asked

    def line(self, payload, switches, steps):
        reader = Reader(payload, switches, default_datum, steps)
        try:
            datum = reader.read(self.plan)
            if reader.at < len(payload) and not switches.take("trailing-unseen"):
                raise Malformed("Trailing", reader.at)
            if reader.mismatch:
                return "mismatch " + reader.mismatch
            return "done " + (self.written(datum, switches).hex() or "-")
        except Malformed as fault:
            return "malformed %s at %d" % fault.args
        except Refused as why:
            return "refused: %s" % why
        except Endless:
            return "endless"

    def written(self, datum, switches):
        if any(node.kind == "union" for node in self.parser.nodes) and switches.take("branch-by-value"):
            return ValueWriter().write_datum(self.reader, datum)
        return Writer(switches).write(self.reader, datum)
