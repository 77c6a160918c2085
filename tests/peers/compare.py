"""Compares the program's answers with the model's, and with those of two libraries, and explains each difference by rules."""
import sys
import holes
from collections import Counter
from itertools import combinations
from model import Model
from pairs_file import pairs_of
from rules import RULES, rules_of

PEERS = ("python", "java")
SHOWN = 10


def core(line):
    """What counts of an answer: the bytes, or that there are none."""
    return line if line.startswith("done ") else "refused"


def kind_of(line):
    """What kind of answer a line is: `done`, or the name of what is wrong."""
    words = line.split()
    return "bad schema " + words[3] if words[:2] == ["bad", "schema"] else words[0] if words[0] == "done" else " ".join(words[:2])


class Pair:
    """A pair of schemas, with the model by each set of rules that was asked for."""

    def __init__(self, writer, reader):
        self.texts, self.models = (writer, reader), {}

    def model(self, names):
        if names not in self.models:
            self.models[names] = Model(*self.texts, names)
        return self.models[names]

    def answer(self, names, payload):
        return self.model(names).answer(payload)

    def gives(self, names, payload, theirs):
        return core(self.answer(frozenset(names), payload)[0]) == theirs

    def explanation(self, peer, asked, payload, theirs):
        """The fewest rules by which the model gives a library's answer: one or two, or what is left of all when none can be spared."""
        mattering = [rule.name for rule in RULES if rule.name in asked and peer in rule.peers]
        for count in (1, 2):
            for names in combinations(mattering, count):
                if self.gives(names, payload, theirs):
                    return names
        for name in list(mattering):
            fewer = [other for other in mattering if other != name]
            if self.gives(fewer, payload, theirs):
                mattering = fewer
        return mattering

    def has_hole(self, peer, theirs):
        return peer == "java" and holes.is_one(theirs) and holes.may_be(self.model(rules_of(peer)).written_nodes)


class Comparison:
    def __init__(self):
        self.pairs = self.payloads = self.alike = self.ruled = self.several = self.left = 0
        self.seen = {peer: Counter() for peer in PEERS}
        self.kinds = Counter()

    def compare(self, pair, payload, ours, theirs):
        """Compares one payload's answers."""
        self.payloads += 1
        self.kinds[kind_of(ours)] += 1
        problems, differs = [], False
        expected = pair.answer(frozenset(), payload)[0]
        if expected != ours:
            problems.append("the model without rules: %s" % expected)
        for peer in PEERS:
            problems += self.explain(pair, peer, payload, core(ours), theirs[peer])
            differs = differs or core(theirs[peer]) != core(ours)
        self.count(pair, payload, ours, theirs, problems, differs)

    def explain(self, pair, peer, payload, ours, theirs):
        """Counts the rules of a difference. A library's answer that the model with its rules does not give is a problem, even where it is ours."""
        predicted, asked = pair.answer(rules_of(peer), payload)
        if core(predicted) == core(theirs):
            names = pair.explanation(peer, asked, payload, core(theirs)) if core(theirs) != ours else ()
        elif pair.has_hole(peer, theirs):
            names = ("table-with-holes",) if core(theirs) != ours else ()
        else:
            return ["the model with all rules of %s: %s" % (peer, predicted)]
        self.seen[peer].update(names)
        self.several += len(names) > 1
        return []

    def count(self, pair, payload, ours, theirs, problems, differs):
        if problems:
            self.left += 1
            if self.left <= SHOWN:
                print("LEFT OVER\n  writer  %s\n  reader  %s\n  payload %s" % (*pair.texts, payload.hex()))
                print("  program %s" % ours)
                for peer in PEERS:
                    print("  %-7s %s" % (peer, theirs[peer]))
                print("".join("  %s\n" % problem for problem in problems))
        elif differs:
            self.ruled += 1
        else:
            self.alike += 1

    def table(self):
        print("%-28s %8s %8s  %s" % ("rule", *PEERS, "what the library does"))
        for rule in RULES:
            print("%-28s %8s %8s  %s" % (rule.name, *(self.seen[peer][rule.name] if peer in rule.peers else "" for peer in PEERS), rule.sentence))
        print("answers of the program: " + ", ".join("%d %s" % (count, kind) for kind, count in self.kinds.most_common()))
        print("%d differences needed more than one rule" % self.several)
        print("%d pairs, %d payloads: %d alike, %d by rules, %d left over" % (self.pairs, self.payloads, self.alike, self.ruled, self.left))


def main(given, ours, python, java):
    comparison = Comparison()
    with open(ours, encoding="utf-8") as ours, open(python, encoding="utf-8") as python, open(java, encoding="utf-8") as java:
        for writer, reader, payloads in pairs_of(given):
            comparison.pairs += 1
            pair = Pair(writer, reader)
            for payload in payloads:
                lines = [next(answers)[:-1] for answers in (ours, python, java)]
                comparison.compare(pair, bytes.fromhex(payload), lines[0], dict(zip(PEERS, lines[1:])))
    comparison.table()
    return 1 if comparison.left else 0


if __name__ == "__main__":
    sys.exit(main(*sys.argv[1:5]))
