#!/usr/bin/env python3
"""Prints the lines of `avrogate import` that make a registry with Confluent's API again, with its ids.

Usage: from_confluent.py URL > LINES        (for example http://localhost:8081)

Its ids have to be 1, 2, 3 .. without gaps over all subjects, its schemas Avro's and without references; else a line on
standard error says which is not, and the status is 1. Levels are set after all schemas, since a registry may have versions
that its level of today would refuse."""
import json, sys, urllib.parse, urllib.request


def ask(url, path):
    with urllib.request.urlopen(url.rstrip("/") + path, timeout=60) as answer:
        return json.load(answer)


def refuse(why):
    print("from_confluent.py: " + why, file=sys.stderr)
    sys.exit(1)


def versions_of(url):
    """For each subject its versions in their order, each an id and a text of one line."""
    found = {}
    for subject in ask(url, "/subjects"):
        path = "/subjects/%s/versions" % urllib.parse.quote(subject, safe="")
        found[subject] = []
        for number in ask(url, path):
            version = ask(url, "%s/%d" % (path, number))
            if version.get("schemaType", "AVRO") != "AVRO" or version.get("references"):
                refuse("version %d of %s is not an Avro schema without references" % (number, subject))
            text = version["schema"].replace("\r", " ").replace("\n", " ")
            found[subject].append((version["id"], text))
    return found


def in_order(versions):
    """The registrations in an order that gives each schema its id: a version after those before it, a new id after all
    lower ones."""
    done = dict.fromkeys(versions, 0)
    last = 0
    while any(done[subject] < len(of) for subject, of in versions.items()):
        ready = [(of[done[subject]], subject) for subject, of in versions.items() if done[subject] < len(of)]
        (number, text), subject = min(ready, key=lambda version: (version[0][0], version[1]))
        if number > last + 1:
            refuse("no version has the id %d" % (last + 1))
        last = max(last, number)
        done[subject] += 1
        yield subject, text


def levels_of(url, subjects):
    """The level of all, and those of subjects that have their own."""
    yield "*", ask(url, "/config")["compatibilityLevel"]
    for subject in subjects:
        try:
            yield subject, ask(url, "/config/" + urllib.parse.quote(subject, safe=""))["compatibilityLevel"]
        except urllib.error.HTTPError as error:
            if error.code != 404:
                raise


def main():
    if len(sys.argv) != 2:
        sys.exit(__doc__)
    url = sys.argv[1]
    versions = versions_of(url)
    print("level * NONE")
    for subject, text in in_order(versions):
        print("register %s %s" % (subject, text))
    for subject, level in levels_of(url, versions):
        print("level %s %s" % (subject, level))


main()
