"""Answers pairs of schemas and payloads by the built program: for each payload the line that it prints, or its `bad schema` line."""
import subprocess
import sys
from concurrent.futures import ThreadPoolExecutor
from pairs_file import pairs_of

PROCESSES = 2


def answers_of(program, pair):
    writer, reader, payloads = pair
    text = "".join(line + "\n" for line in (writer, reader, *payloads))
    done = subprocess.run([program, "transcode"], input=text.encode(), stdout=subprocess.PIPE)
    lines = done.stdout.decode().split("\n")[:-1]
    if done.returncode == 1 and len(lines) == 1:
        return lines * len(payloads)
    if done.returncode != 0 or len(lines) != len(payloads):
        return ["status %d, %d lines" % (done.returncode, len(lines))] * len(payloads)
    return lines


def main(program, given, answers):
    with open(answers, "w", encoding="utf-8") as out, ThreadPoolExecutor(PROCESSES) as pool:
        for lines in pool.map(lambda pair: answers_of(program, pair), pairs_of(given)):
            out.writelines(line + "\n" for line in lines)


if __name__ == "__main__":
    main(*sys.argv[1:4])
