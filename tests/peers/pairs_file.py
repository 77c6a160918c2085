"""Reading the file of pairs."""


def pairs_of(path):
    """The pairs of a file: a writer's and a reader's text, and payloads in hexadecimal."""
    with open(path, encoding="utf-8", newline="\n") as given:
        for count in given:
            yield next(given)[:-1], next(given)[:-1], [next(given)[:-1] for _ in range(int(count))]
