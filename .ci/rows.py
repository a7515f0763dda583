"""Runs the program on each row of rows.txt and on the long rows below: rows.py PROGRAM. Prints those that come out otherwise."""

import itertools
import os
import re
import shlex
import subprocess
import sys
import tempfile


class Row:
    """What it shows, configurations and commands of which each is tried with each, the input, and what the program has to say."""

    def __init__(self, shows, lines=(), configurations=(), commands=(), output=(), ends="0", says=(), given=None):
        self.shows = shows
        self.configurations = configurations or [None]
        self.commands = commands or [["run"]]
        self.input = input_of(lines or [("place", "")]) if given is None else given
        status, _, message = ends.partition(" ")
        said = [*(reply for _, reply in lines), *output]
        self.wanted = (int(status), "".join(f"{line}\n" for line in said), [f"funnel: {message}", *says] if message else [])
        self.is_first_enough = not says

    def fails(self, program):
        """Prints each way of the row that comes out otherwise. Returns how many do."""
        failed = 0
        for configuration, command in itertools.product(self.configurations, self.commands):
            status, output, said = outcome(program, configuration, command, self.input)
            got = (status, output, said[: 1 if self.is_first_enough else None])
            if got != self.wanted:
                failed += 1
                print(f"{self.shows}\n{command} with {configuration}"[:400], f"wanted {self.wanted}"[:400], f"got {got}"[:400], sep="\n")
        return failed


def input_of(lines):
    """The bytes of lines and their replies, where \\x and two digits are a byte."""
    text = "".join(f"{line}\n" for line, _ in lines).encode()
    return re.sub(rb"\\x(..)", lambda byte: bytes.fromhex(byte[1].decode()), text)


def outcome(program, configuration, command, lines):
    """The status, the output, and the lines on standard error."""
    with tempfile.TemporaryDirectory() as folder:
        if configuration is not None:
            with open(f"{folder}/funnel.json", "w", encoding="utf-8") as file:
                file.write(configuration)
        run = subprocess.run([program, *command], cwd=folder, input=lines, capture_output=True, timeout=120)
    return run.returncode, run.stdout.decode(), run.stderr.decode().splitlines()


def rows_of(text):
    """The rows of rows.txt."""
    for section in text.split("\n# ")[1:]:
        shows, *rest = section.strip("\n").split("\n")
        found = {"configuration": [], "words": [], ">": [], "ends": ["0"], "says": []}
        lines = []
        for line in rest:
            given, arrow, reply = line.rpartition(" => ")
            if arrow:
                lines.append((given, reply))
            else:
                key, _, value = line.partition(" ")
                found[key].append(value)
        commands = [shlex.split(words) for words in found["words"]]
        yield Row(shows, lines, found["configuration"], commands, found[">"], found["ends"][-1], found["says"])


def numbers(word, first, last, sign=""):
    """A list of the numbers, as a reply tells it."""
    return " ".join([word, str(last - first + 1), *(f"{sign}{number}" for number in range(first, last + 1))])


def adds(first, last):
    return [(f"add {number} x", f"added {number}") for number in range(first, last + 1)]


def listed(last):
    return [("find x", numbers("found", 1, last)), ("journal 0", numbers("commits", 1, last, "+")), ("journal 7", numbers("commits", 8, last, "+"))]


def slice_rows():
    """Rows of a slice of 64 columns."""
    emptied = [*adds(1, 64), *((f"del {number}", f"deleted {number + 64}") for number in range(1, 65))]
    one_slice = ['{"slices":1}']
    yield Row("a second slice is filled after the first", [*adds(1, 65), ("find x", numbers("found", 1, 65))])
    yield Row("a slice is full", [*adds(1, 64), ("add 65 x", "refused full"), ("find x", numbers("found", 1, 64))], one_slice)
    again = [("add 500 y", "added 129"), ("find x", "found 0"), ("find y", "found 1 500"), ("journal 127", "commits 2 -64 +500")]
    yield Row("a slice of deleted documents is used again", [*emptied, *again], one_slice)
    recycled = [("recycle", "recycled 0"), ("recycle", "nothing retired"), ("add 1 y", "added 129"), ("find x", "found 0"), ("find y", "found 1 1")]
    yield Row("a slice of deleted documents is recycled", [*emptied, *recycled], one_slice)


def put_rows():
    """Rows of puts, each of which takes a column."""
    told = [("add 1  a  b \\x0d", "added 1"), ("get 1", "text 1  a  b "), ("put 1", "replaced 2"), ("get 1", "text 2 "), ("get 001", "text 2 ")]
    yield Row("a text is told with its spaces, and an empty one is too", [*told, ("find a", "found 0")])
    again = [("put 1 a", "added 1"), *(("put 1 a", f"replaced {place}") for place in range(2, 65))]
    full = ("put 1 b", "refused full")
    yield Row("a slice keeps the one live document", [*again, full, full, ("find a", "found 1 1"), ("get 1", "text 64 a")], ['{"slices":1}'])
    more = [("put 1 a", f"replaced {place}") for place in range(65, 130)]
    yield Row("a slice that a put emptied is used again", [*again, *more, ("find a", "found 1 1"), ("count", "count 1")])
    numbers_in_turn = [*range(2, 111, 2), *range(1, 111, 2)]
    new = [(f"put {number} x", f"added {number}") for number in range(1, 111)]
    old = [(f"put {number} y", f"replaced {place}") for place, number in enumerate(numbers_in_turn, 111)]
    found = " ".join(["found 110", *map(str, numbers_in_turn)])
    yield Row("puts move documents as adds do", [*new, *old, ("find y", found), ("find x", "found 0")], ['{"slices":3,"reserve":64}'])


def tune_rows():
    """Rows of two slices of 64 columns, the first of which is treated by new statistics once it is cleared."""
    deletes = [(f"del {number}", f"deleted {number + 65}") for number in range(1, 65)]
    emptied = [*deletes, ("recycle", "recycled 0")]
    more = [("add 500 x", "added 130"), ("find x", "found 2 65 500")]
    yield Row("slices of two treatments are searched", [*adds(1, 65), ('tune {"tail":5}', "tuned 1"), *emptied, *more])
    listed_word = ('tune {"documents":2,"words":{"x":2},"tail":9}', "tuned 1")
    more = [("add 500 x y", "added 130"), ("find x", "found 2 65 500"), ("find y x", "found 1 500"), ("query x -y", "found 1 65")]
    yield Row("a word is found in slices that list it and that don't", [*adds(1, 65), listed_word, *emptied, *more])
    later = [("tune {}", "tuned 2"), ("add 501 y", "added 131"), ("find y", "found 2 500 501"), ("place", "place 131")]
    yield Row("a slice keeps its treatment while it is used", [*adds(1, 65), listed_word, *emptied, *more, *later])


def reserve_rows():
    """Rows of slices of 64 columns, of which as many are to be kept free."""

    def halved(last):
        return [*adds(1, last), *((f"del {number}", f"deleted {last + 1 + number // 2}") for number in range(1, 128, 2))]

    kept_free = ['{"slices":3,"reserve":64}']
    not_kept_free = ['{"slices":3}', '{"slices":3,"reserve":0}']
    none = ("recycle", "nothing retired")
    two = [none, ("add 200 y", "added 194"), none, ("add 201 y", "added 195")]
    left = ("find x", " ".join(["found 65", *(str(number) for number in range(2, 129, 2)), "129"]))
    yield Row("adds move documents so that a slice retires", [*halved(129), *two, ("recycle", "recycled 0"), none, left], kept_free)
    yield Row("no slice retires so without a reserve", [*halved(129), *two, none, left], not_kept_free)

    again = [f"add {number} y" for number in range(1, 128, 2)]
    third = [(f"add {number} y", f"added {number + 64}") for number in range(129, 193)]
    more = [(line, f"added {257 + index}") for index, line in enumerate(again)]
    full = ("add 200 y", "refused full")
    yield Row("what is left of two slices is moved into one", [*halved(128), *third, *more, full], kept_free)
    yield Row("each slice is filled once without a reserve", [*halved(128), *third, *((line, "refused full") for line in again), full], not_kept_free)
    yield Row("nothing is moved where there is no room for a whole slice", [*halved(128), full], ['{"slices":2,"reserve":64}'])

    def with_two(last):
        return [*halved(last), ("add 200 y", f"added {last + 65}"), ("add 201 y", f"added {last + 66}")]

    # A slice holds 32 documents, for which and for two adds 34 columns are enough.
    yield Row("documents are moved where there is just room for them", [*with_two(158), ("recycle", "recycled 0")], kept_free)
    yield Row("nothing is moved where a column is wanting", [*with_two(159), none], kept_free)
    third_add = ("add 202 y", "added 195")
    yield Row("nothing is moved while as many columns are left as are to be", [*with_two(128), none, third_add, ("recycle", "recycled 0")], kept_free)


def fit_rows():
    """Rows of fits to which there is no configuration."""

    def refused(shows, documents, given, says):
        return Row(shows, (), None, [["fit", "--documents", documents]], ends="8 does not fit", says=[f"funnel: {says}"], given=given)

    slices = "so many documents need 1090 slices, and there may be 1024: lower `--documents`"
    yield refused("documents that need too many slices are told", "4194304", b"add 1 x", slices)
    many = b"add 1" + b"".join(b" w%d" % number for number in range(500))
    words = "the rows for so many documents like these take 36348466 words, and may take 33554432: lower `--documents`"
    yield refused("documents that need too many words are told", "3900000", many, words)


def long_rows():
    """Rows of long lines, lists, configurations and words, and of an input without a newline at its end."""
    yield Row("no line has no reply", given=b"")
    yield Row("a line may lack its newline at the end", given=b"place\nfind", output=["place 0", "found 0"])
    letters = "a" * 65_530
    long_lines = [
        (f"add 1 {letters}", "added 1"),
        (f"add 2 {letters}a", "refused long"),
        (f"add 3 {letters[1:]}\\x0d", "added 2"),
        (f"add 4 {letters}\\x0d", "refused long"),
        ("place", "place 2"),
    ]
    yield Row("a line has at most 65,536 bytes", long_lines)
    many = [*adds(1, 1100), *listed(1100), *adds(1101, 4200), *listed(4200)]
    yield Row("thousands of numbers are found and told", many, ['{"slices":66,"commits":4200}'])

    spaces = " " * 16_777_214
    yield Row("a configuration has 16,777,216 bytes", [("place", "place 0")], [spaces + "{}"])
    yield Row("a configuration has a byte more", (), [spaces + " {}"], ends="2 config 2")
    yield Row("what is in a long configuration is read", (), [spaces[:2_000_000] + "[1]"], ends="2 config 3")
    yield Row("what a long configuration asks for is judged", (), [spaces[:2_000_000] + '{"slices":1024,"blocks":64}'], ends="2 config 9")
    words = [f'"{number}":1' for number in range(65_537)]
    yield Row("65,536 words are listed", [("place", "place 0")], ['{"words":{' + ",".join(words[1:]) + "}}"])
    yield Row("a word more is listed", (), ['{"words":{' + ",".join(words) + "}}"], ends="2 config 5")
    yield Row("an object nests 127 deep", (), ['{"passes":' + "[" * 126 + "]" * 126 + "}"], ends="2 config 5")
    yield Row("an object nests deeper", (), ['{"passes":' + "[" * 127 + "]" * 127 + "}"], ends="2 config 3")

    queries = ["w0", "w0 w1", "w1", "w1 w2", "w2", "w2 w3", "w3", "w3 w4"]
    for docs, slices in ((5, 2), (1100, 18), (4200, 66)):
        commands = [["load", "--docs", f"{docs:0{digits}}", "--words", "0", "--workers", "2"] for digits in (1, 1_002, 4_098)]
        summary = [f"documents {docs}", f"deleted {docs // 10}", f"live {docs - docs // 10}", "misses 0", *(f"query {query}: 0 0" for query in queries)]
        yield Row("a number of many digits, and a load of many documents", (), [f'{{"slices":{slices}}}'], commands, summary)


def odd_values():
    """A row for each key that has a number and each value that it can't have, by the table of the documents."""
    with open(os.path.join(os.path.dirname(__file__), "../docs/configuration.md"), encoding="utf-8") as file:
        keys = re.findall(r"^\| `(\w+)` \| ([\d,]+) \| ([\d,]+) \| [\d,]+ \|", file.read(), re.M)
    for key, *range_ in keys:
        least, most = (int(number.replace(",", "")) for number in range_)
        outside = [most + 1, *([least - 1] if least else [])]
        other = ["-1", "1.0", "1e0", "18446744073709551616", "true", "null", '"1"', "[1]", "{}"]
        for value, told in [*((number, f"is {number}, and ") for number in outside), *((value, "") for value in other)]:
            says = f"funnel: `{key}` in funnel.json {told}has to be a whole number from {least} to {most}"
            yield Row(f"{key} is {value}", (), [f'{{"{key}":{value}}}'], ends="2 config 5", says=[says])


def odd_words():
    """A row of a word with an empty line, which is told whole."""
    says = "funnel: invalid value 'a  b' for '--docs <docs>': invalid digit found in string: it has to be a whole number from 1 to 4194304; see `funnel --help`"
    yield Row("a word with an empty line", (), (), [["load", "--docs", "a\n\nb"]], ends="1 usage", says=[says])


def text_rows():
    """Rows of the help, which stands in the source as it is told."""
    with open(os.path.join(os.path.dirname(__file__), "../crates/funnel/src/text.rt"), encoding="utf-8") as file:
        text = file.read().partition('HELP: &str = "\\\n')[2].partition('";')[0]
    lines = text.replace("\\\\", "\\").splitlines()
    yield Row("help is told, whatever the configuration", (), ["{}", "{"], [["--help"], ["-h"], ["help"]], lines)


def main(program):
    with open(os.path.join(os.path.dirname(__file__), "rows.txt"), encoding="utf-8") as file:
        rows = [*rows_of(file.read()), *odd_values(), *odd_words(), *text_rows(), *slice_rows(), *put_rows(), *tune_rows(), *reserve_rows(), *fit_rows(), *long_rows()]
    failed = sum(row.fails(program) for row in rows)
    print(f"{failed} of {len(rows)} rows failed" if failed else "each row has its replies")
    return 1 if failed else 0


if __name__ == "__main__":
    sys.exit(main(sys.argv[1]))
