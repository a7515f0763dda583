"""The random lines that a connection sends."""

from history import LONGEST_LINE, TUNINGS

LINES = 300
WORDS = ["ant", "Bee", "cat", "DOG", "elk"]
SHARED = range(1, 31)
NO_REQUESTS = [b"", b"add", b"Add 1 ant", b"add  1 ant", b"put", b"put x ant", b"del 7 ", b"get", b"get 7 ", b"finder", b"query", b"counts"]
NO_REQUESTS += [b"newest", b"newest ant", b"oldest  1", b"stats ", b"tune", b"place 1", b"journal", b"find \xff"]


def own(number):
    """The numbers of documents that this connection alone adds, if it will be reset."""
    return range(100 + 100 * number, 100 + 100 * number + 50)


class Script:
    """The lines of a connection, some of them too long where they may be. A connection that will be reset asks for no commit
    twice, and for none that another such one asks for, so that a commit whose reply is lost tells its line."""

    def __init__(self, chance, number, fate, resets, may_be_long):
        self.chance, self.may_be_long = chance, may_be_long
        if fate == "reset":
            shared = SHARED[resets.index(number) :: len(resets)]
            self.adds = iter(chance.sample(own(number), len(own(number))))
            self.deletes = iter(chance.sample([*own(number), *shared], len(own(number)) + len(shared)))
        else:
            others = [document for other in resets for document in own(other)]
            self.adds = iter(lambda: chance.choice(SHARED), None)
            self.deletes = iter(lambda: chance.choice(SHARED if chance.random() < 0.7 else others), None)
        ends = chance.choices([b"\n", b"\r\n"], [9, 1], k=LINES)
        self.lines = [self.line() + end for end in ends]
        if fate != "whole":
            self.cut()

    def text(self, most):
        separator = self.chance.choice([" ", ", ", "  "])
        return separator.join(self.chance.choices(WORDS, k=self.chance.randint(0, most)))

    def query(self):
        """A boolean query of a few tokens, now and then out of place, or one that opens many levels."""
        if self.chance.random() < 0.05:
            return self.chance.choice("(-") * self.chance.choice([63, 64, 65]) + "ant" + self.chance.choice(["", ")" * 64])
        tokens = self.chance.choices([*WORDS, "|", "-", "(", ")"], [3, 3, 3, 3, 3, 3, 3, 1, 1], k=self.chance.randint(0, 6))
        return self.chance.choice([" ", " ", "  "]).join(tokens)

    def expression(self):
        """A space and a query, or nothing."""
        return f" {self.query()}" if self.chance.random() < 0.8 else ""

    def line(self):
        kinds = ["add", "put", "del", "get", "find", "query", "count", "some", "place", "stats", "journal", "recycle", "tune", "none", "long"]
        kind = self.chance.choices(kinds, [20, 14, 26, 6, 16, 8, 3, 5, 3, 2, 2, 2, 2, 6, 0.2 if self.may_be_long else 0])[0]
        if kind in ("add", "put") and (document := next(self.adds, None)):
            return f"{kind} {document} {self.text(5)}".encode()
        if kind == "del" and (document := next(self.deletes, None)):
            return f"del {document}".encode()
        if kind == "get":
            return f"get {self.chance.choice(SHARED)}".encode()
        if kind == "count":
            return f"count{self.expression()}".encode()
        if kind == "some":
            return f"{self.chance.choice(['newest', 'oldest'])} {self.chance.choice([0, 1, 3, 10, 2**64 - 1])}{self.expression()}".encode()
        if kind == "find":
            return f"find {self.text(3)}".encode()
        if kind == "query":
            return f"query {self.query()}".encode()
        if kind == "journal":
            return f"journal {self.chance.randrange(2000)}".encode()
        if kind == "tune":
            return f"tune {self.chance.choice([*TUNINGS])}".encode()
        if kind == "none":
            return self.chance.choice(NO_REQUESTS)
        if kind == "long":
            return b"find " + b"a" * LONGEST_LINE
        return kind.encode() if kind in ("recycle", "stats") else b"place"

    def cut(self):
        """Ends the lines inside one of the last adds, between two bytes of it."""
        last = self.chance.choice([at for at, line in enumerate(self.lines) if line.startswith((b"add ", b"put "))][-5:])
        self.lines[last:] = [self.lines[last][: self.chance.randrange(1, len(self.lines[last]) - 2)]]
