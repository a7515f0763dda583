"""A plain model of the line protocol: what a line may be answered after so many commits of one history.

Its words are those of ASCII letters alone, its journal keeps every commit, and memory is never wanting."""

import re
from functools import cache, lru_cache

LONGEST_LINE = 65_536
FORMS = [
    re.compile(form, re.DOTALL)
    for form in (
        "(add|put) ([0-9]{1,20})(?: (.*))?",
        "(del|get) ([0-9]{1,20})",
        "(find)(?: (.*))?",
        "(query) (.*)",
        "(count)(?: (.*))?",
        "(newest|oldest) ([0-9]{1,20})(?: (.*))?",
        "(place|stats)",
        "(journal) ([0-9]{1,20})",
        "(recycle)",
        "(tune) (.*)",
    )
]
# Texts of tunings, and what an engine with the default statistics answers them, however many there were before.
TUNINGS = {
    "": "tuned [0-9]+",
    '{"tail":5}': "tuned [0-9]+",
    '{"tail":9,"documents":2,"words":{"ant":2,"bee":1}}': "tuned [0-9]+",
    '{"tail":20}': "refused room 1200 600",
    '{"slices":2}': "refused tuning 4",
    "[]": "refused tuning 3",
}
# What a stats tells beside the documents and the place.
UNKNOWN = ["base", "columns", "free", "retired", "finds"]
# The words of the reply to a request that is made, and the sign of its commit.
COMMITS = {"add": ("added", "+"), "put": ("added|replaced", "+"), "del": ("deleted", "-")}


def request_of(line):
    """Takes a line apart: its command and what stands after it, in place of an expression that isn't there None. For a line that is
    no request it is the refusal alone."""
    if len(line) > LONGEST_LINE:
        return ("refused long",)
    try:
        text = line.removesuffix(b"\r").decode()
    except UnicodeDecodeError:
        return ("refused line",)
    match = next(filter(None, (form.fullmatch(text) for form in FORMS)), None)
    if match is None:
        return ("refused line",)
    command, *rest = match.groups()
    if command not in ("count", "newest", "oldest"):
        rest = [part or "" for part in rest]
    if command in ("add", "put", "del", "get", "newest", "oldest", "journal"):
        rest[0] = int(rest[0])
        if rest[0] >= 2**64:
            return ("refused line",)
    return (command, *rest)


def commit_told(request, reply):
    """The place and the commit that this reply to the request tells, or none."""
    words, sign = COMMITS.get(request[0], ("", ""))
    match = words and re.fullmatch(f"(?:{words}) ([0-9]+)", reply)
    return (int(match[1]), f"{sign}{request[1]}") if match else None


@lru_cache(maxsize=8)
class Reading:
    """A boolean query, read from left to right: what it keeps of a set of words, or the refusal of its text."""

    MOST_OPEN = 64

    def __init__(self, text):
        text = text.encode()
        self.tokens = [(m.start(), m[0].decode()) for m in re.finditer(rb"[|()-]|[^ |()-][^ |()]*", text)]
        self.end, self.at, self.refusal = len(text), 0, None
        try:
            self.keeps = cache(self.expression(0))
            if self.at < len(self.tokens):
                self.refuse()
        except SyntaxError as refusal:
            self.refusal = str(refusal)

    def next(self):
        return self.tokens[self.at][1] if self.at < len(self.tokens) else None

    def refuse(self):
        raise SyntaxError(f"refused query {self.tokens[self.at][0] if self.at < len(self.tokens) else self.end}")

    def open(self, level):
        if level == self.MOST_OPEN:
            raise SyntaxError(f"refused deep {self.tokens[self.at][0]}")
        self.at += 1
        return level + 1

    def expression(self, level):
        terms = [self.term(level)]
        while self.next() == "|":
            self.at += 1
            terms.append(self.term(level))
        return lambda words: any(term(words) for term in terms)

    def term(self, level):
        factors = [self.factor(level)]
        while self.next() not in (None, "|", ")"):
            factors.append(self.factor(level))
        return lambda words: all(factor(words) for factor in factors)

    def factor(self, level):
        token = self.next()
        if token in (None, "|", ")"):
            self.refuse()
        if token == "-":
            factor = self.factor(self.open(level))
            return lambda words: not factor(words)
        if token == "(":
            inner = self.expression(self.open(level))
            if self.next() != ")":
                self.refuse()
            self.at += 1
            return inner
        self.at += 1
        wanted = words_of(token)
        return lambda words: wanted <= words


def words_of(text):
    return frozenset(re.findall("[a-z]+", text.lower()))


class History:
    """The commits, each a sign with a number, and what is live after each count of them."""

    def __init__(self, commits, texts):
        """Takes the text of each add too, by its place."""
        self.commits = commits
        # After 0, 1, 2, ... commits: the live numbers in the order of their adds, each with its place, its words and its text.
        self.live = [{}]
        for place, commit in enumerate(commits, 1):
            number = int(commit[1:])
            live = dict(self.live[-1])
            if live.pop(number, None) is None and commit[0] == "-":
                raise ValueError(f"commit {place} is {commit}, which the commits before it don't allow")
            if commit[0] == "+":
                live[number] = (place, words_of(texts[place]), texts[place])
            self.live.append(live)

    def found(self, live, text):
        """The live numbers that the boolean query keeps, or all without one; or the refusal of its text."""
        if text is None:
            return [*live], None
        reading = Reading(text)
        if reading.refusal:
            return [], reading.refusal
        return [number for number, (_, has, _) in live.items() if reading.keeps(has)], None

    def reply(self, request, count):
        """The reply to the request after so many commits, or none where it would be a commit itself."""
        live = self.live[count]
        match request:
            case ("add", number, _):
                return f"refused present {live[number][0]}" if number in live else None
            case ("put", _, _):
                return None
            case ("del", number):
                return None if number in live else "refused absent"
            case ("get", number):
                return f"text {live[number][0]} {live[number][2]}" if number in live else "refused absent"
            case ("find", query):
                words = words_of(query)
                found = [number for number, (_, has, _) in live.items() if words <= has]
                return " ".join(map(str, ["found", len(found), *found]))
            case ("query", text):
                found, refusal = self.found(live, text)
                return refusal or " ".join(map(str, ["found", len(found), *found]))
            case ("count", text):
                found, refusal = self.found(live, text)
                return refusal or f"count {len(found)}"
            case ("newest" | "oldest" as end, most, text):
                found, refusal = self.found(live, text)
                some = (found[::-1] if end == "newest" else found)[:most]
                return refusal or " ".join(map(str, ["found", len(found), *some]))
            case ("place",):
                return f"place {count}"
            case ("journal", first):
                told = self.commits[first:count]
                return " ".join(["commits", str(len(told)), *told])
            case (refusal,):
                return refusal

    def fits(self, request, reply, count):
        """Whether a request that is no commit may have this reply after so many commits. Where none is known, any will do.

        Of slices the model knows nothing: a recycle may be answered by each of its replies, any add or put may find them full, and of
        columns a stats may tell any numbers. Nor does it count tunings."""
        if request == ("recycle",):
            return reply is None or re.fullmatch("nothing retired|recycled [0-9]+|guarded [0-9]+ [0-9]+", reply)
        if request[0] == "tune":
            return reply is None or re.fullmatch(TUNINGS[request[1]], reply)
        if request == ("stats",):
            known = f"stats documents {len(self.live[count])} place {count}"
            return reply is None or re.fullmatch(known + "".join(f" {name} [0-9]+" for name in UNKNOWN), reply)
        wanted = self.reply(request, count)
        if wanted is None:
            return request[0] in ("add", "put") and reply in (None, "refused full")
        return reply in (None, wanted)

    def count_after(self, request, reply, least):
        """The least count of commits, from `least` on, with which the request had this reply and is counted itself, or none.

        To take the least is enough, since all that a later line asks of it is that the count doesn't fall."""
        told = commit_told(request, reply) if reply else None
        if told:
            place, commit = told
            known = self.commits[place - 1 : place] == [commit] and least < place
            # An add is told that it replaced a document where its number was live, and then it is a put.
            return place if known and (commit[0] == "-" or reply.startswith("replaced") == (request[1] in self.live[place - 1])) else None
        counts = range(least, len(self.live))
        return next((count for count in counts if self.fits(request, reply, count)), None)
