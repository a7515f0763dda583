"""Asks a serve over HTTP, each path by curl where it is installed and by http.client on one connection, and by so many random requests,
right and wrong ones, cut at random places, each of whose responses a plain model tells, and prints what came of it: over_http.py PROGRAM
COUNT. It writes a configuration of its own for the paths, and the one that was there again."""

import http.client
import json
import re
import shutil
import socket
import subprocess
import sys
from functools import partial
from os.path import commonprefix
from random import Random
from threading import Thread
from urllib.parse import quote

from ports import connect, free_port

REASONS = {
    200: "OK",
    201: "Created",
    400: "Bad Request",
    404: "Not Found",
    409: "Conflict",
    410: "Gone",
    413: "Content Too Large",
    501: "Not Implemented",
}
MOST = 1 << 64


# Each path with a request to it, in this order: the method, the target, the body, the status, and the body of the response.
PATHS = [
    ("POST", "/documents", '{"id":7,"text":"The cat sat"}', 201, '{"place":1}'),
    ("POST", "/documents", '{"id":7,"text":"a dog"}', 409, '{"error":"present","place":1}'),
    ("PUT", "/documents/7", '{"text":"The cat\\nsat \\"\\u0001"}', 200, '{"place":2}'),
    ("PUT", "/documents/9", '{"text":"a black cat"}', 201, '{"place":3}'),
    ("PUT", "/documents/9", '{"id":9,"text":"x"}', 400, '{"error":"body"}'),
    ("PUT", "/documents/9", '{}', 400, '{"error":"body"}'),
    ("PUT", "/documents/x", '{"text":"x"}', 404, '{"error":"route"}'),
    ("GET", "/documents/7", None, 200, '{"id":7,"place":2,"text":"The cat\\nsat \\"\\u0001"}'),
    ("GET", "/documents/8", None, 404, '{"error":"absent"}'),
    ("GET", "/documents/8?q=a", None, 404, '{"error":"route"}'),
    ("GET", "/find?q=CAT+sat", None, 200, '{"ids":[7]}'),
    ("GET", "/find", None, 200, '{"ids":[7,9]}'),
    ("GET", "/find?newest=1&q=cat", None, 200, '{"count":2,"ids":[9]}'),
    ("GET", "/find?oldest=1", None, 200, '{"count":2,"ids":[7]}'),
    ("GET", "/query?q=cat%20-sat", None, 200, '{"ids":[9]}'),
    ("GET", "/query?q=cat&newest=18446744073709551615", None, 200, '{"count":2,"ids":[9,7]}'),
    ("GET", "/query?oldest=0&q=-cat", None, 200, '{"count":0,"ids":[]}'),
    ("GET", "/query", None, 400, '{"error":"syntax","at":0}'),
    ("GET", "/query?newest=3", None, 400, '{"error":"syntax","at":0}'),
    ("GET", "/query?q=(a%20b)%20%7C%7C", None, 400, '{"error":"syntax","at":7}'),
    ("GET", f"/query?q={'(' * 65}", None, 400, '{"error":"deep","at":64}'),
    ("GET", "/query?q=%ff", None, 400, '{"error":"query"}'),
    ("GET", "/query?q=a&q=b", None, 404, '{"error":"route"}'),
    ("GET", "/query?q=a&newest=1&oldest=1", None, 404, '{"error":"route"}'),
    ("GET", "/query?q=a&newest=x", None, 404, '{"error":"route"}'),
    ("GET", "/query?q=a&most=1", None, 404, '{"error":"route"}'),
    ("GET", "/query?q=a&", None, 404, '{"error":"route"}'),
    ("GET", "/count?q=cat%20-sat", None, 200, '{"count":1}'),
    ("GET", "/count", None, 200, '{"count":2}'),
    ("GET", "/count?q=", None, 400, '{"error":"syntax","at":0}'),
    ("GET", "/count?newest=1", None, 404, '{"error":"route"}'),
    ("DELETE", "/documents/9", None, 200, '{"place":4}'),
    ("GET", "/place", None, 200, '{"place":4}'),
    ("GET", "/journal?from=2", None, 200, '{"commits":[{"add":9},{"del":9}]}'),
    ("GET", "/journal?from=4", None, 200, '{"commits":[]}'),
    ("GET", "/journal?from=0", None, 410, '{"error":"trimmed"}'),
    ("GET", "/journal", None, 404, '{"error":"route"}'),
    ("GET", "/stats", None, 200, '{"documents":1,"place":4,"base":1,"columns":128,"free":125,"retired":0,"finds":0}'),
    ("POST", "/recycle", None, 409, '{"error":"nothing"}'),
    ("POST", "/tune", '{"tail":9}', 200, '{"tuned":1}'),
    ("POST", "/tune", '{"tail":20}', 409, '{"error":"wide"}'),
    ("POST", "/tune", '{"slices":2}', 400, '{"error":"tuning","fault":4}'),
    ("POST", "/tune", "[]", 400, '{"error":"tuning","fault":3}'),
    ("POST", "/tune", "", 200, '{"tuned":2}'),
    ("PUT", "/tune", '{"tail":9}', 404, '{"error":"route"}'),
]
NUMBERS = {
    "funnel_documents": ("gauge", 1),
    "funnel_commits_total": ("counter", 4),
    "funnel_commits_trimmed_total": ("counter", 1),
    "funnel_columns": ("gauge", 128),
    "funnel_columns_free": ("gauge", 125),
    "funnel_slices_retired": ("gauge", 0),
    "funnel_finds_running": ("gauge", 0),
}


def by_curl(port, method, target, body):
    """The status and the body of a response to curl."""
    data = [] if body is None else ["--data-binary", body]
    command = ["curl", "-sg", "-X", method, *data, "-w", "\n%{http_code}", f"http://127.0.0.1:{port}{target}"]
    told, _, status = subprocess.check_output(command, text=True).rpartition("\n")
    return int(status), told


def by_client(client, method, target, body):
    """The same over one connection of http.client."""
    client.request(method, target, body)
    response = client.getresponse()
    return response.status, response.read().decode()


def try_paths(ask):
    """Asks for each path, and tells those that are answered otherwise."""
    for method, target, body, *wanted in PATHS:
        got = ask(method, target, body)
        if got != tuple(wanted):
            print(f"{method} {target}: wanted {wanted}, got {got}")
    return len(PATHS)


def metrics_of(text):
    """The numbers of Prometheus' text format, each with its type: each name has its help, its type and then its value."""
    found, told = {}, {}
    for line in text.removesuffix("\n").split("\n"):
        if match := re.fullmatch(r"# (HELP|TYPE) ([a-zA-Z_:][a-zA-Z0-9_:]*) (.+)", line):
            kind, name, rest = match.groups()
            if name in found or kind in told.setdefault(name, {}):
                raise ValueError(f"{line!r} stands behind what it is of, or twice")
            told[name][kind] = rest
        elif match := re.fullmatch(r"([a-zA-Z_:][a-zA-Z0-9_:]*) ([0-9]+)", line):
            name, value = match.groups()
            if name in found or told.get(name, {}).keys() != {"HELP", "TYPE"}:
                raise ValueError(f"{line!r} comes without its help and type, or twice")
            found[name] = (told[name]["TYPE"], int(value))
        else:
            raise ValueError(f"{line!r} is none of the format")
    return found


def read_metrics(client):
    """Whether the metrics are well formed and tell the numbers."""
    client.request("GET", "/metrics")
    response = client.getresponse()
    text = response.read().decode()
    return response.status == 200 and response.headers["Content-Type"] == "text/plain; version=0.0.4" and text.endswith("\n") and metrics_of(text) == NUMBERS


def hold_a_connection(port):
    """What one connection of http.client is answered."""
    client = http.client.HTTPConnection("127.0.0.1", port)
    document = json.dumps({"text": "Straße im \U0001F600 Regen", "id": 8})
    for method, target, body in [
        ("POST", "/documents", document),
        ("POST", "/documents", document),
        ("GET", "/find?q=STRASSE+regen", None),
        ("GET", "/find", None),
        ("GET", "/place", None),
        ("DELETE", "/documents/9", None),
        ("GET", "/documents", None),
        ("POST", "/documents", '{"id":8}'),
        # As long as a body may be.
        ("POST", "/documents", "{" + " " * 65_535),
        ("GET", "/find?q=%zz", None),
    ]:
        status, told = by_client(client, method, target, body)
        yield f"{status} {told}"
    # The next request isn't one, and its response closes the connection.
    client.sock.sendall(b"\1")
    yield client.sock.makefile("rb").read().decode().replace("\r\n", "|")


def pipeline(port):
    """What three requests are answered that are sent at one go, of which the second one asks to close the connection."""
    with connect(port) as client:
        client.sendall(b"GET /place HTTP/1.1\r\n\r\nGET /place HTTP/1.1\r\nConnection: x, Close\r\n\r\nGET /place HTTP/1.1\r\n\r\n")
        return client.makefile("rb").read().count(b'{"place":1}')


class Model:
    """The live documents, each with its place, its words and its text, and the response to each request as a status and a body."""

    def __init__(self):
        self.live = {}
        self.place = 0

    def add(self, number, text):
        if number in self.live:
            return 409, f'{{"error":"present","place":{self.live[number][0]}}}'
        return self.put(number, text)

    def put(self, number, text):
        replaced = self.live.pop(number, None)
        self.place += 1
        self.live[number] = (self.place, words_of(text), text)
        return 200 if replaced else 201, f'{{"place":{self.place}}}'

    def get(self, number):
        if number not in self.live:
            return 404, '{"error":"absent"}'
        place, _, text = self.live[number]
        return 200, f'{{"id":{number},"place":{place},"text":{json.dumps(text, ensure_ascii=False)}}}'

    def delete(self, number):
        if self.live.pop(number, None) is None:
            return 404, '{"error":"absent"}'
        self.place += 1
        return 200, f'{{"place":{self.place}}}'

    def found(self, has, lacks, told):
        """What is told of the documents that have all words of the one text and none of the other's: all, their count, or some."""
        ids = [number for number, (_, words, _) in self.live.items() if words_of(has) <= words and not words_of(lacks) & words]
        amount, most = told
        if amount == "count":
            return 200, f'{{"count":{len(ids)}}}'
        if amount == "all":
            return 200, f'{{"ids":{array(ids)}}}'
        some = (ids[::-1] if amount == "newest" else ids)[:most]
        return 200, f'{{"count":{len(ids)},"ids":{array(some)}}}'


def words_of(text):
    return set(text.casefold().split())


def array(ids):
    return f"[{','.join(map(str, ids))}]"


def response(status, body, closes):
    close = "Connection: close\r\n" if closes else ""
    return f"HTTP/1.1 {status} {REASONS[status]}\r\nContent-Type: application/json\r\nContent-Length: {len(body.encode())}\r\n{close}\r\n{body}".encode()


def any_text(some):
    return " ".join(some.choice(["cat", "Dog", "Straße", "STRASSE", "owl", "bee", "émile", "猫", "ox"]) for _ in range(some.randrange(4)))


def any_number(some):
    return some.choice([some.randrange(200), some.randrange(200), MOST - 1])


def any_object(some, members):
    """A body of these members."""
    some.shuffle(members)
    return json.dumps(dict(members), ensure_ascii=some.random() < 0.5, indent=some.choice([None, 1])).encode()


def any_target(some, number):
    return "/documents/" + some.choice([f"{number}", f"{number:020}"])


def any_wrong_document(some):
    right = any_object(some, [("id", any_number(some)), ("text", any_text(some))])
    return some.choice([
        b"",
        b"{}",
        b"[]",
        right[:-1],
        right + b"}",
        b'{"id":1}',
        b'{"id":1,"id":2}',
        b'{"id":1.0,"text":"a"}',
        b'{"id":-1,"text":"a"}',
        b'{"id":18446744073709551616,"text":"a"}',
        b'{"id":1,"text":7}',
        b'{"Id":1,"text":"a"}',
        b'{"id":1,"text":"a","more":0}',
        b'{"id":1,"text":"\xff"}',
    ])


def any_value(some, text):
    """A value that stands for the text."""
    return some.choice([quote(text), quote(text).replace("%20", "+"), "".join(f"%{byte:02X}" for byte in text.encode())])


def any_keys(some, *keys):
    """A query string of those of the keys that are there, in any order."""
    there = [f"{name}={value}" for name, value in keys if value is not None]
    some.shuffle(there)
    return "?" + "&".join(there) if there else ""


def any_search(some):
    """A target that searches, and what it is answered by the model."""
    has, lacks = any_text(some), some.choice(["", "", "owl", "dog bee"])
    amount, most = some.choice([("all", 0), ("newest", some.choice([0, 1, 5, MOST - 1])), ("oldest", some.choice([0, 1, 5, MOST - 1]))])
    more = (amount, None if amount == "all" else most)
    kind = some.choice(["find", "find", "query", "count"])
    if kind == "find":
        value = None if some.random() < 0.1 else any_value(some, has)
        return "/find" + any_keys(some, ("q", value), more), lambda model: model.found("" if value is None else has, "", (amount, most))
    text = " ".join([*has.split(), *(f"-{word}" for word in lacks.split())])
    syntax = 400, '{"error":"syntax","at":0}'
    if kind == "count":
        value = None if some.random() < 0.2 else any_value(some, text)
        told = ("count", 0)
        target = "/count" + any_keys(some, ("q", value))
        return target, lambda model: model.found("", "", told) if value is None else model.found(has, lacks, told) if text else syntax
    value = None if some.random() < 0.1 else any_value(some, text)
    return "/query" + any_keys(some, ("q", value), more), lambda model: model.found(has, lacks, (amount, most)) if text and value else syntax


def any_call(some):
    """A method, a target, a body, and what it is answered by the model."""
    kind, number, text = some.randrange(14), any_number(some), any_text(some)
    if kind < 3:
        return "POST", "/documents", any_object(some, [("id", number), ("text", text)]), lambda model: model.add(number, text)
    if kind < 5:
        return "PUT", any_target(some, number), any_object(some, [("text", text)]), lambda model: model.put(number, text)
    if kind < 7:
        return "DELETE", any_target(some, number), b"", lambda model: model.delete(number)
    if kind == 7:
        return "GET", any_target(some, number), b"", lambda model: model.get(number)
    if kind < 10:
        target, told = any_search(some)
        return "GET", target, b"", told
    if kind == 10:
        return "GET", "/place", some.choice([b"", b"left aside"]), lambda model: (200, f'{{"place":{model.place}}}')
    if kind == 11:
        method, target = some.choice([("POST", "/documents"), ("PUT", f"/documents/{number}")])
        return method, target, any_wrong_document(some), lambda model: (400, '{"error":"body"}')
    if kind == 12:
        value = some.choice(["%zz", "a%", "%4", "%+1", "%ff", "%c3%28"])
        return "GET", some.choice(["/find?q=", "/query?q=", "/count?q="]) + value, b"", lambda model: (400, '{"error":"query"}')
    method, target = some.choice([
        ("GET", "/"),
        ("PUT", "/documents"),
        ("PUT", "/documents/"),
        ("POST", "/documents/7"),
        ("DELETE", "/documents/"),
        ("DELETE", "/documents/x"),
        ("DELETE", "/documents/18446744073709551616"),
        ("GET", "/documents/7?q=a"),
        ("GET", "/find?x=1"),
        ("GET", "/find?"),
        ("GET", "/find?q=a&b"),
        ("GET", "/find?q=a&q=a"),
        ("GET", "/find?newest=1&newest=1"),
        ("GET", "/find?newest=1&oldest=1"),
        ("GET", "/find?newest=-1"),
        ("GET", "/query?q=a&oldest="),
        ("GET", "/count?q=a&newest=1"),
        ("GET", "/journal"),
        ("GET", "/journal?from=a"),
        ("GET", "/journal?from=0&q=a"),
        ("GET", "/stats?"),
        ("GET", "/recycle"),
        ("POST", "/place"),
        ("get", "/place"),
    ])
    return method, target, b"", lambda model: (404, '{"error":"route"}')


def any_closing(some):
    """A field that has a request refused before it is routed, with the status and the cause."""
    return some.choice([
        ("Transfer-Encoding: chunked", 501, "coding"),
        ("transfer-encoding:", 501, "coding"),
        ("Content-Length: 0", 400, "length"),
        ("Content-Length: 65537", 413, "long"),
        ("Content-Length: 18446744073709551615", 413, "long"),
        ("Content-Length: 18446744073709551616", 400, "length"),
        ("CONTENT-LENGTH: +1", 400, "length"),
        ("Content-Length: 1, 1", 400, "length"),
        ("Content-Length:", 400, "length"),
        ("no colon", 400, "head"),
        ("Long: " + "x" * 16_384, 400, "head"),
        ("Many: x" + "\r\nMany: x" * 32, 400, "head"),
    ])


def any_request(some, model):
    """The bytes of a request, its response, and whether that closes the connection."""
    method, target, body, told = any_call(some)
    fields = [some.choice(["Host: a", "host:b", "Accept: */*", "X-Empty:"]) for _ in range(some.randrange(3))]
    minor, refusal = 1, None
    if body or some.random() < 0.1:
        fields.append(some.choice(["Content-Length", "content-length"]) + some.choice([": ", ":", ": \t"]) + f"{len(body)}")
    closes = False
    kind = some.randrange(200)
    if kind == 0:
        minor, closes = 0, True
    elif kind == 1:
        fields.append("Connection: " + some.choice(["close", "keep-alive , Close", "CLOSE,x"]))
        closes = True
    elif kind < 4:
        field, status, cause = any_closing(some)
        refusal = status, cause
        if cause == "length" and field.endswith(": 0"):
            fields = [field, *(field for field in fields if not field.lower().startswith("content-length")), field]
        elif cause in ("length", "long"):
            fields = [field, *(field for field in fields if not field.lower().startswith("content-length"))]
        else:
            fields.append(field)
    elif kind == 5:
        return some.choice([b"\1", b"GET /place HTTP/2.0\r\n\r\n", b"GET  /place HTTP/1.1\r\n\r\n"]), response(400, '{"error":"head"}', True), True
    some.shuffle(fields)
    end = some.choice(["\r\n", "\r\n", "\n"])
    data = end.join([f"{method} {target} HTTP/1.{minor}", *fields, "", ""]).encode() + body
    if refusal:
        return data, response(refusal[0], f'{{"error":"{refusal[1]}"}}', True), True
    return data, response(*told(model), closes), closes


def send_cut(client, data, some):
    """Sends the bytes in pieces, and then ends what is sent. The connection may be closed before that."""
    at = 0
    try:
        while at < len(data):
            size = some.choice([1, 2, some.randrange(1, 40), some.randrange(1, 4_000)])
            client.sendall(data[at:at + size])
            at += size
        client.shutdown(socket.SHUT_WR)
    except OSError:
        pass


def ask_at_random(port, count, seed):
    """How many random requests are answered as the model says, of so many."""
    some, model, answered = Random(seed), Model(), 0
    while answered < count:
        sent, wanted, closes = [], [], False
        while len(wanted) < 300 and not closes and answered + len(wanted) < count:
            data, told, closes = any_request(some, model)
            sent.append(data)
            wanted.append(told)
        # What follows the last request isn't answered: a part of a request, or what comes after a response that closed.
        data = b"".join(sent) + some.choice([b"", b"GET /pla", b"POST /documents HTTP/1.1\r\nContent-Length: 9\r\n\r\n{"])
        with connect(port) as client:
            client.setsockopt(socket.IPPROTO_TCP, socket.TCP_NODELAY, 1)
            sender = Thread(target=send_cut, args=(client, data, Random(some.random())))
            sender.start()
            got = client.makefile("rb").read()
            sender.join()
        if got != b"".join(wanted):
            from_here = len(commonprefix([got, b"".join(wanted)]))
            print("wanted:", b"".join(wanted)[from_here:][:200], "got:", got[from_here:][:200], "after", answered)
            break
        answered += len(wanted)
    return answered


def serve(ask):
    """What comes of asking a new serve at a port."""
    port = free_port()
    words = [sys.argv[1], "serve", "--port", str(port), "--workers", "1", "--http"]
    with subprocess.Popen(words, stdin=subprocess.DEVNULL) as program:
        try:
            connect(port).close()
            return ask(port)
        finally:
            program.terminate()


def path_by_path(port):
    client = http.client.HTTPConnection("127.0.0.1", port)
    tried = try_paths(partial(by_client, client))
    return tried, read_metrics(client)


with open("funnel.json", encoding="utf-8") as file:
    configured = file.read()
with open("funnel.json", "w", encoding="utf-8") as file:
    file.write('{"commits":3}')
# Without curl the paths are tried once more by the client.
if shutil.which("curl"):
    print("paths by curl:", serve(lambda port: try_paths(partial(by_curl, port))))
else:
    print("paths by curl:", serve(path_by_path)[0])
print("paths by http.client, and the metrics:", *serve(path_by_path))
with open("funnel.json", "w", encoding="utf-8") as file:
    file.write(configured)
for line in serve(lambda port: [*hold_a_connection(port), f"at one go: {pipeline(port)}"]):
    print(line)
print("random requests:", serve(lambda port: ask_at_random(port, int(sys.argv[2]), 1)))
