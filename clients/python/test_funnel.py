"""Tests the client against a served program: test_funnel.py PROGRAM."""

import socket
import ssl
import subprocess
import sys
import tempfile
import threading
import time
import unittest

import funnel
from funnel import Client, Commit, Shards, Some

PROGRAM = ""


def free_ports(count):
    """The first of so many free ports that follow one another."""
    while True:
        sockets = [socket.socket() for _ in range(count)]
        try:
            sockets[0].bind(("127.0.0.1", 0))
            first = sockets[0].getsockname()[1]
            for index, other in enumerate(sockets[1:], 1):
                other.bind(("127.0.0.1", first + index))
            return first
        except (OSError, OverflowError):
            continue
        finally:
            for it in sockets:
                it.close()


def without_certificate(protocol):
    """A way of TLS in which nobody shows a certificate."""
    context = ssl.SSLContext(protocol)
    context.check_hostname, context.verify_mode = False, ssl.CERT_NONE
    context.maximum_version = ssl.TLSVersion.TLSv1_2
    context.set_ciphers("AECDH-AES256-SHA:@SECLEVEL=0")
    return context


class Server:
    """A program that serves an empty index."""

    def __init__(self, configuration="{}", workers=2, *words):
        self.folder = tempfile.TemporaryDirectory()
        with open(f"{self.folder.name}/funnel.json", "w", encoding="utf-8") as file:
            file.write(configuration)
        self.port = free_ports(workers)
        command = [PROGRAM, "serve", "--port", str(self.port), "--workers", str(workers), *words]
        self.process = subprocess.Popen(command, cwd=self.folder.name, stdin=subprocess.DEVNULL, stderr=subprocess.DEVNULL)
        for _ in range(600):
            try:
                socket.create_connection(("127.0.0.1", self.port)).close()
                return
            except ConnectionRefusedError:
                time.sleep(0.1)
        raise TimeoutError("nobody listens")

    def __enter__(self):
        return self

    def __exit__(self, *_):
        self.process.kill()
        self.process.wait()
        self.folder.cleanup()


class Answers(unittest.TestCase):
    def refused(self, kind, numbers, ask):
        with self.assertRaises(kind) as caught:
            ask()
        self.assertEqual(caught.exception.numbers, numbers)

    def test_documents_are_replaced_read_and_counted(self):
        with Server() as server, Client(port=server.port) as client:
            self.assertEqual([client.put(7, "a"), client.put(7, "b  c ")], [funnel.Placed(1, False), funnel.Placed(2, True)])
            self.assertEqual([client.find("a"), client.find("b")], [[], [7]])
            self.assertEqual(client.get(7), funnel.Document(2, "b  c "))
            self.refused(funnel.Absent, [], lambda: client.get(8))
            self.refused(funnel.Present, [2], lambda: client.add(7, "d"))
            self.assertEqual(client.put(8, ""), funnel.Placed(3, False))
            self.assertEqual(client.get(8), funnel.Document(3, ""))
            self.assertEqual([client.count(), client.count("b"), client.count("-b")], [2, 1, 1])
            self.assertEqual([client.newest(1), client.oldest(1)], [Some(2, [8]), Some(2, [7])])
            self.assertEqual(client.newest(5, "b | -b"), Some(2, [8, 7]))
            self.assertEqual([client.newest(0), client.oldest(3, "zebra")], [Some(2, []), Some(0, [])])
            self.refused(funnel.BadQuery, [0], lambda: client.count("|"))
            self.refused(funnel.BadQuery, [0], lambda: client.newest(1, ""))
            self.assertEqual(client.journal(), [Commit(True, 7), Commit(True, 7), Commit(True, 8)])
            self.assertEqual(client.stats(), funnel.Stats(documents=2, place=3, base=0, columns=128, free=125, retired=0, finds=0))

    def test_each_call_is_answered(self):
        with Server() as server, Client(port=server.port) as client:
            self.assertEqual([client.add(7, "The cat sat"), client.add(9, "a black cat")], [1, 2])
            self.assertEqual([client.find("CAT sat"), client.find(), client.find("dog")], [[7], [7, 9], []])
            self.assertEqual([client.query("cat -sat"), client.query("sat | black")], [[9], [7, 9]])
            self.assertEqual([client.delete(7), client.place()], [3, 3])
            self.assertEqual(client.journal(1), [Commit(True, 9), Commit(False, 7)])
            self.assertEqual(client.tune({"tail": 9}), 1)

    def test_each_refusal_has_its_name(self):
        with Server('{"slices":1,"commits":1}') as server, Client(port=server.port) as client:
            client.add(1, "a")
            self.refused(funnel.Present, [1], lambda: client.add(1, "b"))
            self.refused(funnel.Absent, [], lambda: client.delete(2))
            self.refused(funnel.BadQuery, [4], lambda: client.query("(cat"))
            self.refused(funnel.BadQuery, [0], lambda: client.query(""))
            self.refused(funnel.Deep, [64], lambda: client.query("(" * 65 + "a"))
            self.refused(funnel.BadTuning, [4], lambda: client.tune({"speed": 1}))
            self.refused(funnel.NoRoom, [1200, 600], lambda: client.tune({"tail": 20}))
            self.refused(funnel.NothingRetired, [], client.recycle)
            self.refused(funnel.TooLong, [], lambda: client.find("a" * 65_536))
            self.refused(funnel.BadLine, [], lambda: client.delete(1 << 64))
            with client.pipeline() as calls:
                for id in range(2, 65):
                    calls.add(id, "a")
            self.assertEqual(calls.answers, list(range(2, 65)))
            self.refused(funnel.Full, [], lambda: client.add(65, "a"))
            self.refused(funnel.Trimmed, [63], client.journal)
            with self.assertRaises(ValueError):
                client.add(66, "a\ndel 1")
            self.assertEqual(client.find("a"), list(range(1, 65)))

    def test_a_text_comes_back_as_it_was(self):
        with Server() as server, Client(port=server.port) as client:
            for text in ["", " a  b ", "a\r", "a\r\r", "\r", "groß\t\u2028\0", "a" * 65_528]:
                client.put(7, text)
                self.assertEqual(client.get(7).text, text)

    def test_a_slice_is_recycled(self):
        with Server('{"slices":1}') as server, Client(port=server.port) as client:
            with client.pipeline() as calls:
                for id in range(64):
                    calls.add(id, "a")
                    calls.delete(id)
            self.assertEqual(client.recycle(), 0)

    def test_replies_are_read_while_lines_are_sent(self):
        with Server('{"slices":64,"max_rank":4}') as server, Client(port=server.port, timeout=60) as client:
            with client.pipeline() as calls:
                for id in range(20_000):
                    calls.add(id, "a cat")
            self.assertEqual(calls.answers, list(range(1, 20_001)))
            with client.pipeline() as calls:
                for _ in range(500):
                    calls.find("cat")
                calls.add(1, "b")
            self.assertEqual([len(answer) for answer in calls.answers[:-1]], [20_000] * 500)
            self.assertIsInstance(calls.answers[-1], funnel.Present)

    def test_a_connection_is_made_anew_between_calls_alone(self):
        with Server("{}", 1, "--idle", "1") as server, Client(port=server.port, timeout=10) as client:
            self.assertEqual(client.add(1, "a"), 1)
            time.sleep(2.5)
            self.assertEqual(client.find("a"), [1])
            server.process.kill()
            server.process.wait()
            with self.assertRaises(OSError):
                client.find("a")

    def test_one_session_is_never_made_anew(self):
        with Server("{}", 1, "--idle", "1") as server, Client(port=server.port, one_session=True) as client:
            self.assertEqual(client.add(1, "a"), 1)
            time.sleep(2.5)
            for _ in range(2):
                with self.assertRaises(ConnectionError):
                    client.find("a")

    def test_calls_go_through_tls(self):
        ids = list(range(1000))
        reply = f"found 1000 {' '.join(map(str, ids))}\n".encode()

        def answer():
            connection, _ = listener.accept()
            with without_certificate(ssl.PROTOCOL_TLS_SERVER).wrap_socket(connection, server_side=True) as server:
                while lines := server.recv(1 << 16):
                    server.sendall(reply * lines.count(b"\n"))

        with socket.create_server(("127.0.0.1", 0)) as listener:
            thread = threading.Thread(target=answer)
            thread.start()
            with Client(port=listener.getsockname()[1], timeout=60, tls=without_certificate(ssl.PROTOCOL_TLS_CLIENT)) as client:
                with client.pipeline() as calls:
                    for _ in range(2000):
                        calls.find("a cat " * 100)
                self.assertEqual(calls.answers, [ids] * 2000)
                self.assertEqual(client.find(), ids)
                self.assertEqual(client.sessions, 1)
            thread.join()

    def test_a_call_whose_reply_is_cut_fails(self):
        with socket.create_server(("127.0.0.1", 0)) as listener, Client(port=listener.getsockname()[1]) as client:

            def answer():
                connection, _ = listener.accept()
                with connection:
                    connection.recv(100)
                    connection.sendall(b"found 2 1")

            thread = threading.Thread(target=answer)
            thread.start()
            with self.assertRaises(ConnectionError):
                client.find("a")
            thread.join()
            self.assertIsNone(client.socket)

    def test_what_was_answered_before_a_cut_is_kept(self):
        with socket.create_server(("127.0.0.1", 0)) as listener, Client(port=listener.getsockname()[1]) as client:

            def answer():
                connection, _ = listener.accept()
                with connection:
                    connection.recv(100)
                    connection.sendall(b"added 1\nrefused full\nadd")

            thread = threading.Thread(target=answer)
            thread.start()
            with self.assertRaises(ConnectionError):
                with client.pipeline() as calls:
                    for id in range(3):
                        calls.add(id, "a")
            thread.join()
            self.assertEqual(calls.answers[0], 1)
            self.assertIsInstance(calls.answers[1], funnel.Full)
            self.assertEqual(len(calls.answers), 2)

    def test_shards_have_a_part_each(self):
        with Server() as first, Server() as second:
            with Shards([Client(port=first.port), Client(port=second.port)]) as shards:
                self.assertEqual([shards.add(id, f"cat w{id}") for id in range(5)], [1, 1, 2, 2, 3])
                self.assertEqual([shards.find("cat"), shards.query("cat -w2")], [[0, 2, 4, 1, 3], [0, 4, 1, 3]])
                self.assertEqual([shards.delete(3), shards.find()], [3, [0, 2, 4, 1]])
                with self.assertRaises(funnel.BadQuery):
                    shards.query("(")
                self.assertEqual(shards.find("w2"), [2])
                self.assertEqual([shards.count(), shards.count("w2"), shards.put(2, "dog").replaced, shards.get(2).text], [4, 1, True, "dog"])
                self.assertEqual(shards.newest(1), [Some(3, [2]), Some(1, [1])])
                self.assertEqual(shards.oldest(2, "cat"), [Some(2, [0, 4]), Some(1, [1])])
                self.assertEqual([(it.documents, it.place) for it in shards.stats()], [(3, 4), (1, 3)])


if __name__ == "__main__":
    PROGRAM = sys.argv.pop(1)
    unittest.main()
