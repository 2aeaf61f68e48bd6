"""A server: what it answers is what a call without it prints, and where it has no whole reply, that is what counts."""
from __future__ import annotations

import contextlib
import json
import os
import shutil
import signal
import socket
import subprocess
import sys
import threading
import time
from pathlib import Path
from unittest import mock

from dev import running
from dev.dumps import Revision, added, changed, dump_of
from dev.tree import ROOT, SVNASK
from svnask.serving import client, sockets
from svnask.serving.server import Caller, Gone, is_of_process
from tests.ask import base
from tests.ask.questions import all_but

ANSWERED = base.commands(
    "log --json -l 1; log nope; log --bogus; record 999; log -r BASE; log -q -r {2024-01-01T03:00}:{2024-01-05}; "
    "branches none* /tags/**; --offline info; propget svn:ignore; new none trunk"
) + all_but({"serve", "update"})
# Calls the command with a verb whose computation does not end.
ENDLESS = f"""
import sys
sys.path.insert(0, {str(ROOT / 'ask')!r})
from svnask.asking import running
from svnask.cli import main
tell = running.tell
def endless(history, given, write, is_last=False):
    while given.verb == "graph":
        pass
    tell(history, given, write, is_last)
running.tell = endless
sys.exit(main.answer(sys.argv[3:]))
"""

# Calls the command where another thread gets the signals, so that they interrupt no call of this one.
UNINTERRUPTED = f"""
import signal, sys, threading, time
sys.path.insert(0, {str(ROOT / 'ask')!r})
from svnask.cli import main
threading.Thread(target=time.sleep, args=(60,), daemon=True).start()
signal.pthread_sigmask(signal.SIG_BLOCK, [signal.SIGTERM])
sys.exit(main.answer(sys.argv[1:]))
"""


class Serve(base.Case):
    def setUp(self) -> None:
        super().setUp()
        self.dump = self.made("asked.dump", base.content_of("branches"))

    def served(
        self, *words: base.Word, dump: Path | None = None, by: tuple[base.Word, ...] = ()
    ) -> subprocess.Popen[bytes]:
        """A server, which is there, perhaps started by another command."""
        server = subprocess.Popen(
            [*by, *base.command(dump or self.dump, "serve", *words)], stdout=subprocess.PIPE, stderr=subprocess.PIPE
        )
        self.addCleanup(self.end, server)
        assert server.stdout is not None
        self.assertTrue(server.stdout.readline().startswith(b"serving /"), server.poll())
        return server

    def end(self, server: subprocess.Popen[bytes]) -> None:
        """End a server, if it has not ended, and look for what it left."""
        server.terminate()
        _, said = server.communicate(timeout=60)
        self.assertEqual((said, self.sockets()), (b"", []))

    def sockets(self) -> list[str]:
        return [path.name for path in (self.cache / "svnhist").glob("socket-*")]

    def is_asked(self, *words: base.Word) -> bool:
        """Return whether a server replies to a question."""
        reply = client.ask_server([os.fspath(word) for word in words])
        if reply is not None:
            os.close(reply.output)
        return reply is not None

    def check_same(self, *words: base.Word, folder: Path | None = None, **variables: str) -> None:
        """A call that a server answers prints what one without it prints."""
        self.assertTrue(self.is_asked(self.dump, *words))
        found = running.run(base.command(self.dump, *words), environment=variables, folder=folder)
        alone = {**variables, "XDG_CACHE_HOME": str(self.folder / "other")}
        self.assertEqual(found, running.run(base.command(self.dump, *words), environment=alone, folder=folder), words)

    def test_answers_are_those_without_it(self) -> None:
        self.served()
        for words in ANSWERED:
            self.check_same(*words)

    def test_without_a_cache_nothing_is_kept(self) -> None:
        self.served("--no-cache")
        self.assertTrue(self.is_asked(self.dump, "info"))
        os.utime(self.dump)
        self.assertTrue(self.is_asked(self.dump, "log", "-q"))
        self.assertEqual([path for path in (self.cache / "svnhist").rglob("*") if path.name.startswith("index")], [])

    def test_the_folder_and_the_zone_are_those_of_the_caller(self) -> None:
        self.served()
        folder = self.folder / "below"
        folder.mkdir()
        (folder / "queries").write_bytes(b"log\ttrunk@13\n")
        with mock.patch.dict(os.environ), mock.patch.object(os, "getcwd", lambda: str(folder)):
            self.check_same("ask", "queries", folder=folder)
        for zone in ("UTC", "Asia/Tokyo", "EST5EDT", "XXX-3:30"):
            self.check_same("log", "-l", "2", folder=folder, TZ=zone)
        mask = os.umask(0o027)
        try:
            done = running.run(base.command("../asked.dump", "graph", "-o", "a.svg"), folder=folder)
        finally:
            os.umask(mask)
        self.assertEqual((done.status, done.output, done.errors), (0, b"", b""))
        self.assertEqual((folder / "a.svg").stat().st_mode & 0o777, 0o640)

    def test_files_of_the_caller_himself_are_read_by_him(self) -> None:
        self.served()
        queries = self.made("queries", b"log\ttrunk@13\n")
        (self.folder / "link").symlink_to("/dev/stdin")
        for name in ("/dev/stdin", "/dev/fd/0", "/proc/self/fd/0", "link"):
            self.assertFalse(self.is_asked(self.dump, "ask", self.folder / name))
            done = running.run(base.command(self.dump, "ask", self.folder / name), queries)
            self.assertEqual((done.status, done.output.count(b"\n")), (0, 3), done)
            self.assertFalse(self.is_asked(self.dump, "graph", "-o", self.folder / name))

    def test_files_in_memory_are_the_same_for_all(self) -> None:
        loop = self.folder / "loop"
        loop.symlink_to("loop")
        for name in ("/dev/shm/a.dump", "/development/f", str(self.dump)):
            self.assertFalse(is_of_process(name), name)
        for name in ("/dev/shm/../stdin", "/dev/shm", "/dev/fd/0", "/proc/self/fd/0", str(loop)):
            self.assertTrue(is_of_process(name), name)

    def test_what_is_not_for_it(self) -> None:
        self.served()
        rows: list[list[base.Word]] = [["-", "info"], ["--no-cache", self.dump, "info"], [self.dump, "stop", "-h"], []]
        for words in rows:
            self.assertFalse(self.is_asked(*words), words)
        self.assertFalse(self.is_asked(base.dump_of("merges"), "info"))
        for name in client.SAME:
            with mock.patch.dict(os.environ, {name: "/other"}):
                self.assertFalse(self.is_asked(self.dump, "info"))
        for version in ("0.9", "99"):
            with mock.patch.object(client, "__version__", version):
                self.assertFalse(self.is_asked(self.dump, "info"))
        self.assertTrue(self.is_asked(self.dump, "info"))

    def test_a_dump_that_has_changed_is_read_again(self) -> None:
        self.dump.write_bytes(dump_of([added(b"trunk")]))
        self.served()
        self.check_same("log", "-q", "trunk")
        with open(self.dump, "ab") as file:
            file.write(bytes(Revision(2, [changed(b"trunk")])))
        self.check_same("log", "-q", "trunk")
        self.assertEqual(base.run(self.dump, "log", "-q", "trunk").output.count(b"\nr"), 2)
        self.dump.write_bytes(base.content_of("merges"))
        for words in (["branches"], ["unmerged"], ["log", "-v", "-l", "3"]):
            self.check_same(*words)
        self.dump.write_bytes(base.content_of("malformed"))
        for words in (["check-mergeinfo"], ["check-mergeinfo", "--json"], ["propget", "-R", "svn:mergeinfo"]):
            self.check_same(*words)
        self.dump.write_bytes(self.dump.read_bytes()[:-40])
        self.assertEqual(base.run(self.dump, "log").status, 1)

    def test_many_ask_at_once(self) -> None:
        self.served()
        wanted = base.run(self.dump, "log", "-v").output
        calls = [subprocess.Popen(base.command(self.dump, "log", "-v"), stdout=subprocess.PIPE) for _ in range(6)]
        self.assertEqual({call.communicate()[0] for call in calls}, {wanted})
        self.assertEqual([call.returncode for call in calls], [0] * 6)

    def test_output_that_nobody_reads_harms_nothing(self) -> None:
        dump = self.made("long", dump_of([added(b"t" * 200)], *[[changed(b"t" * 200)]] * 3000))
        self.served(dump=dump)
        line = f"{sys.executable} {SVNASK} {dump} log -v / | head -c 10"
        for _ in range(2):
            self.assertEqual(running.run(["sh", "-c", line]).output, b"----------")
        with open("/dev/full", "wb") as full:
            done = subprocess.run(base.command(dump, "log"), stdout=full, stderr=subprocess.PIPE, check=False)
        self.assertEqual((done.returncode, done.stderr.count(b"\n")), (3, 1))
        self.assertTrue(self.is_asked(dump, "info"))

    def test_a_caller_that_is_killed_harms_nothing(self) -> None:
        self.served()
        for text in (b"", b"{", b"nonsense\n", b"{}\n", b"[]\n", b"7\n", b'{"version": 1, "variables": {}}\n'):
            connection = client.connection_of(str(self.dump))
            assert connection is not None
            with connection:
                connection.sendall(text)
        for _ in range(3):
            connection = client.connection_of(str(self.dump))
            assert connection is not None
            with connection:
                connection.sendall(client.request([str(self.dump), "log"]))
        self.assertTrue(self.is_asked(self.dump, "info"))

    def test_a_server_that_is_killed_leaves_the_question_to_the_caller(self) -> None:
        wanted = base.run(self.dump, "log")
        server = self.served()
        server.kill()
        server.wait()
        self.assertEqual(len(self.sockets()), 1)
        self.assertEqual(base.run(self.dump, "log"), wanted)
        self.assertEqual(self.sockets(), [])

    def answering(self, reply: bytes, file: Path | None) -> None:
        """A server in the place of another one, which takes a request and ends in the middle of its reply."""
        top = str(self.cache / "svnhist")
        os.makedirs(top, mode=0o700, exist_ok=True)
        path = os.path.join(top, sockets.socket_name(str(self.dump)))
        with socket.socket(socket.AF_UNIX) as listener, open(file or os.devnull, "rb") as output:
            listener.bind(path)
            listener.listen()

            def answer() -> None:
                connection, _ = listener.accept()
                with connection:
                    connection.recv(1 << 16)
                    if reply:
                        socket.send_fds(connection, [reply], [output.fileno()] if file else [])

            thread = threading.Thread(target=answer)
            thread.start()
            try:
                self.assertEqual(base.run(self.dump, "log", "-q", "trunk").output.count(b"\nr"), 3)
            finally:
                thread.join()
                os.unlink(path)

    def connected(self) -> socket.socket:
        found = client.connection_of(str(self.dump))
        assert found is not None
        self.addCleanup(found.close)
        return found

    def test_odd_requests_leave_no_trace(self) -> None:
        self.served()
        whole = json.loads(client.request(["DUMP", "info"]))
        odd: list[bytes] = [b"[" * 100000, b"7", b"[]", b"{}", b"\xff", b""]
        for name, value in (("mask", 10**30), ("words", 7), ("words", [7]), ("folder", "/none"), ("variables", [])):
            odd.append(json.dumps({**whole, name: value}).encode())
        for each in odd:
            with self.connected() as connection:
                connection.sendall(each + b"\n")
                self.assertEqual(connection.recv(1), b"", each[:60])
        self.check_same("log", "-q")

    def test_a_question_whose_caller_is_gone_is_given_up(self) -> None:
        slow = self.folder / "slow"
        engine = self.script("engine", f"test ! -e {slow} || exec sleep 600", f'exec {self.programs.svnhist_live} "$@"')
        with mock.patch.dict(os.environ, SVNHIST_LIVE=engine):
            self.served()
            slow.touch()
            self.dump.write_bytes(base.content_of("merges"))
            connection = self.connected()
            connection.sendall(client.request([str(self.dump), "log", "-q"]))
            time.sleep(1)
            slow.unlink()
            connection.close()
            begun = time.monotonic()
            self.check_same("log", "-q")
            self.assertLess(time.monotonic() - begun, 20)

    def test_so_is_one_that_is_computed(self) -> None:
        self.served(by=(sys.executable, "-c", ENDLESS))
        connection = self.connected()
        connection.sendall(client.request([str(self.dump), "graph"]))
        time.sleep(1)
        connection.close()
        self.check_same("log", "-q")

    def test_a_signal_that_comes_before_it_waits_ends_it(self) -> None:
        for words in (["serve"], ["web", "--listen", "127.0.0.1:0"]):
            command: list[base.Word] = [sys.executable, "-c", UNINTERRUPTED, self.dump, *words]
            server = subprocess.Popen(command, stdout=subprocess.PIPE, stderr=subprocess.PIPE)
            self.addCleanup(server.communicate)
            self.addCleanup(server.kill)
            assert server.stdout is not None
            # Where a module is missing there are no pages.
            if server.stdout.readline():
                time.sleep(0.5)
                server.terminate()
                self.assertEqual(server.wait(30), -signal.SIGTERM)
            self.assertEqual(self.sockets(), [])

    def test_a_caller_that_goes_ends_what_catches_all_exceptions(self) -> None:
        ours, theirs = socket.socketpair()
        self.addCleanup(ours.close)
        theirs.close()
        begun = time.monotonic()
        with self.assertRaises(Gone), Caller(ours, lambda: None):
            with contextlib.suppress(BaseException):
                while time.monotonic() < begun + 30:
                    pass
            while time.monotonic() < begun + 30:
                pass
        self.assertLess(time.monotonic() - begun, 10)

    def test_a_file_that_changes_meanwhile_is_made_anew(self) -> None:
        self.served()
        wanted = base.run(self.dump, "log", "-v").output
        (copy,) = (self.cache / "svnhist").glob("*/dump.*")
        with copy.open("r+b") as file:
            content = file.read()
            file.seek(content.index(b"svn:log", len(content) // 2) + 15)
            file.write(b"\xff\xff\xff")
        for _ in range(3):
            self.assertEqual(base.run(self.dump, "log", "-v"), (0, wanted, ""))

    def test_it_goes_on_where_it_had_no_descriptors(self) -> None:
        self.served(by=("sh", "-c", 'ulimit -n 40; exec "$@"', "sh"))
        connections = [self.connected() for _ in range(80)]
        time.sleep(0.5)
        for each in connections:
            each.close()
        base.wait_for(lambda: self.is_asked(self.dump, "info"))
        self.check_same("log", "-q")

    def test_a_reply_that_is_cut_is_none(self) -> None:
        whole = json.dumps({"status": 0, "said": []}).encode() + b"\n"
        part = self.made("part", b"a part")
        for reply, file in ((b"", None), (whole, None), (whole[:-1], part), (whole[:7], part), (b"{}\n", part)):
            self.answering(reply, file)

    def test_a_socket_of_another_user_is_not_used(self) -> None:
        self.served()
        with mock.patch.object(os, "geteuid", return_value=os.geteuid() + 1):
            self.assertFalse(self.is_asked(self.dump, "info"))
        self.assertTrue(self.is_asked(self.dump, "info"))

    def test_a_file_in_the_place_of_the_socket_stays(self) -> None:
        self.assertEqual(base.run(self.dump, "info").status, 0)
        file = self.cache / "svnhist" / sockets.socket_name(str(self.dump))
        file.write_bytes(b"precious")
        self.assertEqual(base.run(self.dump, "info").status, 0)
        done = base.run(self.dump, "serve")
        self.assertEqual((done.status, done.output, done.said.count("\n")), (1, b"", 1))
        self.assertEqual(file.read_bytes(), b"precious")
        file.unlink()

    def test_there_is_one_server_of_a_dump(self) -> None:
        self.served()
        done = base.run(self.dump, "serve")
        self.assertEqual((done.status, done.output, done.said.count("\n")), (1, b"", 1))
        self.assertTrue(self.is_asked(self.dump, "info"))

    def test_it_ends_when_it_is_told_to(self) -> None:
        server = self.served()
        self.assertEqual(base.run(self.dump, "stop"), (0, b"", ""))
        self.assertEqual((server.wait(10), self.sockets()), (0, []))
        done = base.run(self.dump, "stop")
        self.assertEqual((done.status, done.output, done.said.count("\n")), (1, b"", 1))
        for seconds in ("9999999999", "9" * 5000):
            server = self.served("--stop-after", seconds)
            self.assertEqual(base.run(self.dump, "stop"), (0, b"", ""))
            self.assertEqual((server.wait(10), self.sockets()), (0, []))
        for number in (signal.SIGINT, signal.SIGTERM, signal.SIGHUP):
            with base.signals_end():
                server = self.served()
            server.send_signal(number)
            self.assertEqual((server.wait(10), self.sockets()), (-number, []))

    def test_it_ends_when_nobody_asks(self) -> None:
        server = self.served("--stop-after", "2")
        begun = time.monotonic()
        while time.monotonic() - begun < 3:
            self.assertTrue(self.is_asked(self.dump, "info"))
            time.sleep(0.3)
        self.assertIsNone(server.poll())
        self.assertEqual((server.wait(30), self.sockets()), (0, []))

    def test_one_whose_program_is_killed_answers_again(self) -> None:
        server = self.served()
        (engine,) = Path(f"/proc/{server.pid}/task/{server.pid}/children").read_text("ascii").split()
        os.kill(int(engine), signal.SIGKILL)
        self.check_same("log", "-q", "trunk")

    def test_what_can_not_be_served(self) -> None:
        faulty = self.made("faulty", self.dump.read_bytes().replace(b"Node-path: trunk\n", b"Node-path: other\n", 1))
        rows: list[tuple[base.Word, int]] = [(faulty, 1), (self.folder / "none", 3), ("-", 2)]
        for dump, status in rows:
            done = base.run(dump, "serve")
            self.assertEqual((done.status, done.output, self.sockets()), (status, b"", []), done)

    def test_the_folder_of_the_cache_may_have_a_long_name(self) -> None:
        os.environ["XDG_CACHE_HOME"] = str(self.folder / "/".join(["long" * 20] * 3))
        self.served()
        self.assertTrue(self.is_asked(self.dump, "info"))
        shutil.copy(self.dump, self.folder / "copy")
        self.assertFalse(self.is_asked(self.folder / "copy", "info"))
