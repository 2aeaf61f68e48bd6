"""Long texts that several processes make."""
from __future__ import annotations

import os
import signal
import subprocess
import threading
import unittest
from collections.abc import Iterator
from functools import partial
from typing import Any, Callable
from unittest import mock

from dev.dumps import FILE, added, changed, dump_of
from svnask.history.open_history import OpenHistory
from svnask.log import forms as log_forms
from svnask.log import processes
from svnask.log.processes import made
from tests.ask import base

PARTS = range(25)
LONG_TEXT = 1 << 20


def text_of(number: int) -> bytes:
    return b"%d " % number


TEXT = b"".join(map(text_of, PARTS))


class Forks:
    """Starts so many processes and no more."""

    def __init__(self, left: int) -> None:
        self._fork, self._left = os.fork, left

    def __call__(self) -> int:
        self._left -= 1
        if self._left < 0:
            raise BlockingIOError
        return self._fork()


class Processes(unittest.TestCase):
    def setUp(self) -> None:
        self.own = os.getpid()

    def tearDown(self) -> None:
        with self.assertRaises(ChildProcessError):
            os.waitpid(-1, os.WNOHANG)

    def made(self, make: Callable[[int], bytes], count: int = 3) -> bytes:
        return b"".join(made(make, PARTS, count))

    def test_the_text_is_the_same_whatever_the_number_of_processes(self) -> None:
        for count in (1, 2, 3, 8, 30):
            self.assertEqual(self.made(text_of, count), TEXT, count)
        self.assertEqual([*made(text_of, [], 3)], [])

    def test_the_texts_are_made_by_others(self) -> None:
        found = [*made(lambda number: b"%d" % os.getpid(), PARTS, 3)]
        self.assertEqual(len(set(found)), 3)
        self.assertNotIn(b"%d" % self.own, found)

    def test_a_text_may_be_longer_than_a_pipe_holds(self) -> None:
        found = self.made(lambda number: text_of(number) * LONG_TEXT)
        self.assertEqual(found, b"".join(text_of(number) * LONG_TEXT for number in PARTS))

    def made_where(self, fails: Callable[[], object]) -> bytes:
        """Return what is made where other processes fail at one of the parts."""

        def make(number: int) -> bytes:
            if number == 10 and os.getpid() != self.own:
                fails()
            return text_of(number)

        return self.made(make)

    def test_what_another_process_does_not_make_is_made_all_the_same(self) -> None:
        def fail() -> None:
            raise MemoryError

        self.assertEqual(self.made_where(fail), TEXT)
        for number in (signal.SIGKILL, *processes.SIGNALS):
            with base.signals_end():
                self.assertEqual(self.made_where(partial(signal.raise_signal, number)), TEXT, number)

    def test_a_part_of_a_text_is_not_taken_for_it(self) -> None:
        def pieces() -> Iterator[bytes]:
            for length, text in (5, b"whole"), (LONG_TEXT, b"part"):
                os.write(end_of_pipe, length.to_bytes(processes.LENGTH, "big") + text)
            yield from ()

        own_pipe = os.pipe
        end_of_pipe = -1

        def pipe() -> tuple[int, int]:
            nonlocal end_of_pipe
            read_end, end_of_pipe = own_pipe()
            return read_end, end_of_pipe

        with mock.patch.object(os, "pipe", pipe):
            maker = processes.Maker(pieces())
        self.assertEqual([maker.next() for _ in range(3)], [b"whole", None, None])
        maker.close()

    def test_an_error_is_that_of_one_process(self) -> None:
        def make(number: int) -> bytes:
            if number == 10:
                raise ZeroDivisionError
            return text_of(number)

        with self.assertRaises(ZeroDivisionError):
            self.made(make)

    def test_where_no_process_can_be_started_one_makes_all(self) -> None:
        for fewer in range(3):
            with mock.patch.object(os, "fork", Forks(fewer)):
                self.assertEqual(self.made(text_of), TEXT, fewer)

    def test_the_others_end_where_the_rest_is_not_taken(self) -> None:
        found = made(lambda number: text_of(number) * LONG_TEXT, PARTS, 3)
        next(found)
        # So its generator is closed.
        del found

    def test_a_process_with_threads_does_all_itself(self) -> None:
        with mock.patch.object(os, "sched_getaffinity", lambda _: range(4)):
            self.assertEqual(processes.count_of_processes(), 4)
            end = threading.Event()
            thread = threading.Thread(target=end.wait)
            thread.start()
            self.assertEqual(processes.count_of_processes(), 1)
            end.set()
            thread.join()
        with mock.patch.object(os, "sched_getaffinity", lambda _: range(64)):
            self.assertEqual(processes.count_of_processes(), processes.MOST)


class LongLogs(base.Case):
    """Logs that are printed by several processes, here with few revisions in each part."""

    def setUp(self) -> None:
        super().setUp()
        revisions = [[added(b"trunk"), added(b"trunk/a", FILE)], *([changed(b"trunk/a")] for _ in range(60))]
        self.dump = self.made("dump", dump_of(*revisions))
        for name, value in (("LONG", 20), ("LENGTH_OF_PART", 7), ("count_of_processes", lambda: 3)):
            patch = mock.patch.object(log_forms, name, value)
            patch.start()
            self.addCleanup(patch.stop)

    def check_logs(self, dump: str, *targets: str) -> None:
        for options in ("", "-q", "-v", "--xml -v", "-g", "-g -v", "-g --xml", "--search 1", "-g -v --search-and a"):
            words = [dump, "log", *options.split(), *targets]
            with mock.patch.object(processes, "Maker", wraps=processes.Maker) as maker:
                done = base.called(*words)
            self.assertEqual((done.status, done.said), (0, ""), words)
            with mock.patch.object(OpenHistory, "is_last_question", False, create=True), mock.patch.object(
                log_forms, "LONG", 1 << 30
            ):
                self.assertEqual(base.called(*words), done, words)
            self.assertEqual(maker.call_count, 3, words)

    def test_they_are_the_same(self) -> None:
        self.check_logs(str(self.dump), "trunk")

    def test_merged_revisions_have_what_they_were_merged_in(self) -> None:
        with mock.patch.object(log_forms, "LONG", 1), mock.patch.object(log_forms, "LENGTH_OF_PART", 1):
            for name, target in (("merges", "trunk"), ("merges", "branches/two"), ("branches", "")):
                self.check_logs(str(base.dump_of(name)), target)


class LongCommands(base.Case):
    """The command, about a history that is long enough for several processes."""

    def setUp(self) -> None:
        super().setUp()
        count = log_forms.LONG + 2000
        self.dump = self.made("dump", dump_of([added(b"trunk")], *([changed(b"trunk")] for _ in range(count))))

    def started(self, **options: Any) -> subprocess.Popen[bytes]:
        words = base.command(self.dump, "log", "trunk")
        with base.signals_end():
            return subprocess.Popen(words, stdout=subprocess.PIPE, start_new_session=True, **options)

    def test_all_is_printed_by_one_processor_or_more(self) -> None:
        one = {min(os.sched_getaffinity(0))}
        outputs = []
        for begin in (lambda: None, lambda: os.sched_setaffinity(0, one)):
            process = self.started(preexec_fn=begin)
            outputs.append(process.communicate()[0])
            self.assertEqual(process.returncode, 0)
        self.assertEqual(outputs[0], outputs[1])
        self.assertEqual(outputs[0].count(b"\nr"), log_forms.LONG + 2001)

    def test_nothing_is_left_of_a_command_that_ends_early(self) -> None:
        for number in (None, signal.SIGINT, signal.SIGTERM, signal.SIGKILL):
            process = self.started()
            assert process.stdout
            process.stdout.read(1)
            if number is None:
                process.stdout.close()
            else:
                process.send_signal(number)
            self.assertEqual(process.wait(), -(number or signal.SIGPIPE))
            wait_for_end(process.pid)
            process.stdout.close()


def wait_for_end(group: int) -> None:
    """Wait until no process is left of a group."""

    def is_over() -> bool:
        try:
            os.killpg(group, 0)
        except ProcessLookupError:
            return True
        return False

    base.wait_for(is_over)
