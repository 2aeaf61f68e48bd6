"""The recorded answers of Subversion, and the reports of many workers beside those of one."""
from __future__ import annotations

from interop import checking, worker_reports
from interop.recorded import recorded_in
from tests.base import ProgramTest


class RecordedAnswers(ProgramTest):
    def test_each_dump_has_the_answers_of_subversion_in_each_way(self) -> None:
        dumps = recorded_in()
        self.assertTrue(dumps)
        for recorded in dumps:
            found = checking.compare(self.programs.svnhist, recorded)
            self.compare(recorded.name, [], found.wrong)


class Workers(ProgramTest):
    def test_reports_of_many_workers_are_those_of_one(self) -> None:
        for name, differing in worker_reports.compare_all(self.programs.svnhist):
            self.compare(name, 0, differing)
