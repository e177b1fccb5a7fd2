"""The machine, which counts what a session reaches: changes beside jobs, steps and answers behind them, wanting
room."""

import collections

from language import Refused
from machine import MOST_JOBS
from meaning import Fault, answer
from room import Roomy


class Met(Roomy):
    """Counts by the words of `met`. What a job with units left reads is what its `for` list names."""

    def __init__(self, units=None, filler=None):
        super().__init__(units, filler)
        self.met, self.wanting = collections.Counter(), None

    def readers(self, name):
        return [it for it in self.jobs.values() if it.left > 0 and name in it.names]

    def changed(self, job):
        """The coverages of a job that are no longer those of its submission."""
        return [name for name in job.names if self.store.get(name) is not job.store[name]]

    def InsertCoverage(self):
        before = set(self.store)
        reply = super().InsertCoverage()
        (name,) = set(self.store) - before
        self.met["insertions anew of what a job reads"] += bool(self.readers(name))
        return reply

    def put(self, name, coverage, written=()):
        super().put(name, coverage, written)
        if written and self.readers(name):
            self.met["updates of what a job reads"] += 1
            jobs = [it for it in self.readers(name) if len(it.names) > 1]
            self.met["updates of one of several that a job reads"] += bool(jobs)
        if self.wanting is not None and self.free() > self.wanting:
            self.met["growths behind a release that no room was for"] += 1
            self.wanting = None

    def refused_room(self, new, reserve):
        self.met["growths that no room was for"] += 1
        if not self.lacks(new, reserve, kept=False):
            self.met["growths that no room was for beside what jobs keep"] += 1
            self.wanting = self.free()

    def DeleteCoverage(self):
        before = set(self.store)
        reply = super().DeleteCoverage()
        (name,) = before - set(self.store)
        self.met["deletions of what a job reads"] += bool(self.readers(name))
        return reply

    def SubmitQuery(self):
        reply = super().SubmitQuery()
        self.met["64 jobs at once"] += len(self.jobs) == MOST_JOBS
        job = self.jobs[self.next - 1]
        versions = {name: {id(it.store[name]) for it in self.readers(name)} for name in job.names}
        self.met["coverages at several versions at once"] += any(len(it) > 1 for it in versions.values())
        self.met["coverages at ten versions at once"] += any(len(it) > 9 for it in versions.values())
        return reply

    def job(self, number):
        job = super().job(number)
        request = next((value for key, value in self.pairs if key.lower() == "request"), "")
        if self.changed(job):
            self.met[f"{request} behind a change"] += 1
            self.met[f"{request} behind a change, with units left"] += job.left > 0
        return job

    def answered(self, query, coverages):
        reply = text_of(query, coverages)
        if coverages is not self.store:
            self.met["answers that the store as it is does not give"] += reply != text_of(query, self.store)
        if isinstance(reply, int):
            raise Refused(reply)
        return reply

    def reopened(self, units=None):
        self.met["closes with jobs at hand"] += any(it.left > 0 for it in self.jobs.values())
        self.met["closes with what jobs keep of a store that changed"] += any(
            it.left > 0 and self.changed(it) for it in self.jobs.values()
        )
        super().reopened(units)


def text_of(query, coverages):
    """A query's CSV, or the number of its refusal or fault."""
    try:
        return answer(query, coverages)
    except (Refused, Fault) as refusal:
        return refusal.number
