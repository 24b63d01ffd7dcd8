"""One script, run and judged."""

import collections
import os
import resource
import signal
import subprocess
import time
import traceback

from formats import Refused
from judge import judge
from run_words import arguments_of, rounded
from select_rows import TooBig

# What a judgement may take: a report that takes more is too big. The program's threads may reserve more for their stacks.
MOST_MEMORY = 4 << 30
MOST_SECONDS = 30


class Trial:
    """How a trial went: `outcome` is agrees, differs, hangs or too big; `told` says more of what differs; `kinds` counts the report's events."""

    def __init__(self, seed, made):
        self.seed = seed
        self.sessions, self.options, self.script = made
        self.report, self.told, self.outcome = b"", "", "agrees"
        self.kinds = collections.Counter()
        self.seconds = 0

    def words(self, program):
        return arguments_of(program, self.options)

    def run(self, program, seconds, surroundings=None):
        started = time.monotonic()
        try:
            ran = subprocess.run(self.words(program), input=self.script, capture_output=True, timeout=seconds, env=surroundings)
        except subprocess.TimeoutExpired:
            self.outcome, self.told = "hangs", "it takes more than %d seconds" % seconds
            return False
        finally:
            self.seconds = time.monotonic() - started
        self.report = ran.stdout
        if ran.returncode != 0 or ran.stderr:
            self.outcome, self.told = "differs", "status %d: %s" % (ran.returncode, ran.stderr[:200])
            return False
        return True

    def judge(self):
        try:
            with bounded():
                judge(self.script, self.report, rounded(self.options), self.kinds)
        except (TooBig, MemoryError):
            self.outcome = "too big"
        except Refused as refusal:
            self.outcome, self.told = "differs", str(refusal)
        except Exception:
            self.outcome, self.told = "differs", traceback.format_exc()

    def keep(self, folder, program):
        for name, content in (("script", self.script), ("report", self.report), ("options", " ".join(self.words(program)[1:]).encode()), ("told", self.told.encode())):
            with open(os.path.join(folder, "%d.%s" % (self.seed, name)), "wb") as file:
                file.write(content)


class bounded:
    """Memory and time of the processor that a judgement may take."""

    def __enter__(self):
        self.limits = resource.getrlimit(resource.RLIMIT_AS)
        resource.setrlimit(resource.RLIMIT_AS, (MOST_MEMORY, self.limits[1]))
        signal.signal(signal.SIGVTALRM, self.too_long)
        signal.setitimer(signal.ITIMER_VIRTUAL, MOST_SECONDS)

    def __exit__(self, *_):
        signal.setitimer(signal.ITIMER_VIRTUAL, 0)
        resource.setrlimit(resource.RLIMIT_AS, self.limits)

    @staticmethod
    def too_long(*_):
        raise TooBig()


def made(maker):
    """The number of sessions, the options and the script of a trial."""
    return maker.sessions, maker.options(), maker.script()


def tried(program, seed, parts, seconds, surroundings=None):
    trial = Trial(seed, parts)
    if trial.run(program, seconds, surroundings):
        trial.judge()
    return trial
