"""Commands that are killed, or told to end, at any moment: what they write is old or new, whole."""
import os
import random
import signal
import subprocess
import time

import writers
from room import contents, need
from steps import ENDING

KILLS = 45        # of each command that writes
SIGNALS = 24


class Stopper:
    """Sends signals to one command, at moments between its start and, about, its end."""

    def __init__(self, room, writer):
        self.room, self.writer, self.lasts = room, writer, 0.004

    def stop(self, number):
        """Runs the command and sends it a signal; gives its status, and whether it still ran.
        Where it had ended, the next signal comes sooner, so that about half of them meet it."""
        self.writer.lay()
        process = self.room.start(*self.writer.words, start_new_session=True,
                                  stdin=subprocess.DEVNULL, stdout=subprocess.DEVNULL,
                                  stderr=subprocess.DEVNULL)
        end = time.perf_counter() + random.random() * self.lasts
        while time.perf_counter() < end:
            pass
        running = process.poll() is None
        if running:
            os.killpg(process.pid, number)
        self.lasts *= 1.1 if running else 0.8
        return process.wait(), running


def test_killed(room):
    """Killed at random moments: old or new, whole; at most a temporary name is left, which is like
    no other, and does not keep the next command from its work."""
    hits, states, left = 0, [], []
    for writer in writers.writers(3):
        before, stopper = contents("in"), Stopper(room, writer)
        for _ in range(KILLS):
            status, _ = stopper.stop(signal.SIGKILL)
            hits += status == -signal.SIGKILL
            states.append(writer.judge(status, left=status == -signal.SIGKILL))
            left += writers.temporary("out")
        again(room, writer)
        need(contents("in") == before, writer.name, "changed an input")
    need(hits > len(states) // 4, "only %d of %d were killed" % (hits, len(states)))
    need(states.count("old") > 20, "states", {state: states.count(state) for state in states})
    need(len(set(left)) == len(left), "a temporary name came twice:", sorted(left))


def again(room, writer):
    """The command, run once more where one was killed, does its work beside what was left."""
    left = {name: data for name, data in contents("out").items() if writers.LEFT.match(name)}
    writer.lay(left)
    room.ends(writer.status, *writer.words)
    need(writer.state(left=True) == "new", writer.name, "after a kill:", writer.state(True))


def test_told_to_end(room):
    """Signals that end programs at random moments: old or new, whole, and never anything left."""
    hits = made = 0
    for writer in writers.writers(2):
        stopper = Stopper(room, writer)
        for turn in range(SIGNALS):
            number = ENDING[turn % len(ENDING)]
            status, running = stopper.stop(number)
            need(status in (writer.status, -number), writer.name, number.name, "ended it with",
                 status)
            writer.judge(status)
            hits += running
            made += 1
    need(hits > made // 4, "only %d of %d were still running" % (hits, made))
