"""Commands stopped at each of their calls of the system: killed there, told to end, or refused.

A command is run under ptrace from one call to the next. What a kill can leave changes at such calls
alone, so to kill it before each of them is to kill it at every moment. Likewise each call that
touches files is made to fail, once with each error that it can have.
"""
import ctypes
import errno
import os
import platform
import resource
import signal
import subprocess

import writers
from room import PLAIN, Coded, Skipped, contents, fill, need, put, word_of

TRACE_ME, PEEK, POKE, GO_ON, DETACH, OPTIONS = 0, 3, 6, 24, 17, 0x4200
GOOD_STOPS, END_WITH_PARENT = 1, 0x100000
RESULT, NUMBER, LENGTH, FOURTH = 80, 120, 96, 56  # where the registers are: rax, orig_rax, rdx, r10
READ, WRITE = {0, 17, 19}, {1, 18, 20}
OPEN, STAT = {2, 257}, {4, 5, 6, 262, 332}
SYNC, RENAME = {74, 75}, {82, 264, 316, 86, 265}
EXCHANGE, LINK, REPLACE = 316, 265, 264   # renameat2 with flags, linkat and renameat
MAKE, MODE, LOCK, LIST, OWNER = {83, 258}, {90, 91, 268}, {73}, {217}, {93}
REMOVE, CHOSEN, SIGNALS, SIGNAL_STACK = {87, 263, 84}, {318}, {13, 14}, 131
ENDING = (signal.SIGTERM, signal.SIGINT, signal.SIGHUP, signal.SIGQUIT, signal.SIGALRM,
          signal.SIGUSR1, signal.SIGXCPU)
CHANGING = WRITE | OPEN | SYNC | RENAME | MAKE | MODE | LOCK | REMOVE
# The errors with which calls are made to fail, in turn.
FAILS = [(WRITE, (errno.ENOSPC, errno.EIO)), (SYNC, (errno.EIO,)), (MAKE, (errno.ENOSPC,)),
         (RENAME, (errno.EIO, errno.ENOSPC, errno.EINVAL)), (READ, (errno.EIO,)),
         (OPEN, (errno.EACCES, errno.ENOSPC, errno.EMFILE)), (STAT, (errno.EIO,)),
         (LIST, (errno.EIO,)), (MODE, (errno.EPERM,)), (LOCK, (errno.ENOLCK,)),
         (CHOSEN, (errno.ENOSYS,))]
CERTAIN = [(WRITE, (74,)), (SYNC, (74,)), (MAKE, (73, 74))]     # the statuses that these must give
libc = ctypes.CDLL(None, use_errno=True)
libc.ptrace.restype = ctypes.c_long
libc.ptrace.argtypes = [ctypes.c_long, ctypes.c_long, ctypes.c_long, ctypes.c_long]


def ptrace(request, child, place=0, data=0):
    """One request; an error is an error here."""
    ctypes.set_errno(0)
    result = libc.ptrace(request, child, place, data)
    if result == -1 and ctypes.get_errno():
        raise OSError(ctypes.get_errno(), "ptrace %d" % request)
    return result


def begin(room, words):
    """Starts a command, stopped before its first call."""
    if platform.machine() != "x86_64":
        raise Skipped("calls are known for x86-64 alone")
    arguments = [room.program, *[word_of(word) for word in words]]
    room.made += 1
    child = os.fork()
    if child == 0:
        try:
            nothing = os.open(os.devnull, os.O_RDWR)
            for number in (0, 1, 2):
                os.dup2(nothing, number)
            resource.setrlimit(resource.RLIMIT_CORE, (0, 0))
            libc.ptrace(TRACE_ME, 0, 0, 0)
            os.execve(arguments[0], arguments, PLAIN)
        finally:
            os._exit(127)
    _, status = os.waitpid(child, 0)
    if not os.WIFSTOPPED(status):
        raise Skipped("ptrace is not allowed")
    ptrace(OPTIONS, child, 0, GOOD_STOPS | END_WITH_PARENT)
    return child


def next_stop(child):
    """Lets the command go on to its next stop; gives its status where it has ended, else None."""
    forward = 0
    while True:
        ptrace(GO_ON, child, 0, forward)
        _, status = os.waitpid(child, 0)
        if not os.WIFSTOPPED(status):
            return os.waitstatus_to_exitcode(status)
        if os.WSTOPSIG(status) == signal.SIGTRAP | 0x80:
            return None
        forward = os.WSTOPSIG(status)
        if forward == signal.SIGTRAP:         # it has become another program
            forward = 0


def to_call(child, index):
    """Goes on to the entry of the call of this index, from 0; None, or the status of the end."""
    for _ in range(2 * index + 1):
        ended = next_stop(child)
        if ended is not None:
            return ended
    return None


def finish(child):
    """Lets the command go on to its end, watched no more; gives its status."""
    ptrace(DETACH, child)
    return os.waitstatus_to_exitcode(os.waitpid(child, 0)[1])


def guided(room, writer, before):
    """Runs a command to its end; gives its status. BEFORE is called before each of its calls, with
    the process and the call's number; an error that it gives is what the call fails with."""
    writer.lay()
    child = begin(room, writer.words)
    while True:
        ended = next_stop(child)
        if ended is not None:
            return ended
        error = before(child, ptrace(PEEK, child, NUMBER))
        if error:
            ptrace(POKE, child, NUMBER, -1)
        ended = next_stop(child)
        if ended is not None:
            return ended
        if error:
            ptrace(POKE, child, RESULT, -error)


def word_at(child, register):
    """The text that a register leads to."""
    with open("/proc/%d/mem" % child, "rb", 0) as memory:
        memory.seek(ptrace(PEEK, child, register))
        return os.fsdecode(memory.read(300).split(b"\0")[0])


def calls(room, writer):
    """The numbers of all calls that the command makes."""
    numbers = []
    ended = guided(room, writer, lambda _, number: numbers.append(number))
    need(ended == writer.status, writer.name, "ended with", ended)
    return numbers


def own_calls(numbers, kinds):
    """The indices of the calls of these kinds, without those that load the program."""
    loaded = max(index for index, number in enumerate(numbers) if number == SIGNAL_STACK
                 and index < len(numbers) - 5)
    return [index for index, number in enumerate(numbers) if index > loaded and number in kinds]


def test_killed_at_each_call(room):
    """Stopped before each call: what is there now, a kill now would leave. It is old or new, whole,
    with at most a temporary name beside."""
    names = set()
    for writer in writers.writers(2):
        before = contents("in")
        writer.lay()
        child = begin(room, writer.words)
        states, ended = [], None
        while ended is None:
            ended = next_stop(child)
            states.append(writer.judge("a kill at stop %d" % len(states), left=True))
            names.update(writers.temporary("out"))
        need(ended == writer.status, writer.name, "ended with", ended)
        need(states[0] == "old" and states[-1] == "new", writer.name, states)
        changes = sum(a != b for a, b in zip(states, states[1:]))
        need(changes == (2 if "between" in states else 1), writer.name, states)
        need(contents("in") == before, writer.name, "changed an input")
    need(len(names) >= 12, "few temporary names were seen:", names)
    for place in range(len(".cedunmi-"), len(".cedunmi-") + 16):
        need(len({name[place] for name in names}) > 3, "temporary names are alike:", names)


def watched(room, writer):
    """The calls of a command, each with its number and its third argument."""
    made = []
    guided(room, writer, lambda child, number: made.append((number, ptrace(PEEK, child, LENGTH))))
    return made


def test_synced(room):
    """Each file is made afresh, and synced before any has its name; then its folder is synced."""
    for writer in writers.writers(1):
        made = watched(room, writer)
        numbers = [number for number, _ in made]
        renames = [i for i, number in enumerate(numbers) if number in RENAME]
        syncs = [i for i, number in enumerate(numbers) if number in SYNC]
        files = [name for name, data in writer.new.items() if data is not None
                 and (writer.old.get(name) != data or name.startswith("made"))]
        before = sum(i < renames[0] for i in syncs)
        need(before >= len(files), writer.name, "synced", before, "of", files)
        need(syncs[-1] > renames[-1], writer.name, "did not sync the folder")
        opened = [flags for number, flags in made if number == 257 and flags & os.O_CREAT]
        need(len(opened) >= len(files), writer.name, "opened", opened)
        need(all(flags & os.O_EXCL for flags in opened), writer.name, "may open what is there")


def test_told_to_end_at_each_call(room):
    """A signal that ends programs before each call: old or new, whole, and nothing left, ever.
    While files are written it waits, and ends the command then."""
    for writer in writers.writers(1)[::-2]:
        states, numbers = [], calls(room, writer)
        for turn, index in enumerate(own_calls(numbers, CHANGING | SIGNALS)):
            number = ENDING[turn % len(ENDING)]
            writer.lay()
            child = begin(room, writer.words)
            status = to_call(child, index)
            if status is None:
                os.kill(child, number)
                status = finish(child)
            what = (writer.name, "call %d (number %d)," % (index, numbers[index]), number.name)
            need(status in (writer.status, -number), *what, "ended it with", status)
            states.append(writer.judge(status))
            if numbers[index] in WRITE | SYNC | RENAME | MAKE | REMOVE:
                need(status == -number, *what, "did not wait, but was lost: it ended with", status)
        need("old" in states and "new" in states, writer.name, states)


def failing(room, writer, index, error):
    """Runs the command with one call that fails; gives its status."""
    writer.lay()
    child = begin(room, writer.words)
    ended = to_call(child, index)
    if ended is not None:
        return ended
    ptrace(POKE, child, NUMBER, -1)
    ended = next_stop(child)
    if ended is not None:
        return ended
    ptrace(POKE, child, RESULT, -error)
    return finish(child)


def failures(numbers, turn):
    """Each call that can fail, with one of the errors that it can have, of each writer another; of
    calls before the renames that only look, each fourth writer's. Not those after the names are
    synced: what fails there can only be what takes the old files away."""
    renamed, synced = max(own_calls(numbers, RENAME)), max(own_calls(numbers, SYNC))
    for kinds, errors in FAILS:
        for place, index in enumerate(own_calls(numbers, kinds)):
            looks = kinds in (READ, STAT, LIST) and index <= renamed
            if index <= synced and (turn % 4 == 3 or not looks):
                yield index, errors[(turn + place) % len(errors)]


def test_each_call_fails(room):
    """A call that fails: everything is as it was and nothing is left, or all of it is done."""
    tried = {}
    for turn, writer in enumerate(writers.writers(1)):
        numbers = calls(room, writer)
        for index, error in failures(numbers, turn):
            status = failing(room, writer, index, error)
            state = writer.state()
            what = "%s, its call %d (number %d) failing with %s," % (
                writer.name, index, numbers[index], errno.errorcode[error])
            need(state in ("old", "new"), what, "ended with", status, "and left:", state)
            need(status >= 0, what, "ended by signal", -status)
            need((state == "new") == (status == writer.status), what, "ended with", status,
                 "though all is", state)
            for kinds, statuses in CERTAIN:
                need(numbers[index] not in kinds or status in statuses, what, "ended with", status)
            tried[error] = tried.get(error, 0) + 1
    need(len(tried) >= 6 and sum(tried.values()) > 200, "tried:", tried)


# Disks that lack a call, with the error that it then has: exchanges, and second names too.
LACKING = [{EXCHANGE: errno.EINVAL}, {EXCHANGE: errno.EINVAL, LINK: errno.EPERM}]


def test_no_exchange(room):
    """Where the disk can't exchange two names, as many over a network can't, nor give a file a
    second one, it works alike. A file is old or new at each moment; a folder that is there already
    may be away for one."""
    for lacking in LACKING:
        for writer in writers.writers(1):
            states = []

            def before(_, number):
                states.append(writer.state(left=True))
                return lacking.get(number)
            status = guided(room, writer, before)
            need(status == writer.status and writer.state() == "new", writer.name, "ended with",
                 status, writer.state())
            if "made" not in writer.old:
                for state in states:
                    need(state in ("old", "new", "between"), writer.name, "would leave:", state)


def failing_at(turn, kinds, lacking):
    """What makes the call of these kinds fail that comes in this turn, from 0, and those that the
    disk lacks always; and the calls that came."""
    came = []

    def before(_, number):
        if number in lacking:
            return lacking[number]
        if number in kinds:
            came.append(number)
            return errno.EIO if len(came) == turn + 1 else None
        return None
    return before, came


def test_no_exchange_and_a_failure(room):
    """Where the disk can't exchange two names, and each change of a name fails in turn, the last
    too: everything is as it was, and nothing is left."""
    for lacking in LACKING:
        for writer in writers.writers(1):
            turn, failed = 0, True
            while failed:
                before, came = failing_at(turn, RENAME, lacking)
                status = guided(room, writer, before)
                failed = len(came) > turn
                state = writer.state(copied=LINK in lacking)
                what = (writer.name, "lacking", lacking, "with rename %d failing" % turn)
                need(state == ("old" if failed else "new"), *what, "ended with", status,
                     "and left:", state)
                need(status in ((73, 74) if failed else (writer.status,)), *what, "ended with",
                     status)
                turn += 1
            need(turn > 1, writer.name, "changed no name")


def moved_there(room, writer, turn, lacking):
    """Runs a command; just before it gives an output its name, in the call of this turn that could,
    something else is moved there. Gives its status, the name, and the inode of what was moved; or
    None where no such call comes."""
    moved, came = [], []

    def before(child, number):
        if number in (EXCHANGE, LINK, REPLACE):
            name = os.path.basename(word_at(child, FOURTH))
            could = number != REPLACE or name not in writer.old and LINK not in lacking
            came.extend([name] * (could and not writers.LEFT.match(name)))
            if len(came) == turn + 1 and not moved:
                moved.extend((name, move_there("out/" + name, name == "made")))
        return lacking.get(number)
    status = guided(room, writer, before)
    return (status, *moved) if moved else None


def move_there(path, folder):
    """Moves something else to a name, in the place of what is there; gives its inode."""
    if folder:
        fill("theirs", {"tree": b"theirs"})
        if os.path.exists(path):
            fill("away", {})
            os.rename(path, "away/it")
    else:
        put("theirs", b"theirs", 0o640)
    os.rename("theirs", path)
    return os.stat(path).st_ino


def test_moved_there_meanwhile(room):
    """Something else is moved to an output's name at the last moment: 73, it stays, and the rest is
    as before. Likewise where the disk can't exchange two names; where it can't give a second one
    either, of names that were free."""
    for lacking in [{}] + LACKING:
        for writer in writers.writers(1):
            turn = 0
            while LINK not in lacking or not writer.old:
                result = moved_there(room, writer, turn, lacking)
                if result is None:
                    break
                status, name, inode = result
                theirs = writers.within(name, {"tree": b"theirs"}) if name == "made" \
                    else {name: b"theirs"}
                rest = {other: data for other, data in writer.old.items()
                        if other.split("/")[0] != name}
                what = (writer.name, "lacking", lacking, "with another", name)
                need(status == 73, *what, "ended with", status)
                need(contents("out") == {**rest, **theirs}, *what, "left:",
                     writers.describe(contents("out"), writer))
                need(os.stat("out/" + name).st_ino == inode, *what, "put a copy in its place")
                turn += 1
            need(turn or LINK in lacking, writer.name, "changed no name")


def test_looks_that_fail(room):
    """An output that is an input, with each look at files failing in turn: it is not replaced."""
    whole = writers.lay_inputs(1)[0]
    for name, data in (("tree", whole.tree), ("table", whole.table)):
        words = ["out/" + name if word.endswith(name) else word for word in writers.of("whole")]
        writer = writers.Writer("read --force to its " + name,
                                ("read", "--force", 1, *words, "out/" + name), {name: data},
                                {name: data}, 73)
        numbers = calls(room, writer)
        tried = own_calls(numbers, OPEN | STAT | LIST)
        need(len(tried) > 8, "tried:", tried)
        for index in tried:
            for error in (errno.EIO, errno.EACCES, errno.ENOENT):
                status = failing(room, writer, index, error)
                what = (writer.name, "call", index, "failing with", errno.errorcode[error])
                need(status in (66, 73, 74), *what, "ended with", status)
                need(writer.state() == "old", *what, "left:", writer.state())


def test_rights_that_cannot_be_kept(room):
    """Where a file can't be given to its group, the group has no rights to the new one; nobody has
    more than before."""
    for writer in writers.writers(1):
        status = guided(room, writer,
                        lambda _, number: errno.EPERM if number in OWNER else None)
        need(status == writer.status and contents("out") == writer.new, writer.name, status)
        for name, (_, mode, _, group) in writer.was.items():
            _, now, _, its = writers.borne(name)
            wanted = [mode & 0o707] + [mode & 0o777] * (its == group)
            if name not in ("tree~", "marks~"):
                need(now in wanted, "%s: %s has mode %o, had %o" % (writer.name, name, now, mode))


def test_put_in_a_folder_at_each_call(room):
    """Before each call of `code --force` another command writes a file into FOLDER: what it wrote,
    and said so, is there in the end, and the folder is the old or the new one."""
    writer, table = writers.one(1, "code --force"), Coded(1).table
    statuses = set()
    for index in own_calls(calls(room, writer), CHANGING):
        writer.lay()
        child = begin(room, writer.words)
        need(to_call(child, index) is None, "it ended early")
        other = room.start("table", 1, "out/made/mine", stdin=subprocess.DEVNULL)
        try:
            other.wait(0.008)
        except subprocess.TimeoutExpired:
            pass                    # it waits until the folder is free
        status = finish(child)
        other.communicate(timeout=20)
        statuses.add((status, other.returncode))
        mine = {"made/mine": table} if other.returncode == 0 else {}
        found, wanted = contents("out"), {**(writer.old if status else writer.new), **mine}
        need(status in (0, 73) and other.returncode in (0, 73), index, status, other.returncode)
        need(found == wanted, "call", index, "ended with", status, "the other with",
             other.returncode, "and left:", writers.describe(found, writer))
    need({(73, 0), (0, 0)} <= statuses, "ended with", statuses)


def test_put_in_an_open_folder_at_each_call(room):
    """Before each call of `code --force` somebody who has FOLDER open makes a file in it: it is not
    lost, but is in FOLDER, or in the old one, which stays."""
    writer = writers.one(1, "code --force")
    kept = set()
    for index in own_calls(calls(room, writer), CHANGING):
        writer.lay()
        folder = os.open("out/made", os.O_RDONLY)
        child = begin(room, writer.words)
        need(to_call(child, index) is None, "it ended early")
        try:
            os.close(os.open("mine", os.O_CREAT | os.O_WRONLY, dir_fd=folder))
            made = True
        except FileNotFoundError:
            made = False            # the folder was gone already
        os.close(folder)
        status = finish(child)
        places = [path for path, _, files in os.walk("out") if "mine" in files]
        need(len(places) == made, "call", index, "ended with", status, "and it is in", places)
        need(status in (0, 73), "call", index, "ended with", status)
        kept.update(os.path.basename(place)[:9] for place in places)
        need(contents("out/made")["tree"] == (writer.old if status else writer.new)["made/tree"],
             "call", index, "ended with", status)
    need(kept == {"made", ".cedunmi-"}, "it was kept in", kept)


def test_short_and_interrupted(room):
    """A read or write of one byte where more was asked for, or one interrupted, changes nothing."""
    for writer in writers.writers(1)[-1:-9:-3]:
        numbers = calls(room, writer)
        for index in own_calls(numbers, {0, 1}):
            for short in (True, False):
                if short:
                    writer.lay()
                    child = begin(room, writer.words)
                    need(to_call(child, index) is None, writer.name, "ended early")
                    if ptrace(PEEK, child, LENGTH) > 1:
                        ptrace(POKE, child, LENGTH, 1)
                    status = finish(child)
                else:
                    status = failing(room, writer, index, errno.EINTR)
                need(status == writer.status and writer.state() == "new", writer.name, "call",
                     index, "short" if short else "interrupted", status, writer.state())
