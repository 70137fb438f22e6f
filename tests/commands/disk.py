"""Full disks: every command that writes, with every amount of room, writes all or nothing."""
import ctypes
import os
import resource

import writers
from room import Skipped, contents, need

NEW_NAMES, PRIVATE, REMOUNT, BIND = 0x20000, 0x4000 | 0x40000, 32, 4096
ROOM = 4096
libc = ctypes.CDLL(None, use_errno=True)


def checked(result, what):
    """The result of a call of the system, which must not fail."""
    if result != 0:
        number = ctypes.get_errno()
        raise OSError(number, what + ": " + os.strerror(number))


def alone():
    """From here on what this process mounts is seen by it and its children alone."""
    if os.geteuid() != 0:
        raise Skipped("only root can mount a small disk; limits of file sizes are tried instead")
    try:
        checked(libc.unshare(NEW_NAMES), "unshare")
        checked(libc.mount(b"none", b"/", None, PRIVATE, None), "private mounts")
    except PermissionError as why:
        raise Skipped("a small disk can't be mounted here: %s" % why)


class Disk:
    """A small disk in memory, on a folder, which may be there already."""

    def __init__(self, folder):
        self.folder = os.fsencode(os.path.abspath(folder))
        self.made = not os.path.isdir(folder)
        os.makedirs(folder, exist_ok=True)
        checked(libc.mount(b"tmpfs", self.folder, b"tmpfs", 0, b"size=1m,mode=777"), "mount")

    def __enter__(self):
        return self

    def free(self, blocks, names=None):
        """Leaves room for so many blocks of 4 KiB, and for so many more names."""
        found = os.statvfs(self.folder)
        used = (found.f_blocks - found.f_bfree) * found.f_frsize // ROOM
        options = "size=%d" % ((used + blocks) * ROOM if used + blocks else 1)
        if names is not None:
            options += ",nr_inodes=%d" % (found.f_files - found.f_ffree + names)
        checked(libc.mount(b"tmpfs", self.folder, b"tmpfs", REMOUNT, options.encode()), "remount")
        found = os.statvfs(self.folder)
        if used + blocks == 0:
            with open(os.path.join(self.folder, os.fsencode(writers.FILLER)), "wb") as file:
                file.write(b"x")

    def __exit__(self, *_):
        checked(libc.umount2(self.folder, 2), "umount")
        if self.made:
            os.rmdir(self.folder)


def enough(writer):
    """Blocks that the command needs, and some more."""
    return 3 + sum(-(-len(data) // ROOM) for data in writer.new.values() if data)


def attempt(room, writer, counted, **how):
    """Runs a writer where there may be too little room: all is written, or nothing and 73 or 74."""
    said = room.run(*writer.words, **how)
    need(said.status in (writer.status, 73, 74), str(said))
    state = writer.state()
    need(state == ("new" if said.status == writer.status else "old"), "%s: %s" % (said, state))
    if said.status != writer.status:
        said.errors()
    counted[said.status] = counted.get(said.status, 0) + 1


def test_full_disk(room):
    """With room for 0 blocks, 1, 2 and so on until it is enough."""
    alone()
    for writer in writers.writers(3):
        counted = {}
        for blocks in range(enough(writer) + 1):
            with Disk("out") as disk:
                writer.lay()
                disk.free(blocks)
                attempt(room, writer, counted)
        need(counted.get(74), writer.name, "was never short of room:", counted)
        need(counted.get(writer.status), writer.name, "never had enough room:", counted)


def test_no_names(room):
    """With room for bytes, but for 0, 1, 2 names more, as many as it needs."""
    alone()
    for writer in writers.writers(1):
        counted = {}
        for names in range(8):
            with Disk("out") as disk:
                writer.lay()
                disk.free(20, names)
                attempt(room, writer, counted)
        need(set(counted) & {73, 74}, writer.name, "never lacked a name:", counted)
        need(counted.get(writer.status), writer.name, "never had enough names:", counted)


def test_full_temporary_folder(room):
    """TMPDIR on a disk that is full, or nearly, does not matter."""
    alone()
    for blocks in (0, 1, 14, 30):
        with Disk("full") as disk:
            disk.free(blocks)
            for writer in writers.writers(5):
                writer.lay()
                room.ends(writer.status, *writer.words, env={"TMPDIR": os.path.abspath("full")})
                need(writer.state() == "new", writer.name, "with TMPDIR full:", writer.state())


def test_read_only_disk(room):
    """On a disk that is read-only nothing is written: 73."""
    alone()
    for writer in writers.writers(1):
        with Disk("out") as disk:
            writer.lay()
            checked(libc.mount(b"tmpfs", disk.folder, b"tmpfs", REMOUNT | 1, None), "remount")
            room.refused(73, *writer.words)


def test_mount_points(room):
    """A file or folder that another disk is mounted on can't be replaced; nothing is left."""
    alone()
    for writer in writers.writers(1):
        name = "made" if "made" in writer.new else "file"
        if name not in writer.new or (name == "file" and name not in writer.old):
            continue
        writer.lay()
        path = os.fsencode(os.path.abspath("out/" + name))
        if name == "made":
            os.makedirs(path, exist_ok=True)
        checked(libc.mount(path, path, None, BIND, None), "bind")
        before = contents("out")
        said = room.ends((73, 74), *writer.words).errors()
        need(contents("out") == before, str(said), writers.describe(contents("out"), writer))
        checked(libc.umount2(path, 2), "umount")


def test_file_sizes(room):
    """With a limit of the size of files: all or nothing at every limit, and no end by a signal."""
    for writer in writers.writers(2):
        counted = {}
        sizes = sorted({len(data) for data in writer.new.values() if data})
        limits = {0, 1, 4096} | {size + more for size in sizes for more in (-1, 0, 1)}
        for limit in sorted(limits):
            writer.lay()
            attempt(room, writer, counted, limits=[(resource.RLIMIT_FSIZE, limit)])
        need(counted.get(74) and counted.get(writer.status), writer.name, counted)


def test_few_files(room):
    """With a limit of how many files may be open: all or nothing."""
    for writer in writers.writers(1):
        for limit in range(3, 12):
            writer.lay()
            said = room.run(*writer.words, limits=[(resource.RLIMIT_NOFILE, limit)])
            state = writer.state()
            need(state == ("new" if said.status == writer.status else "old"), str(said), state)
