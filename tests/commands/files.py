"""Outputs that are there already, that are inputs, links, folders or devices; planted links."""
import os
import shutil
import socket
import subprocess

import by_hand
import writers
from room import Coded, contents, fill, need, put, slurp, snapshot, unchanged

WHOLE = ("record", "table", "tree", "marks")
# Each command that writes one file, with its arguments; OUT is the output.
FILES = [("table", 1, "OUT"), ("typed", "text", "OUT"), ("sample", 1, 3, "tree", "marks", "OUT"),
         ("read", 1, *WHOLE, "OUT"), ("read", "--unverified", 1, "record", "tree", "marks", "OUT")]
FOLDERS = [("code", 1, "table", "volume", "OUT"), ("repair", 1, *WHOLE, "OUT"),
           ("recode", 1, *WHOLE, "OUT")]
IN_PLACE = ("repair", "--in-place", 1, *WHOLE, "OUT")
INPUTS = ("table", "volume", "text", "tree", "marks", "record")


def to(words, output):
    """The words with this output."""
    return [output if word == "OUT" else word for word in words]


def inputs_of(words):
    """The inputs among a command's words."""
    return [word for word in words[1:] if word in INPUTS]


def test_existing(room):
    """A file that is there is refused; with --force it is replaced, and keeps its mode, but for
    what lets others run it in somebody's name."""
    coded = Coded(1).lay()
    expected = [coded.table, coded.record, slurp("sample"), coded.volume, coded.volume]
    for words, data in zip(FILES, expected):
        put("there", b"mine", 0o640)
        room.refused(73, *to(words, "there")).says("there")
        for mode in (0o640, 0o604, 0o755, 0o600, 0o4755, 0o2755, 0o6711, 0o1644):
            put("there", b"mine", mode)
            room.works("--force", *to(words, "there"))
            need(slurp("there") == data, "what --force wrote:", words)
            now = os.stat("there").st_mode & 0o7777
            need(now == mode & 0o777, "mode %o became %o:" % (mode, now), words)
        os.remove("there")
        room.works(*to(words, "there"), "--force")
        need(slurp("there") == data, "--force where nothing is:", words)
        os.remove("there")


def test_new_modes(room):
    """A new file has the mode that the mask leaves, as any program's."""
    Coded(1).lay()
    for mask, file, folder in ((0o022, 0o644, 0o755), (0o077, 0o600, 0o700), (0o002, 0o664, 0o775)):
        old = os.umask(mask)
        try:
            room.works("table", 1, "new")
            room.codes(1, "table", "volume", "made")
        finally:
            os.umask(old)
        modes = [os.stat(name).st_mode & 0o7777 for name in ("new", "made/tree", "made")]
        need(modes == [file, file, folder], "mask %o:" % mask, [oct(mode) for mode in modes])
        os.remove("new")
        shutil.rmtree("made")


def test_links(room):
    """A link is neither followed nor replaced, with --force or without, a dangling one too."""
    Coded(1).lay()
    put("victim", b"mine", 0o640)
    os.symlink("victim", "link")
    os.symlink("nowhere", "dangling")
    os.symlink("/nowhere/at/all", "far")
    os.symlink("/proc/self/fd/1", "stdout")
    os.symlink("/dev/stdout", "stdout2")
    for words in FILES:
        for name in ("link", "dangling", "far", "stdout", "stdout2", "./link", "/proc/self/fd/1",
                     "/dev/fd/1"):
            room.refused(73, *to(words, name))
            room.refused(73, "--force", *to(words, name))


def test_names_of_folders(room):
    """A file's name that ends with a slash is a folder's: 73, whatever is there."""
    Coded(1).lay()
    put("there", b"mine")
    os.mkdir("folder")
    os.symlink("there", "link")
    for words in FILES:
        for name in ("new/", "there/", "folder/", "link/", "new//", "folder/./", "/", "./", "../"):
            room.refused(73, *to(words, name))
            room.refused(73, "--force", *to(words, name))
    Coded(1).harm(absent=[3]).lay()
    for place in (5, 6, 7):
        words = to(IN_PLACE, "proof")
        words[place] += "/"
        room.refused(73, *words)
        room.refused(73, "--force", *words)


def aliases(target):
    """Names of one file, all the same inode: the name, paths to it, and a hard link."""
    os.makedirs("sub", exist_ok=True)
    here = os.path.basename(os.getcwd())
    os.link(target, "hard")
    return [target, "./" + target, "sub/../" + target, os.path.abspath(target),
            "../%s//%s" % (here, target), "hard"]


def test_output_is_input(room):
    """For each command, an output that is one of its inputs, by any name, is refused; ever."""
    Coded(1).lay()
    for words in FILES:
        for target in inputs_of(words):
            for name in aliases(target):
                room.refused(73, *to(words, name))
                room.refused(73, "--force", *to(words, name))
            os.remove("hard")
    room.refused(73, "--force", "sample", 1, 0, "tree", "marks", "tree")
    room.refused(73, "--force", "typed", "text", "text")


def test_output_is_input_by_link(room):
    """An input that is named by a link is the file: it is not written. A link as output that leads
    to an input is refused or replaced, and the input stays."""
    Coded(1).lay()
    for words in FILES:
        for target in inputs_of(words):
            os.symlink(target, "alias")
            named = ["alias" if word == target else word for word in words]
            room.refused(73, "--force", *to(named, target))
            before = snapshot()
            for given in (words, named):
                room.ends((0, 73), "--force", *to(given, "alias"))
                after = snapshot()
                after[b"./alias"] = before[b"./alias"]
                unchanged(before, after, given)
                os.remove("alias")
                os.symlink(target, "alias")
                before = snapshot()
            os.remove("alias")


def test_folder_is_input(room):
    """A folder with an input in it is not replaced, whichever input it is and however named."""
    coded = Coded(1).lay()
    room.refused(73, "code", 1, "table", "tree", ".")
    room.refused(73, "--force", "code", 1, "table", "tree", ".")
    for words, names in ((FOLDERS[0], ("table", "volume")), (FOLDERS[1], WHOLE),
                         (FOLDERS[2], WHOLE)):
        for target in names:
            for inside in ("tree", "marks"):
                fill("made", {})
                os.link(target, "made/" + inside)
                given = ["made/" + inside if word == target else word for word in words]
                for form in (given, words):
                    room.refused(73, "--force", *to(form, "made"))
                    room.refused(73, *to(form, "made"))
    fill("made", coded.files())
    made = ("made/tree", "made/marks", "made")
    room.refused(73, "--force", "repair", 1, "made/record", "table", *made)
    room.refused(73, "--force", "recode", 1, "made/record", "table", *made)
    os.remove("made/record")
    room.refused(73, "--force", "repair", 1, "record", "table", *made)
    fill("made", {"tree": coded.volume, "t": coded.table})
    os.chdir("made")
    try:
        for table in ("t", "../table"):
            room.refused(73, "code", 1, table, "tree", ".")
            room.refused(73, "--force", "code", 1, table, "tree", ".")
            if table == "t":
                os.remove("t")
    finally:
        os.chdir("..")


def test_in_place_names(room):
    """--in-place: the proof is no input, whether there is one or not, and none of the other
    outputs; kept names are no inputs."""
    for coded in (Coded(1), Coded(1).wrong_seven().harm(bad=[4])):
        coded.lay()
        for target in WHOLE:
            for name in aliases(target):
                room.refused(73, *to(IN_PLACE, name))
                room.refused(73, "--force", *to(IN_PLACE, name))
            os.remove("hard")
    for name in ("tree~", "marks~", "./tree~", "sub/../marks~"):
        room.refused(73, *to(IN_PLACE, name))
        room.refused(73, "--force", *to(IN_PLACE, name))
    for target in WHOLE:
        for kept in ("tree~", "marks~"):
            os.link(target, kept)
            room.refused(73, "--force", *to(IN_PLACE, "proof"))
            os.remove(kept)
    os.rename("tree", "marks~")
    words = ("repair", "--in-place", "--force", 1, "record", "table")
    room.refused(73, *words, "marks~", "marks", "proof")
    os.rename("marks~", "tree")
    room.refused((2, 73), *words, "tree", "tree", "proof")


def test_no_files(room):
    """A folder, FIFO, socket or device in a file's place is refused, with --force too."""
    Coded(1).lay()
    os.mkdir("folder")
    os.mkfifo("fifo")
    names = ["folder", "fifo", "socket", "."]
    try:
        os.mknod("device", 0o20666, os.makedev(1, 3))
        names.append("device")
    except PermissionError:
        pass
    with socket.socket(socket.AF_UNIX) as made:
        made.bind("socket")
    for words in FILES + [IN_PLACE]:
        if words is IN_PLACE:
            Coded(1).wrong_seven().harm(bad=[4]).lay()
        for name in names:
            room.refused(73, *to(words, name))
            room.refused(73, "--force", *to(words, name))
    for name in names[1:3]:
        for words in FOLDERS:
            room.refused(73, "--force", *to(words, name))
    for kept in ("tree~", "marks~"):
        os.mkdir(kept)
        room.refused(73, "--force", *to(IN_PLACE, "proof"))
        os.rmdir(kept)


def test_folders(room):
    """FOLDER must not be there, or be empty; with --force it may hold what the command writes."""
    coded = Coded(1).harm(absent=[3]).lay()
    made = {"code": Coded(1, table=coded.table).files(), "repair": coded.repair().files(),
            "recode": Coded(1, kind=by_hand.PLAIN).files()}
    other = {"code": "proof", "repair": "record", "recode": "twins"}
    for words in FOLDERS:
        name = words[0]
        if name == "recode":
            put("marks", b"\1" * 16)
        os.mkdir("empty")
        room.ends(0, "-q", *to(words, "empty"))
        need(contents("empty") == made[name], "what was made in an empty folder:", words)
        room.refused(73, *to(words, "empty"))
        fill("full", {"tree": b"old", "marks": b"old"})
        room.refused(73, *to(words, "full"))
        room.ends(0, "-q", "--force", *to(words, "full"))
        need(contents("full") == made[name], "what --force made:", words)
        for foreign in ("mine", other[name], ".hidden", "tree~", "Tree"):
            fill("full", {"tree": b"old", foreign: b"mine"})
            room.refused(73, "--force", *to(words, "full"))
        fill("full", {"tree": None})
        room.refused(73, "--force", *to(words, "full"))
        put("plain", b"mine")
        room.refused(73, *to(words, "plain"))
        room.refused(73, "--force", *to(words, "plain"))
        for missing in ("no/where", "plain/below"):
            room.refused(73, *to(words, missing))
        shutil.rmtree("empty")


def test_folder_links(room):
    """A link as FOLDER is refused, wherever it leads, however it is written."""
    Coded(1).lay()
    os.mkdir("empty")
    fill("full", {"tree": b"old", "marks": b"old"})
    for target in ("empty", "full", "nowhere", "table"):
        os.symlink(target, "link")
        for words in FOLDERS:
            for name in ("link", "link/", "link/.", "./link//", "link/./", os.getcwd() + "/link/"):
                room.refused(73, *to(words, name))
                room.refused(73, "--force", *to(words, name))
        os.remove("link")
    fill("full", {"marks": b"old"})
    put("victim", b"mine")
    os.symlink("../victim", "full/tree")
    for words in FOLDERS:
        room.ends((0, 73), "-q", "--force", *to(words, "full"))
        need(slurp("victim") == b"mine", "a link in FOLDER was followed:", words)


def test_folder_paths(room):
    """FOLDER by other paths: with a slash at its end, below another, and the empty one itself."""
    coded = Coded(1).lay()
    os.makedirs("below/it")
    for name in ("below/it/made", "./plain", "below/../other", os.path.abspath("absolute")):
        room.codes(1, "table", "volume", name)
        need(contents(name) == coded.files(), "coded into", name)
    before = snapshot()
    status = room.ends((0, 73), "code", 1, "table", "volume", "slash/").status
    if status == 0:
        need(contents("slash") == coded.files(), "coded into slash/")
    else:
        unchanged(before, snapshot(), "code into slash/")
    os.mkdir("here")
    status = room.ends((0, 73), "code", 1, "../table", "../volume", ".", cwd="here").status
    need(contents("here") == (coded.files() if status == 0 else {}), "coded into .:", status)


def test_planted(room):
    """Links planted under names that can be foreseen lead nowhere: what they lead to stays."""
    script = """
        for name in file.part.$$ file.$$ .file.$$ file.tmp file.new file.part .file.tmp made.part \\
            made.part.$$ made.$$ .cedunmi-$$ .cedunmi-$(printf %016d $$) .cedunmi-$(printf %016x $$)
        do
            ln -s ../victim "out/$name"
        done
        exec "$@"
    """
    for writer in writers.writers(1):
        writer.lay()
        put("victim", b"mine")
        words = [room.program, *map(str, writer.words)]
        room.made += 1
        done = subprocess.run(["sh", "-c", script, "sh", *words], stdout=subprocess.PIPE,
                              stderr=subprocess.STDOUT, check=False, timeout=20)
        need(done.returncode == writer.status, writer.name, done.returncode, done.stdout)
        need(slurp("victim") == b"mine", "a planted link was followed:", writer.name)
        found = contents("out")
        need({name: found.get(name) for name in writer.new} == writer.new, writer.name)
        links = [name for name in os.listdir("out") if os.path.islink("out/" + name)]
        need(len(links) == 13, writer.name, "took away planted links:", links)


def test_appears_meanwhile(room):
    """What appears under the output's name while the command waits is not replaced."""
    Coded(1).lay()
    text = slurp("text")
    put("victim", b"mine")
    for plant in (lambda: put("new", b"theirs"), lambda: os.symlink("victim", "new"),
                  lambda: os.mkdir("new"), lambda: os.symlink("nowhere", "new")):
        process = room.start("typed", "-", "new")
        plant()
        before = snapshot()
        process.communicate(text, 20)
        need(process.returncode == 73, "replaced what appeared, with", process.returncode)
        unchanged(before, snapshot(), "typed - new")
        if os.path.isdir("new") and not os.path.islink("new"):
            os.rmdir("new")
        else:
            os.remove("new")


def test_in_place_links(room):
    """--in-place where TREE or MARKS, or what is to be kept of them, is a link: 73. Where TREE has
    another name, what is under that stays."""
    coded = Coded(1).harm(absent=[3], bad=[5]).lay()
    for name in ("tree", "marks", "tree~", "marks~"):
        if os.path.exists(name):
            os.rename(name, "real")
        os.symlink("real", name)
        room.refused(73, *to(IN_PLACE, "proof"))
        room.refused(73, "--force", *to(IN_PLACE, "proof"))
        os.remove(name)
        if name[-1] != "~":
            os.rename("real", name)
    os.rename("tree", "real")
    os.link("real", "tree")
    room.ends(0, *to(IN_PLACE, "proof"))
    need(slurp("real") == coded.tree and slurp("tree~") == coded.tree, "the old tree is lost")
    need(slurp("tree") == coded.repair().files()["tree"], "not repaired")


def test_new_inode(room):
    """What --force writes is a new file: whoever has the old one, open or by a link, keeps it."""
    Coded(1).lay()
    put("there", b"mine")
    os.link("there", "kept")
    with open("there", "rb") as file:
        room.works("table", "--force", 1, "there")
        need(file.read() == b"mine" and slurp("kept") == b"mine", "the old file was written to")


def test_writes_no_inputs(room):
    """No command that writes changes an input, its time or its mode."""
    for writer in writers.writers(2):
        writer.lay()
        before = snapshot(b"in", touched=True)
        room.ends(writer.status, *writer.words)
        writer.judge(writer.status)
        unchanged(before, snapshot(b"in", touched=True), writer.name)


def test_system_devices(room):
    """A device is refused by its own name too; without --force, which as root could replace it."""
    for name in ("/dev/null", "/dev/full", "/dev/stdout"):
        room.refused(73, "table", 1, name)
