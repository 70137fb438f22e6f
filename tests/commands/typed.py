"""A record that is printed and typed: its format, every way to type it, every slip."""
import os
import random
import re

import by_hand
from room import Coded, another_table, need, put, slurp

DIGITS = "0123456789abcdef"
WORDS, LINES = 3, 20        # lines in words, and all lines before the check of all
AFTER = "bytes|words|placed|plain"      # what stands after their numbers
NAMES = ["depth", "length", "table", "hash T"] + ["hash %d" % i for i in range(16)]


def printed(kind=by_hand.PLACED, kinds=True):
    """A record and its printed lines, with the word for the kind or without."""
    record = Coded(2, 21, length=1300, kind=kind).record
    return record, by_hand.printed(record, kinds)


def typed(room, lines, end="\n"):
    """What `typed` makes of these lines, which it accepts; and what it said."""
    text = end.join(lines) + end if isinstance(lines, list) else lines
    put("text", text.encode())
    said = room.ends(0, "typed", "--force", "text", "made")
    need(said.out == b"", str(said))
    return slurp("made"), said.err


def slip(room, lines, *wrong):
    """`typed` refuses these lines, and names those at these places, and by what they are."""
    text = "\n".join(lines) + "\n" if isinstance(lines, list) else lines
    put("text", text.encode())
    said = room.refused(65, "typed", "text", "none")
    named = {int(n) - 1 for n in re.findall(rb"\bline (\d+): ", said.err)}
    need(set(wrong) <= named, "%s, but wrong are the lines %s of\n%s" % (
        said, ", ".join(map(str, wrong)), text))
    for at in wrong:
        if at < LINES:
            need(re.search(rb"line %d: .*%s\b" % (at + 1, NAMES[at].encode()), said.err), str(said))
    return said, named


def hash_words(lines):
    """The words of the lines with a hash."""
    return [line.split() for line in lines[WORDS:LINES]]


def unchecked(lines):
    """The lines in words without their checks."""
    return [line[:-6].rstrip() for line in lines[:WORDS]]


def bare(lines):
    """The lines with neither numbers nor checks."""
    return unchecked(lines) + ["".join(words[1:9]) for words in hash_words(lines)]


def test_print(room):
    """The print is the lines made by hand, after comments, and typing it gives the record."""
    for kind in by_hand.KINDS:
        is_printed(room, *printed(kind))


def is_printed(room, record, lines):
    """A record is printed in these lines, and typed back from them."""
    put("record", record)
    said = room.ends(0, "record", "record")
    found = said.out.decode().split("\n")
    need(found.pop() == "", str(said))
    while found and found[0].startswith("#"):
        found.pop(0)
    need(found == lines, str(said) + ", not:\n" + "\n".join(lines))
    need(typed(room, said.out.decode()) == (record, b""), "the print typed as it is")
    room.ends(0, "record", "-", given=record).prints(said.out)
    room.refused(2, "record", "-", given=record[1:])
    room.ends(0, "typed", "-", "-", given=said.out).prints(record)


def test_every_print(room):
    """At every depth, of every kind of length, by the house table or another: the print is that by
    hand, its comments say what is so, in lines of 80, and it is typed back."""
    for depth in by_hand.DEPTHS:
        most = by_hand.lengths(depth)["volume"]
        for kind, length, table in (
                (by_hand.PLACED, 0, None), (by_hand.PLAIN, 0, None), (by_hand.PLACED, most, None),
                (by_hand.PLACED, most - 1, another_table(depth)),
                (by_hand.PLAIN, most - 1, another_table(depth))):
            record = by_hand.head_of(depth, length, table or by_hand.house_table(depth), kind) \
                + Coded(1, depth).record[by_hand.HEAD:]
            text = room.ends(0, "record", "-", given=record).out.decode()
            lines = text.splitlines()
            comments = [line for line in lines if line.startswith("#")]
            need(lines[len(comments):] == by_hand.printed(record), text)
            need(max(map(len, lines)) <= 80, "a line is longer than 80:", text)
            said = " ".join(line[2:] for line in comments)
            held = "as much as this depth holds" if length == most else "up to %d; zeros" % most
            for words in ("a volume of %d bytes" % length, "depth %d:" % depth,
                          " %d pages" % by_hand.first(depth), held):
                need(words in said, "not said:", words, text)
            house = "is the house table: cedunmi table %d TABLE" % depth
            need((house in said) == (not table), text)
            plain = kind == by_hand.PLAIN
            need(("pages 7, 11 and 15 are zero" in said) == (plain and not table), text)
            need(("It is plain, of kind 01: " in said) == plain, text)
            need(("It is placed, of kind 00: " in said) == (not plain), text)
            differ = "If the volume is coded as it must be, no two are equal."
            need((differ in said) == (not plain), text)
            need(("not the house table" in said) == bool(table), text)
            need(typed(room, text) == (record, b""), "not typed back:", text)


def forms(lines):
    """The same print in other forms, which all mean the same."""
    words, last = hash_words(lines), lines[LINES]
    head, plain = lines[:WORDS], unchecked(lines)
    short = [re.sub(" (bytes|words)", "", line) for line in head]
    yield "upper case", [line.upper() if line != last else last for line in lines]
    yield "upper case, the word too", [line.upper() for line in lines]
    yield "tabs", [line.replace("  ", "\t") for line in lines]
    yield "one group", head + ["%s %s %s" % (w[0], "".join(w[1:9]), w[9]) for w in words] + [last]
    yield "no number", head + ["%s %s" % (" ".join(w[1:9]), w[9]) for w in words] + [last]
    yield "no number but T", head + lines[WORDS:WORDS + 1] + [
        "%s %s" % (" ".join(w[1:9]), w[9]) for w in words[1:]] + [last]
    yield "no number, one group", head + ["".join(w[1:9]) + " " + w[9] for w in words] + [last]
    yield "no line's check", plain + [" ".join(w[:9]) for w in words] + [last]
    yield "hashes and the last check", bare(lines) + [last]
    yield "no last line", lines[:LINES]
    yield "no bytes and no words", short + lines[WORDS:]
    yield "colons", [line.replace(" ", ": ", 1) for line in head] + lines[WORDS:]
    yield "full stops and colons in hashes", plain + [
        "%s. %s" % (w[0], ":".join(w[1:9])) for w in words] + [last]
    yield "no space before what is counted", [
        re.sub(" (%s)" % AFTER, r"\1", line) for line in head] + lines[WORDS:]
    yield "no space after it", [
        re.sub("(%s) +" % AFTER, r"\1", line) for line in head] + lines[WORDS:]
    yield "pairs", head + ["%s  %s  %s" % (w[0], " ".join(re.findall("..", "".join(w[1:9]))), w[9])
                           for w in words] + [last]
    yield "sixteens", head + ["%s  %s  %s" % (
        w[0], " ".join(re.findall(".{16}", "".join(w[1:9]))), w[9]) for w in words] + [last]
    yield "numbers of two digits", head + lines[WORDS:WORDS + 1] + [
        "%02d %s" % (int(w[0]), " ".join(w[1:])) for w in words[1:]] + [last]
    yield "much space", ["   " + line.replace(" ", "    ") + "   " for line in lines]
    yield "comments", ["# a manual", "", "#"] + lines[:5] + ["", "# page 2", "   "] + lines[5:]
    yield "the last check in two groups", lines[:LINES] + [last[:-4] + " " + last[-4:]]
    yield "comments after lines", [line + "  # as printed" for line in lines]


def test_forms(room):
    """Every spacing, with and without numbers, checks, comments; no warning where a check is."""
    for kind in by_hand.KINDS:
        record, lines = printed(kind)
        for name, form in forms(lines):
            for end in ("\n", "\r\n"):
                made, err = typed(room, form, end)
                need(made == record, "another record from:", name)
                need(err == b"", "a warning at", name, err)
        need(typed(room, "\n".join(lines))[0] == record, "without an end of the last line")


def test_old_prints(room):
    """A plain record as it was printed while there was one kind, which its line did not say, is read
    as before, in every form, with checks and without."""
    record, lines = printed(by_hand.PLAIN, kinds=False)
    need(lines[0].split() == ["depth", "2", "2c7a"], "another line:", lines[0])
    for name, form in forms(lines):
        need(typed(room, form) == (record, b""), "not as before:", name)
    for form in (bare(lines), unchecked(lines) + [" ".join(w[:9]) for w in hash_words(lines)]):
        made, err = typed(room, form)
        need(made == record and b"no check was typed" in err, "not as before:", form, err)
        need(b"no kind was typed: it is taken for plain" in err, "not told:", form, err)


def test_slips_of_the_kind(room):
    """The kind's word left out, the other one, or another: a slip of the depth's line; where that
    has no check, the check of all finds it; where there is none, the word alone says the kind."""
    for kind in by_hand.KINDS:
        (_, lines), (_, others) = printed(kind), printed(1 - kind)
        word, other = by_hand.KIND_WORDS[kind], by_hand.KIND_WORDS[1 - kind]
        swapped = lines[0].replace(word, other)
        for line in [swapped] + [re.sub(word + " ", "", lines[0])] * (kind == by_hand.PLACED):
            said, named = slip(room, [line] + lines[1:], 0)
            need(named == {0}, "other lines are named:", named)
            need(b"which is that of 'depth 2 %s'\n" % word.encode() in said.err, str(said))
            said, named = slip(room, [line[:-6]] + bare(lines)[1:] + lines[LINES:], LINES)
            need(b": it is that of 'depth 2 %s'\n" % word.encode() in said.err, str(said))
        made, err = typed(room, [swapped[:-6]] + bare(lines)[1:])
        need(by_hand.kind_of(made) == 1 - kind and b"no check" in err, "the word says the kind")
        slip(room, others[:1] + lines[1:], LINES)
        for wrong in ("palced", "plane", "place", "pla in", "00", "kind 00", "0", "x"):
            _, named = slip(room, [lines[0].replace(word, wrong)] + lines[1:], 0)
            need(named == {0}, "other lines are named:", named, wrong)
        said, _ = slip(room, [lines[0].replace(word, "plyced")] + lines[1:], 0)
        need(b"depth has 'plyced', which is neither placed nor plain\n" in said.err, str(said))
        for line, why in (("depth 2 placed plain", b"depth has two words for the kind\n"),
                          ("depth 2 placedd", b"'placedd', which is neither placed nor plain\n")):
            said, _ = slip(room, [line] + bare(lines)[1:], 0)
            need(why in said.err, str(said))


def test_no_checks(room):
    """Lines with no check at all are accepted, with a warning; all have one, or none has."""
    record, lines = printed()
    for form in (bare(lines), unchecked(lines) + [" ".join(w[:9]) for w in hash_words(lines)]):
        made, err = typed(room, form)
        need(made == record, "another record")
        need(err.startswith(b"cedunmi: ") and b"check" in err, "no warning:", err)
        need(err.count(b"\n") == 1, "more than a warning:", err)
    words = [" ".join(line.split()[:9]) for line in lines[5:7]]
    slip(room, lines[:5] + words + lines[7:], 5, 6)
    slip(room, unchecked(lines)[:2] + lines[2:], 0, 1)


def short_volume():
    """The lines of a record of depth 9 and 3 bytes: its length and the check after it, put
    together, would be a length too."""
    head = by_hand.head_of(9, 3, by_hand.house_table(9))
    lines = by_hand.printed(head + Coded(1, 9).record[by_hand.HEAD:])
    need(lines[1].split() == ["length", "3", "bytes", "5788"], "another line:", lines[1])
    return lines


def test_left_checks(room):
    """A check that was left on a line in words, where the others have none, is none of its digits;
    nor is anything else that stands beside the number."""
    lines = short_volume()
    plain = bare(lines)
    for at in range(WORDS):
        for line in (lines[at], re.sub(AFTER, "", lines[at])):
            said, named = slip(room, plain[:at] + [line] + plain[at + 1:], at)
            need(named == {at} and b"has a check, and other lines have none" in said.err, str(said))
    _, named = slip(room, lines[:WORDS] + plain[WORDS:], *range(WORDS))
    need(named == set(range(WORDS)), "other lines are named:", named)
    for line in ("length 3 5 bytes", "length 3 5", "length 3 bytes 5", "length 3 bytes 578 8",
                 "length 3.5", "length 3:5 bytes", "length 3. bytes", "length bytes 3"):
        _, named = slip(room, plain[:1] + [line] + plain[2:], 1)
        need(named == {1}, "other lines are named:", named, line)
    for line in ("length 3 5 bytes 5788", "length 3 bytes 57 88", "length 35788", "length 3.5788"):
        _, named = slip(room, lines[:1] + [line] + lines[2:], 1)
        need(named == {1}, "other lines are named:", named, line)


def changed(line, place, kind, digits, chance):
    """A line with a slip of this kind at a place: a digit that is wrong, one too many, one too few,
    two that are exchanged."""
    other = chance.choice([d for d in DIGITS if d != line[place]])
    if kind == 0:
        return line[:place] + other + line[place + 1:]
    if kind == 1:
        return line[:place] + other + line[place:]
    if kind == 2:
        return line[:place] + line[place + 1:]
    two = next(i for i in digits if line[i] != line[digits[0]])
    return "".join(line[two] if i == digits[0] else line[digits[0]] if i == two else c
                   for i, c in enumerate(line))


def places_of(at, line):
    """Where the digits of a line are that stand for something: after its name or number."""
    begin = {LINES: 6}.get(at, 7 if at < WORDS else 3)
    unit = re.search(AFTER, line)
    return [i for i, c in enumerate(line) if c in DIGITS and i >= begin
            and not (unit and unit.start() <= i < unit.end())]


def test_every_slip(room):
    """One wrong digit anywhere, one too many, one too few, two exchanged: refused, its line named;
    in the lines in words too."""
    chance = random.Random(65)
    for turn in range(4 * (LINES + 1) * 2):
        _, lines = printed(turn // (LINES + 1) % 2)
        at = turn % (LINES + 1)
        digits = places_of(at, lines[at])
        line = changed(lines[at], chance.choice(digits), turn // (LINES + 1) // 2, digits, chance)
        slip(room, lines[:at] + [line] + lines[at + 1:], at)


def test_every_digit_in_words(room):
    """Each digit of the lines in words, number and check, changed into each other one."""
    _, lines = printed()
    for at in range(WORDS):
        need(len(places_of(at, lines[at])) == 4 + len(lines[at].split()[1]), lines[at])
        for place in places_of(at, lines[at]):
            for other in DIGITS[:10]:
                if other != lines[at][place]:
                    line = lines[at][:place] + other + lines[at][place + 1:]
                    _, named = slip(room, lines[:at] + [line] + lines[at + 1:], at)
                    need(named == {at}, "other lines are named:", named, line)


def test_counts(room):
    """With no check at all, a digit too many or too few is still found, in every spacing."""
    _, lines = printed()
    chance = random.Random(66)
    hashes = ["".join(words[1:9]) for words in hash_words(lines)]
    names = ["T"] + list(map(str, range(16)))
    for turn in range(72):
        at, size, numbered = chance.randrange(17), (2, 8, 64)[turn % 3], turn % 2
        form = [(name + "  " if numbered else "") + " ".join(
            value[g:g + size] for g in range(0, 64, size)) for name, value in zip(names, hashes)]
        begin = len(form[at]) - len(form[at].split("  ")[-1])
        place = chance.choice([i for i in range(begin, len(form[at])) if form[at][i] != " "])
        more = chance.choice(DIGITS) + form[at][place] if turn % 4 < 2 else ""
        form[at] = form[at][:place] + more + form[at][place + 1:]
        slip(room, unchecked(lines) + form, WORDS + at)


def test_letters(room):
    """What is no digit is a slip of its line: letters, signs, bytes of no text."""
    _, lines = printed()
    for at in (0, 1, 2, 3, 4, 11, 19):
        digits = places_of(at, lines[at])
        place = digits[len(digits) // 3]
        for sign in ("g", "o", "l", "-", "\xe4", "\x00", "\x1b", "\u0660"):
            line = lines[at][:place] + sign + lines[at][place + 1:]
            said, _ = slip(room, lines[:at] + [line] + lines[at + 1:], at)
            need(b"\x1b" not in said.err and b"\x00" not in said.err, str(said))


def test_all_slips(room):
    """All slips are named, not the first alone; lines without one are not."""
    _, lines = printed()
    wrong = list(lines)
    wrong[1] = lines[1].replace("1300", "1030")
    wrong[6] = lines[6].replace(lines[6][4], DIGITS[DIGITS.index(lines[6][4]) - 1], 1)
    wrong[11] = lines[11][:-1]
    wrong[15] = lines[15][:30] + "x" + lines[15][31:]
    wrong[18] = lines[18] + "0"
    said, named = slip(room, wrong, 1, 6, 11, 15, 18)
    need(named == {1, 6, 11, 15, 18}, str(said) + ", names lines that are right")


def test_moved_lines(room):
    """Each line that is missing, there twice, or exchanged with the next: it is named, and no line
    that is right."""
    _, lines = printed()
    for at in range(LINES):
        said, _ = slip(room, lines[:at] + lines[at + 1:])
        need(b"%s is missing" % NAMES[at].encode() in said.err, str(said))
        need(said.err.count(b"\n") == 1, str(said))
        said, _ = slip(room, lines[:at] + [lines[at]] + lines[at:])
        need(b"line %d: %s is there twice\n" % (at + 2, NAMES[at].encode()) in said.err, str(said))
        need(said.err.count(b"\n") == 1, str(said))
        if at + 1 < LINES:
            _, named = slip(room, lines[:at] + [lines[at + 1], lines[at]] + lines[at + 2:],
                            at, at + 1)
            need(named == {at, at + 1}, "other lines are named:", named)


def test_missing_lines(room):
    """Lines that are missing where there are no numbers; no lines at all; a root's print alone."""
    _, lines = printed()
    slip(room, bare(lines)[:LINES - 1])
    slip(room, bare(lines) + bare(lines)[-1:], LINES)
    for one in (lines, bare(lines)):
        said, named = slip(room, one + one)
        need(named == {len(one)} and b"another begins" in said.err, str(said))
    said, named = slip(room, lines + lines[LINES:])
    need(named == {LINES + 1} and b"there twice" in said.err, str(said))
    slip(room, [])
    slip(room, "\n\n# nothing\n")
    slip(room, lines[LINES:])
    said, _ = slip(room, lines[WORDS + 1:])
    need(b"a root, as it was before there were records" in said.err, str(said))


def test_swapped_lines(room):
    """Hashes in another order are found by the checks, which cover their numbers, and where no line
    has one by the check of all."""
    _, lines = printed()
    without = lines[:WORDS] + [" ".join(words[1:]) for words in hash_words(lines)]
    slip(room, without[:6] + [without[7], without[6]] + without[8:], 6, 7)
    slip(room, without[:3] + [without[4], without[3]] + without[5:], 3, 4)
    words = hash_words(lines)
    numbered = [" ".join(w) for w in words]
    numbered[3] = " ".join([words[3][0]] + words[4][1:])
    numbered[4] = " ".join([words[4][0]] + words[3][1:])
    slip(room, lines[:WORDS] + numbered, 6, 7)
    plain = bare(lines)
    slip(room, plain[:6] + [plain[7], plain[6]] + plain[8:] + [lines[LINES]], LINES)


def test_wrong_check(room):
    """Where the lines are right and the last check is not, the last line is named."""
    record, lines = printed()
    other = lines[LINES][:-1] + DIGITS[DIGITS.index(lines[LINES][-1]) - 1]
    said, _ = slip(room, lines[:LINES] + [other], LINES)
    need(b"check" in said.err, str(said))
    need(by_hand.digest(record).hex()[:8] not in other, "the check was not changed")
    for at in range(LINES):
        line = bare(lines)[at]
        place = [i for i, c in enumerate(line) if c in DIGITS and (at >= WORDS or i > 6)][0]
        wrong = line[:place] + ("1" if line[place] != "1" else "2") + line[place + 1:]
        form = bare(lines)[:at] + [wrong] + bare(lines)[at + 1:]
        slip(room, form + [lines[LINES]], LINES)


def test_impossible_heads(room):
    """A depth that there is not, or a length that the depth does not hold, is a slip, even where
    no check was typed."""
    _, lines = printed()
    plain = bare(lines)
    for at, line in ((0, "depth 0"), (0, "depth 10"), (1, "length 2049 bytes"), (0, "depth"),
                     (1, "length 1073741824"), (1, "length -1"), (2, "table 1073741824"),
                     (1, "length 1,300"), (1, "lenght 1300"), (2, "tables 181"), (2, "tabel 181"),
                     (1, "1300")):
        slip(room, plain[:at] + [line] + plain[at + 1:], at)
    made, _ = typed(room, plain[:1] + ["length 2048"] + plain[2:])
    need(by_hand.length_of(made) == 2048, "the longest length")


def test_nothing_left(room):
    """A text with a slip leaves an existing record as it was, with --force too."""
    _, lines = printed()
    put("record", b"mine")
    put("text", ("\n".join(lines[:15])).encode())
    room.refused(65, "typed", "--force", "text", "record")
    room.refused(65, "typed", "text", "none")
    need(not os.path.exists("none") and slurp("record") == b"mine", "written after a slip")
