"""Wrong programs, each with the test that must find it: the right one with something done wrongly
around it. `right` has nothing wrong, and passes all these tests."""
import os
import shlex

# What a script may use: $real, the right program; $command, $force, $last, the last argument;
# `to PLACE WORDS..`, the command with its output there.
PREAMBLE = """#!/bin/sh
real=@REAL@
command='' force=''
for last; do
    case $last in
    --force) force=yes ;;
    -*) ;;
    *) [ -n "$command" ] || command=$last ;;
    esac
done
to() {
    place=$1
    shift
    count=$#
    while [ "$count" -gt 1 ]; do
        set -- "$@" "$1"
        shift
        count=$((count - 1))
    done
    shift
    "$real" "$@" "$place"
}
"""


def saying(edit):
    """A program that says something else where it is refused: this edit, by sed."""
    return ('said=$("$real" "$@" 2>&1 >/dev/null); status=$?; printf "%%s\\n" "$said" | '
            'sed "%s" >&2; exit $status' % edit)


def telling(edit):
    """A program that prints something else: this edit of its standard output, by sed."""
    return ('said=$("$real" "$@"); status=$?; [ -z "$said" ] || printf "%%s\\n" "$said" | '
            'sed "%s"; exit $status' % edit)


TELLING_LATER = '"$real" "$@" >told; status=$?; cat told 2>/dev/null; exit $status'
SCRIPTS = [
    ("careless", "basics.numbers", '"$real" "$@"; exit 0'),
    ("shallow", "basics.every_depth",
     'case " $* " in *" "[6-9]" "*) echo "cedunmi: the depth is not 1 to 5" >&2; exit 1 ;; esac'),
    ("bottomless", "basics.numbers",
     '[ "$1 $2" = "table 10" ] && exec "$real" table 9 "$last"'),
    ("low-capped", "caps.one_over",
     'for file; do [ ! -f "$file" ] || [ "$(wc -c <"$file")" -le 16384 ] || '
     '{ echo "cedunmi: a length is wrong" >&2; exit 2; }; done'),
    ("short-numbered", "reports.deeper",
     '[ "$command" = check ] && { "$real" "$@" >told; status=$?; '
     r'sed "s/ 4\([0-9][0-9][0-9]\)/ \1/g" told; rm told; exit $status; }'),
    ("miscounting", "basics.uncovered_tables",
     saying("s/in equation [0-9]* alone/in no equation/")),
    ("parent-asking", "paths.samples",
     saying(r"s/: page \([0-9]*\)\( has .* leads .*ask for page\) [0-9]*/: page \1\2 \1/")),
    ("unplaced", "paths.samples",
     saying(r"s/page [0-9]* of the tree, number \([0-9]*\)/page \1 of the tree, number \1/")),
    ("data-naming", "paths.samples",
     saying(r"s/page \(5\|9\|13\) of the tree, number [0-9]* /page 1 of the tree, number 1 /")),
    ("half-naming", "paths.two_pages",
     saying(r"1s/\(page\|number\)s \([0-9]*\) and [0-9]*/\1 \2/g")),
    ("trusting-the-page-above", "paths.samples",
     saying("s/but doesn't lead to the root itself: if .*/and leads to the root/")),
    ("number-trusting", "paths.other_numbers",
     saying("s/itself: if .*, ask for/itself: ask for/")),
    ("record-trusting", "paths.other_tables",
     saying("s/: if this record is the volume's, ask/: ask/")),
    ("head-forgetting", "paths.proofs", saying("s/bytes 12 to 267 of/bytes 0 to 255 of/")),
    ("half-replacing", "paths.two_pages", saying("s/bytes 256 to 767 of/bytes 256 to 511 of/")),
    ("layer-above", "paths.proofs",
     saying("1s/of layer 1/of layer 0/; 1s/of layer 2/of layer 1/")),
    ("all-given", "paths.proofs", saying("s/path of the withheld member/path of member/")),
    ("overwriting", "files.existing",
     'case $command in table | typed | read) exec "$real" --force "$@" ;; esac'),
    ("mode-losing", "files.existing",
     '"$real" "$@"; status=$?; [ -z "$force" ] || chmod 644 "$last"; exit $status'),
    ("bits-keeping", "files.existing",
     '[ -n "$force" ] && [ -e "$last" ] && { mode=$(stat -c %a "$last"); "$real" "$@"; status=$?; '
     'chmod "$mode" "$last"; exit $status; }'),
    ("mode-giving", "files.writes_no_inputs",
     '"$real" "$@"; status=$?; [ -z "$force" ] || chmod -R go+r "$last"; exit $status'),
    ("owner-losing", "rights.owners", '"$real" "$@"; status=$?; chown -R 0:0 out; exit $status'),
    ("link-following", "files.links",
     '[ -n "$force" ] && [ -L "$last" ] && to "$(readlink -f "$last")" "$@" && exit'),
    ("slash-following", "files.folder_links",
     'case $last in */) to "$(readlink -f "$last")" "$@"; exit ;; esac'),
    ("slash-dropping", "files.names_of_folders",
     'case $last in ?*/) to "${last%/}" "$@"; exit ;; esac'),
    ("proofless", "files.in_place_names",
     'case $* in *--in-place*) "$real" check 1 record table tree marks >told && exit 0; rm told ;; '
     'esac'),
    ("littering", "files.links",
     '"$real" "$@"; status=$?; [ $status = 0 ] || : >.cedunmi-0123456789abcdef; exit $status'),
    ("inputs-writing", "files.output_is_input",
     '[ -n "$force" ] && [ "$command" = typed ] && to kept "$@" && exec mv -fT kept "$last"'),
    ("direct", "disk.full_disk",
     '[ "$command" != table ] || { to - "$@" >"$last"; exit 0; }'),
    ("through-TMPDIR", "disk.full_temporary_folder",
     '[ "$command" != table ] || { to - "$@" >"$TMPDIR/new"; cp "$TMPDIR/new" "$last"; exit 0; }'),
    ("foreseen", "files.planted",
     '[ "$command" != table ] || { part=$last.part.$$; to - "$@" >"$part"; '
     'exec mv -fT "$part" "$last"; }'),
    ("looking-first", "races.code_at_once",
     '[ "$command" = code ] && { [ ! -e "$last/tree" ] || exit 73; exec "$real" --force "$@"; }'),
    ("piecewise", "races.readers_of_a_folder",
     '[ "$command" = code ] && { to part "$@"; mv part/tree "$last"; mv part/marks "$last"; '
     'mv part/record "$last"; rmdir part; exit 0; }'),
    ("unlocked", "races.lock_before_reading",
     '[ "$command" = repair ] && { cp tree kept; "$real" repair 1 record table kept marks made; '
     'status=$?; mv tree tree~; mv made/tree made/marks .; exit $status; }'),
    ("untold", "races.lock_is_told", 'exec "$real" --quiet "$@"'),
    ("entering", "races.replaced_while_waiting",
     '[ "$command" = table ] && { cd "$(dirname "$last")"; to "$(basename "$last")" "$@"; exit; }'),
    ("uncaring", "races.put_in_a_folder_at_once",
     '[ "$command" = code ] && { rm -rf old; to new "$@"; mv -T "$last" old; exec mv -T new '
     '"$last"; }'),
    ("moving", "steps.moved_there_meanwhile",
     '[ "$command$force" = tableyes ] && { to new "$@"; exec mv -fT new "$last"; }'),
    ("dying", "kills.told_to_end",
     ': >out/.cedunmi-0123456789abcdef; "$real" "$@"; status=$?; '
     'rm out/.cedunmi-0123456789abcdef; exit $status'),
    ("halting", "steps.killed_at_each_call",
     '[ "$command" = code ] && { rm -rf "$last"; mkdir "$last"; "$real" "$@"; exit; }'),
    ("heedless", "streams.full_output", TELLING_LATER),
    ("forgetful", "streams.full_output_of_writers",
     '"$real" "$@" >told; status=$?; cat told 2>/dev/null && exit $status; '
     'echo "cedunmi: standard output: No space left on device" >&2; exit 74'),
    ("appending", "streams.output_is_input", TELLING_LATER),
    ("unwritten", "streams.streams_of_the_other_kind", TELLING_LATER),
    ("signalled", "streams.limited_output", '"$real" "$@" >told; cat told; exit 74'),
    ("proc-needing", "streams.no_proc", '[ -e /proc/self/fd/1 ] || exit 70'),
    ("raw", "names.messages",
     r'[ -e "$last" ] || { printf "cedunmi: %s\n" "$last" >&2; exit 66; }'),
    ("slurping", "caps.sparse_files",
     'for file; do [ ! -f "$file" ] || dd if="$file" bs=1G of=/dev/null status=none; done'),
    ("unchecked", "typed.every_slip",
     '[ "$command" = typed ] && { sed "/^check/d; s/  [0-9a-f]*$//" text >bare; '
     'exec "$real" typed --force bare "$last"; }'),
    ("whole-paged", "lengths.trim_chart",
     '[ "$command" = code ] && { truncate -s %256 "$3"; exec "$real" "$@"; }'),
    ("filling-with-ones", "lengths.there_and_back",
     '[ "$command" = code ] && { "$real" "$@"; cp volume filled; '
     'head -c 1024 /dev/zero | tr "\\0" "\\377" >>filled; truncate -s 1024 filled; '
     '"$real" code table filled kept; mv kept/tree made; '
     '{ head -c 44 made/record; tail -c 512 kept/record; } >new; mv new made/record; '
     'rm -r kept filled; exit 0; }'),
    ("reading-the-filling", "lengths.there_and_back",
     '[ "$command" = read ] && { "$real" "$@"; status=$?; truncate -s %256 "$last"; '
     'exit $status; }'),
    ("empty-refusing", "lengths.there_and_back",
     '[ "$command" != code ] || [ -s volume ] || '
     '{ echo "cedunmi: a length is wrong" >&2; exit 2; }'),
    ("deepest-taking", "lengths.too_long", saying("s/: take depth [0-9]*/: take depth 9/")),
    ("filling-trusting", "lengths.misfilled",
     '"$real" "$@"; status=$?; [ $status != 43 ] || exit 0; exit $status'),
    ("misfilled-refusing", "lengths.misfilled",
     '[ "$command" = read ] && { "$real" "$@"; status=$?; [ $status != 43 ] || rm "$last"; '
     'exit $status; }'),
    ("silent-on-filling", "lengths.misfilled", 'exec "$real" "$@" 2>/dev/null'),
    ("held-claiming", "lengths.misfilled",
     '[ "$command" = read ] && { %s; }'
     % saying("s/isn't zero: /isn't zero: every page is held: /")),
    ("length-trusting", "lengths.shorter_records",
     '"$real" "$@"; status=$?; [ $status != 43 ] || exit 0; exit $status'),
    ("looking-at-digits", "depths.count_tells",
     '[ "$1" = check-table ] && case $2 in [1-9]) [ $# -gt 2 ] || exit 64 ;; esac'),
    ("depth-asking", "depths.left_out",
     '[ "$command" != sample ] || [ $# -gt 5 ] || { echo "cedunmi: no DEPTH" >&2; exit 64; }'),
    ("depth-believing", "depths.another",
     '[ "$command" = check ] && { shift 2; exec "$real" check "$@"; }'),
    ("one-depth-saying", "depths.another",
     saying("s/ is of depth 3, and DEPTH is/ is not of depth/")),
    ("first-depth-taking", "depths.wrong_tables",
     '[ "$1 $#" = "check-table 2" ] && exec "$real" check-table 1 "$2"'),
    ("large-tabled", "depths.house_tables",
     '[ "$2" = --for ] && [ "$(wc -c <"$3")" = 1024 ] && exec "$real" table 2 "$last"'),
    ("plain-making", "kinds.coding", '[ "$command" != code ] || exec "$real" --plain "$@"'),
    ("kind-hiding", "kinds.coding", '[ "$command" != code ] || exec "$real" --quiet "$@"'),
    ("kind-misnaming", "kinds.coding", telling("s/01, plain/00, with places/")),
    ("placeless", "kinds.coding",
     '[ "$command $last" = "code placed" ] && { "$real" -q --plain "$@"; '
     'printf "\\0" | dd of=placed/record bs=1 conv=notrunc status=none; '
     'echo "coded: kind 00, with places"; exit 0; }'),
    ("same-kind-copying", "kinds.recoding",
     '[ "$command" = recode ] && { "$real" "$@"; status=$?; for file in tree marks record; do '
     '[ ! -e "$last/$file" ] || cp "$file" "$last"; done; exit $status; }'),
    ("kind-copying", "kinds.recoding",
     '[ "$command" = recode ] && { "$real" "$@"; status=$?; '
     'head -c 1 record | dd of="$last/record" bs=1 conv=notrunc status=none; exit $status; }'),
    ("one-way", "kinds.recoding",
     '[ "$command $(head -c 1 record)" != "recode @" ] || exit 64'),
    ("way-misnaming", "kinds.recoding",
     telling("s/from \\(kind.*\\), to \\(kind.*\\)/from \\2, to \\1/")),
    ("print-forgetting", "kinds.recoding", telling("/^print .*record for the manual/d")),
    ("length-dropping", "kinds.recoding",
     '[ "$command" = recode ] && { "$real" "$@"; status=$?; '
     'printf "\\200" | dd of="$last/record" bs=1 seek=4 conv=notrunc status=none; '
     'head -c 3 /dev/zero | dd of="$last/record" bs=1 seek=5 conv=notrunc status=none; '
     'exit $status; }'),
    ("mending-first", "kinds.damage",
     '[ "$command $last" = "recode none" ] && "$real" -q repair record table tree marks kept && '
     '{ "$real" recode record table kept/tree kept/marks none; status=$?; rm -r kept; '
     'exit $status; }'),
    ("advice-dropping", "kinds.damage", saying("/a repair makes it whole/d")),
    ("lack-misnaming", "kinds.damage",
     saying("s/\\([0-9]*\\) pages* absent, \\([0-9]*\\) bad/\\2 pages absent, \\1 bad/")),
    ("filling-recoding", "kinds.other_ends",
     '[ "$command" = recode ] && { "$real" -q check record table tree marks; '
     '[ $? != 43 ] || { mkdir none; cp tree marks record none; exit 0; }; }'),
    ("end-hiding", "kinds.other_ends", saying("/a repair would end so/d")),
    ("whole-first", "kinds.order",
     '[ "$command" = recode ] && { "$real" "$@"; status=$?; [ $status != 4 ] || exit 14; '
     'exit $status; }'),
    ("kind-guessing", "kinds.changed_kinds",
     '[ "$command" = check ] && { "$real" "$@"; status=$?; [ $status != 32 ] || exit 0; '
     'exit $status; }'),
    ("doubtless", "kinds.changed_kinds", telling("s/; this record says kind .*/./")),
    ("still-bringing", "kinds.changed_kinds",
     telling("s/; this record says/; bring some of its 16 missing pages, and repair again&/")),
    ("half-wanting", "kinds.changed_kinds",
     telling("/ 15 absent, 1 bad/,$s/; this record says .*/; bring some of its 16 missing pages/")),
    ("record-blaming", "kinds.mixed_kinds",
     '[ "$command" = check-sample ] && { %s; }'
     % saying("s/this sample agrees .* kind \\(.*\\), and .*/this record says kind \\1/")),
    ("tree-trusting", "kinds.mixed_kinds",
     telling("s/this tree agrees with itself as one of .*, and the/this tree is damaged; the/")),
    ("record-taking", "kinds.mixed_kinds",
     telling("s/if it was recoded, .*/take the record that came with it/")),
    ("one-hashing", "kinds.blank_pages",
     '[ "$command" != code ] || exec "$real" --plain "$@"'),
    ("wordless", "typed.print", telling("s/ placed/       /; s/ plain/      /")),
    ("old-refusing", "typed.old_prints",
     '[ "$command" != typed ] || grep -qi "placed\\|plain" text || '
     '{ echo "cedunmi: line 1: depth has no kind" >&2; exit 65; }'),
    ("placed-supposing", "typed.slips_of_the_kind",
     '[ "$command" = typed ] && { sed "s/^\\(depth *2\\)  /\\1 placed /" text | '
     '"$real" typed - "$last"; exit; }'),
    ("kind-hinting-not", "typed.slips_of_the_kind", saying("s/, which is that of .*//")),
    ("equal-calling", "typed.every_print", telling("s/no two are equal/some are equal/")),
    ("all-records-trusting", "typed.every_print", telling("s/If the volume is coded as .*, //")),
    ("always-equal-calling", "typed.every_print",
     telling("s/TABLE writes it[.]$/&\\n# the pages 7, 11 and 15 are zero/")),
    ("kind-blind", "records.kinds",
     '[ "$command" = check-sample ] && { "$real" "$@"; status=$?; [ $status != 11 ] || exit 0; '
     'exit $status; }'),
    ("unexplaining", "records.lengths", saying("/says a length of/d")),
    ("root-forgetting", "records.roots", saying("s/; it is a root, as it was .*//")),
    ("root-taking", "records.roots",
     '[ "$1 $2" = "record record" ] && [ "$(wc -c <record)" = 512 ] && exit 0'),
    ("table-trusting", "records.other_tables",
     '"$real" "$@"; status=$?; [ $status != 12 ] || exit 0; exit $status'),
    ("miscount-blind", "records.other_counts", saying("/: the SHA-256 is the same: /d")),
    ("tree-blaming", "records.depths", saying("/ says depth 3; /d")),
    ("print-blind", "records.roots", saying("s/: cedunmi typed makes .*//")),
    ("house-blind", "records.other_tables", saying("s/, the house table of depth .*//")),
    ("house-claiming", "records.other_tables",
     saying("s/\\(names a table of [^,]*, with the SHA-256 [0-9a-f]*\\)$/"
            "\\1, the house table of depth 1: cedunmi table 1 FILE writes it/")),
    ("hash-cutting", "records.each_bit",
     '[ "$command" = check ] && { { head -c 43 record; printf "\\352"; tail -c 512 record; } | '
     '"$real" check 1 - table tree marks; exit; }'),
    ("early-tabled", "records.order",
     '[ "$command" = check ] && { "$real" "$@"; status=$?; [ $status != 10 ] || exit 12; '
     'exit $status; }'),
    ("head-unchecking", "typed.every_digit_in_words",
     '[ "$command" = typed ] && { sed "/^check/d; s/  [0-9a-f]*$//" text | '
     '"$real" -q typed - "$last"; exit; }'),
    ("check-gluing", "typed.left_checks",
     '[ "$command" = typed ] && { sed "s/bytes//; s/^\\(length *[0-9]*\\) *\\([0-9]*\\)/\\1\\2/" '
     'text | "$real" -q typed - "$last"; exit; }'),
    ("stop-dropping", "typed.left_checks",
     '[ "$command" = typed ] && { sed "/^[a-z]/s/[.:]//g" text | "$real" -q typed - "$last"; '
     'exit; }'),
    ("first-record-taking", "typed.missing_lines",
     '[ "$command" = typed ] && { sed 22,\\$d text | "$real" -q typed - "$last"; exit; }'),
    ("line-misnaming", "typed.every_slip", saying("s/^cedunmi: line [0-9]*/cedunmi: line 1/")),
    ("first-slip-naming", "typed.all_slips", saying("2,\\$d")),
    ("order-blind", "typed.moved_lines",
     '[ "$command" = typed ] && [ "$(grep -c . text)" = 21 ] && { '
     '{ grep "^[a-z]" text | sort | sed 1d; grep "^ T" text; grep "^[ 1][0-9]" text | sort -n; } '
     '>kept; exec "$real" typed --force kept "$last"; }'),
    ("twice-taking", "typed.moved_lines",
     '[ "$command" = typed ] && { uniq text | "$real" typed - "$last"; exit; }'),
    ("missing-unnamed", "typed.moved_lines",
     saying("s/[a-z]* *[T0-9]* is missing.*/a line is missing/")),
    ("house-printing", "typed.every_print",
     '[ "$command" = record ] && { "$real" "$@" >told; status=$?; '
     'sed "s/is not the house table.*/is the house table: cedunmi table 1 TABLE/" told; '
     'rm told; exit $status; }'),
    ("impossible-taking", "typed.impossible_heads",
     '[ "$command" = typed ] && { grep -q "^length 2049" text && exit 0; }'),
    ("misnumbering", "reports.the_report_of_the_manual",
     '[ "$command" = check ] && { "$real" "$@" >told; status=$?; sed "s/16 to 47/0 to 31/" told; '
     'rm told; exit $status; }'),
    ("folder-making", "rights.vanished_folders",
     'mkdir -p "$(dirname "$last")" 2>/dev/null')]


def make(program, place):
    """Makes the scripts; gives for each its name, the test that must find it, and its path."""
    made = [("right", test, "") for test in sorted({test for _, test, _ in SCRIPTS})]
    for number, (name, test, body) in enumerate(made + SCRIPTS):
        path = os.path.join(place, "program%d" % number)
        with open(path, "w") as file:
            file.write(PREAMBLE.replace("@REAL@", shlex.quote(program)))
            file.write(body + '\nexec "$real" "$@"\n')
        os.chmod(path, 0o755)
        yield "%s%s" % (name, number if name == "right" else ""), test, path
