#!/bin/sh
# Tries the built program justfiles on the files of a scratch folder, on those of lint.cases, and
# examples/pre-commit in a scratch repository: files.sh [PROGRAM]
#
# Each row is what is tried and how it ended. Ends with 1 if something ended otherwise than it should.
# What needs another user or a small file system is tried only by root, system calls that fail only where
# there is strace, access lists where there is setfacl, examples/justfmt.vim where there are Vim and tmux,
# and .pre-commit-hooks.yaml where there is pre-commit. Needs git and patch.
set -u
top=$(cd "$(dirname "$0")/.." && pwd)
program=${1:-$top/crates/justfiles/out/justfiles}
[ -x "$program" ] || { echo "files.sh: no program $program: rt run in crates/justfiles builds it" >&2; exit 2; }
work=$(mktemp -d) || exit 2
trap 'tmux -L "justfmt$$" kill-server 2> /dev/null; umount "$work/small" "$work/files/mounted.just" 2> /dev/null; chmod -R u+w "$work"; rm -rf "$work"' EXIT
mkdir "$work/bin" && cp "$program" "$work/bin/justfiles" && cd "$work" && mkdir files && cd files || exit 2
PATH=$work/bin:$PATH
unformatted='name:="x"
'
formatted='name := "x"
'
broken='build: clean &&
'
failed=0

# Compares what came of a case with what should have: row NAME GOT WANTED
row() {
    what=$(printf %s "$1" | tr '\n\t' '  ')
    if [ "$2" = "$3" ]; then
        printf '%-58s as it should\n' "$what"
    else
        printf '%-58s GOT %s WANTED %s\n' "$what" "$2" "$3"
        failed=1
    fi
}

# A name as it is shown: with `\u{..}` for a tab and a line feed.
shown() {
    printf %s "$1" | awk '{ gsub(/\t/, "\\u{9}"); printf "%s%s", (NR > 1 ? "\\u{a}" : ""), $0 }'
}

# Makes a file with a text: put NAME TEXT
put() {
    printf '%s' "$2" > "$1"
}

# Runs the program and keeps its status and what it wrote.
run() {
    justfiles "$@" > ../output 2> ../errors
    status=$?
}

# The text of a file, with a mark so that its line ends stay.
text() {
    cat < "$1"; printf .
}

for name in 'plain.just' 'with blank.just' "quote's.just" 'double"quote.just' 'back\slash.just' 'new
line.just' 'tab	.just' ' blanks ' 'üñí.just'; do
    put "$name" "$unformatted"
    shown=$(shown "$name")
    run --check -- "$name"
    row "--check names $name" "$status $(text ../output)" "1 $shown
."
    run --diff -- "$name"
    row "--diff of $name has status 1" "$status" 1
    cp "$name" ../kept
    patch -s -p0 < ../output > ../patched 2>&1
    row "patch takes the diff of $name" "$(text "$name")" "$formatted."
    cp ../kept "$name"
    run -- "$name"
    row "$name is formatted in place" "$status $(text "$name")" "0 $formatted."
    run --check -- "$name"
    row "then --check says nothing of it" "$status $(cat ../output ../errors)" '0 '
    rm "$name"
done

put -- "$formatted"; put -n.just "$unformatted"; put - "$unformatted"
run -n.just; row 'a name with - is no name without --' "$status $(cat ../errors)" '3 error: unexpected argument: -n.just
see justfiles --help'
run - < /dev/null; row '- is no file without --' "$status $(text -)" "0 $unformatted."
run -- - -n.just; row 'after -- both are files' "$status $(text -)$(text -n.just)" "0 $formatted.$formatted."
run --check --diff x; row 'two options' "$status" 3
run --lint --check x; row 'two options, one of them --lint' "$status" 3
mkdir linted; put linted/justfile 'a: b
'; put linted/b.just 'a: b
'; put linted/broken.just "$broken"
run --lint linted/justfile; row '--lint tells of an unknown dependency' "$status $(sed 1q ../output)" '1 error: recipe `a` has unknown dependency `b`'
run --lint linted/b.just; row 'but not in a file that others may import' "$status $(text ../output)" '0 .'
run --lint linted/broken.just; row 'nor in one that is no justfile' "$status $(text ../output)" '2 .'
run --lint linted; row 'a folder has the greatest status' "$status $(grep -c unknown ../output)" '2 1'
(cd linted && justfiles --lint < /dev/null) > ../output; row 'without a file the justfile here is told of' "$? $(grep -c unknown ../output)" '1 1'
row 'no file is changed' "$(text linted/justfile)" 'a: b
.'
mkdir imports; put imports/justfile "import 'one.just'
import? 'two.just'
a: b c
"; put imports/one.just "import 'justfile'
b: d
"; put imports/two.just 'set allow-duplicate-recipes
e:
e:
'
run --lint imports/justfile; row '--lint tells of what is wrong with a file and its imports' "$status $(grep error ../output)" '1 error: recipe `a` has unknown dependency `c`
error: recipe `b` has unknown dependency `d`
error: import `imports/justfile` in `imports/one.just` is circular'
rm imports/two.just
run --lint imports/justfile; row 'and without one that it may have' "$status $(grep error ../output)" '1 error: recipe `a` has unknown dependency `c`
error: recipe `b` has unknown dependency `d`
error: import `imports/justfile` in `imports/one.just` is circular'
rm imports/one.just
run --lint imports/justfile; row 'an import that must have one is told' "$status $(grep error ../output)" '1 error: could not find source file for import'
rm -r imports
# Lints the files of a case, if there is one, and begins another: next_case WHAT
next_case() {
    if [ -n "$case" ]; then
        run --lint tree/justfile
        row "$case" "$status $(grep '^error' ../output)" "$wanted_status $wanted"
        rm -r tree
    fi
    case=$1 wanted= wanted_status=0
}
case=
next_case ''
while IFS= read -r line; do
    case $line in
        '' | '#'*) ;;
        '  error: '*) wanted="$wanted${wanted:+
}${line#  }" wanted_status=1 ;;
        '  '*)
            name=${line#  } name=${name%%: *}
            mkdir -p "tree/$(dirname "$name")"
            printf '%b' "${line#*: }" > "tree/$name"
            ;;
        *) next_case "$line" ;;
    esac
done < "$top/bench/lint.cases"
next_case ''
number=100000
awk -v n=$number 'BEGIN { for (i = 1; i < n; i++) print "r" i ": r" i + 1; print "r" n ":" }' > linted/justfile
run --lint linted/justfile; row 'many recipes, each of which depends on the next' "$status $(text ../output)" '0 .'
awk -v n=$number 'BEGIN { for (i = 1; i < n; i++) print "r" i ": r" i + 1; print "r" n ": r1" }' > linted/justfile
run --lint linted/justfile; row 'a circle of as many' "$status $(grep -c '^error' ../output)" '1 1'
awk 'BEGIN { for (i = 1; i <= 300; i++) { printf "r%d:", i; for (j = 1; j <= 300; j++) if (j != i) printf " r%d", j; print "" } }' > linted/justfile
run --lint linted/justfile; row 'recipes each of which depends on all others' "$status $(sed 1q ../output)" '1 error: recipe `r2` has circular dependency `r1 -> r2 -> r1`'
rm -r linted
rm -- -- - -n.just
run; row 'no file, and no justfile here or above' "$status $(cat ../errors)" '3 error: no justfile found'
mkdir -p below/below; put .JustFile "$unformatted"
(cd below/below && justfiles --check) > ../output; row 'without a file the justfile above is checked' "$? $(cat ../output)" '1 ../../.JustFile'
(cd below/below && justfiles); row 'and formatted' "$? $(text .JustFile)" "0 $formatted."
put justfile "$unformatted"; run; row 'not where a folder has two' "$status $(text justfile)" "3 $unformatted."
row 'and both are named' "$(grep -c 'justfile and .JustFile\|.JustFile and justfile' ../errors)" 1
if command -v python3 > /dev/null; then
    cat > ../far.py <<'END'
import os, subprocess
os.remove(".JustFile")
for _ in range(24):
    os.mkdir("n" * 200), os.chdir("n" * 200)
print(subprocess.run(["justfiles", "--check"], capture_output=True, text=True).stdout == "../" * 24 + "justfile\n")
for _ in range(24):
    os.chdir(".."), os.rmdir("n" * 200)
open(".JustFile", "w")
END
    row 'from a folder of a long path' "$(python3 ../far.py)" True
fi
mkdir "$(printf 'n\377')"; (cd "$(printf 'n\377')" && rm ../.JustFile && justfiles --check) > ../output; row 'and from one whose path is not UTF-8' "$? $(cat ../output)" '1 ../justfile'
rmdir "$(printf 'n\377')"; put .JustFile ''
rm -r .JustFile justfile below
stream() {
    printf '%s' "$1" > ../input; shift; justfiles "$@" < ../input > ../output 2> ../errors
    status=$?
}
stream 'a: b
' --lint --name justfile -; row '--lint tells of standard input' "$status $(sed 1q ../output)" '1 error: recipe `a` has unknown dependency `b`'
stream "$unformatted" -; row '- formats standard input' "$status $(text ../output)" "0 $formatted."
stream "$formatted" -; row 'and writes what is formatted' "$status $(text ../output)" "0 $formatted."
stream "$unformatted" --check --name a.just -; row '--check with a name' "$status $(cat ../output)" '1 a.just'
stream "$formatted" --check -; row '--check of a formatted stream' "$status $(cat ../output)" '0 '
stream "$unformatted" --diff --name 'a b' -; row '--diff with a name' "$status $(head -n 1 ../output)" '1 --- "a b"'
stream "$broken" --name x.just -; row 'a rejected stream' "$status $(text ../output) $(grep -c 'x.just:1:16$' ../errors)" '2 . 1'
stream "$unformatted" --name -; row 'a name without a stream' "$status $(cat ../output)" '3 '
justfiles - < ../input > /dev/full 2> ../errors; row 'a stream that cannot be written' "$? $(grep -c '^error: ' ../errors)" '3 1'
run --help; row '--help' "$status $(grep -c '^usage: justfiles ' ../output) $(cat ../errors)" '0 1 '
run --version; row '--version' "$status $(grep -c '^justfiles' ../output) $(cat ../errors)" '0 1 '
run -h; row '-h' "$status $(grep -c '^usage: justfiles ' ../output)" '0 1'
run -V; row '-V' "$status $(grep -c '^justfiles, commit ' ../output)" '0 1'
for words in '--chek' '--check --diff' '- a' '--name x a' 'a --list'; do
    run $words; row "$words: what is wrong is named" "$status $(cat ../errors)" "3 error: unexpected argument: ${words##* }
see justfiles --help"
done
run --name; row 'a missing argument' "$status $(cat ../errors)" '3 error: an argument is missing at the end
see justfiles --help'
printf '%s' "$unformatted" > ../input; { justfiles - < ../input 2> ../errors; echo $? > ../status; } | true
row 'a stream that nobody reads' "$(cat ../status) $(grep -c "^error: justfile: can't be written: " ../errors)" '3 1'

put a.just "$unformatted"; put b.just "$formatted"; put c.just "$unformatted"; ln -s a.just also.just
run --list a.just b.just c.just also.just
row '--list names what it changed' "$status $(text ../output)$(text a.just)$(text c.just)$(cat ../errors)" "0 a.just
c.just
.$formatted.$formatted."
run --list a.just b.just; row 'and nothing that was formatted' "$status $(cat ../output ../errors)" '0 '
run a.just; row 'without it nothing is written' "$status $(cat ../output ../errors)" '0 '
put a.just "$unformatted"; put c.just "$broken"; run --list a.just missing.just c.just
row '--list, and files that fail' "$status $(text ../output)$(grep -c '^error: ' ../errors)" '3 a.just
.2'
for options in '--check --list' '--list --check'; do
    put a.just "$unformatted"; run $options a.just b.just
    row "$options: what would change" "$status $(text ../output)$(text a.just)" "1 a.just
.$unformatted."
done
put d.just "$unformatted"; justfiles --list a.just d.just > /dev/full 2> ../errors
row 'a list that cannot be written: it stops' "$? $(text a.just)$(text d.just)$(grep -c '^error: a.just: ' ../errors)" "3 $formatted.$unformatted.1"
stream "$unformatted" --list -; row '--list of a stream is refused' "$status $(cat ../output)" '3 '
stream "$unformatted" --check --list --name x.just -; row '--check --list of a stream' "$status $(cat ../output)" '1 x.just'
rm also.just

# names that are not UTF-8, and control characters
garbled=$(printf 'b\377d.just'); put a.just "$unformatted"; put c.just "$unformatted"; put "$garbled" "$unformatted"
run a.just "$garbled" c.just
row 'a name that is not UTF-8 is named, and the others are done' "$status $(text a.just)$(text c.just)$(text "$garbled")$(cat ../errors)" \
    "3 $formatted.$formatted.$unformatted.error: b�d.just: can't be read: its name isn't UTF-8"
run "$garbled"; row 'alone it is named too' "$status $(cat ../errors)" "3 error: b�d.just: can't be read: its name isn't UTF-8"
put 'b�d.just' "$unformatted"; run "$garbled" 'b�d.just'
row 'a name that looks like it is another' "$status $(text 'b�d.just')$(cat ../errors)" "3 $formatted.error: b�d.just�: can't be read: its name isn't UTF-8"
rm 'b�d.just'; stream "$unformatted" --check --name "$garbled" -; row 'for a stream it is a name in messages' "$status $(cat ../output)" '1 b�d.just'
rm "$garbled"
escape=$(printf 'e\033[31m.just'); put "$escape" "$unformatted"; run --check "$escape"
row 'control characters of a name are shown' "$status $(cat ../output)" '1 e\u{1b}[31m.just'
run --diff "$escape"; row 'and in a diff' "$status $(head -n 1 ../output)" '1 --- "e\033[31m.just"'
patch -s -p0 < ../output > ../patched 2>&1; row 'which patch takes' "$(text "$escape")" "$formatted."
printf 'a: \033[31m\n' > "$escape"; run "$escape"
row 'and in errors, those of the text too' "$status $(grep -c "$(printf '\033')" ../errors) $(grep -c 'u{1b}' ../errors)" '2 0 3'
rm "$escape"
high=$(printf 'c\302\233d.just'); put "$high" "$unformatted"; run --diff "$high"
row 'control characters after ASCII in a diff' "$status $(head -n 1 ../output)" '1 --- "c\302\233d.just"'
patch -s -p0 < ../output > ../patched 2>&1; row 'which patch takes' "$(text "$high")" "$formatted."
run --list "$high"; put "$high" "$unformatted"; run --list "$high"; row 'and in a list' "$status $(cat ../output)" '0 c\u{9b}d.just'
rm "$high"
mkdir dots; put dots/x.just "$unformatted"; run --diff ./dots/x.just
row 'a diff has no ./' "$status $(head -n 1 ../output)" '1 --- dots/x.just'
git init -q; git apply -p0 < ../output; row 'so git apply takes it' "$? $(text dots/x.just)" "0 $formatted."
run --diff ./dots/x.just; row 'a diff of a formatted file is empty' "$status $(cat ../output)" '0 '
put dots/x.just "$unformatted"; run --diff .//dots/x.just; row 'a name stays relative' "$status $(head -n 1 ../output)" '1 --- .//dots/x.just'
rm -rf dots .git

# a long file
i=0; while [ $i -lt 2100 ]; do echo "name$i := 'x'"; i=$((i + 1)); done > ../middle
{ echo 'a:=1'; cat ../middle; echo 'b:=2'; } | sed "s/\([12]\)$/'\1'/" > long.just; cp long.just ../kept
run --diff long.just; cp ../output ../ours; run long.just
row 'two far changes: the diff is as short as that of GNU diff' "$(wc -l < ../ours)" "$(diff -u ../kept long.just | wc -l)"
cp ../kept long.just; patch -s -p0 < ../ours; run --check long.just; row 'and patch takes it' "$status" 0
rm long.just

put a.just "$unformatted"; put b.just "$broken"; put c.just "$formatted"; put d.just "$unformatted"
run a.just b.just missing.just c.just d.just
row 'bad files keep no others from being done' "$status $(text a.just)$(text b.just)$(text d.just)" "3 $formatted.$broken.$formatted."
row 'errors name the file, its line and column' "$(grep -c 'b.just:1:16$' ../errors) $(grep -c '^error: missing.just: ' ../errors)" '1 1'
run a.just b.just; row 'a rejected file has status 2' "$status" 2
put a.just "$unformatted"; run --check a.just b.just; row 'rejected outweighs not formatted' "$status" 2
row '--check changes nothing' "$(text a.just)" "$unformatted."
run --diff a.just; row '--diff changes nothing' "$(text a.just)" "$unformatted."
put e.just 'a:
	echo
'; put f.just ''
before=$(stat -c '%i %Y %Z' c.just); run c.just f.just
row 'a formatted file is not touched' "$status $(stat -c '%i %Y %Z' c.just)" "0 $before"
printf 'name := "x"\r\n' > crlf.just; run crlf.just
row 'CRLF becomes LF' "$status $(text crlf.just)" "0 $formatted."
printf 'name := "x"' > end.just; run --diff end.just; cp end.just ../kept; patch -s -p0 < ../output
row 'a diff that adds the last line end' "$(text end.just)" "$formatted."
printf 'a:\n\techo {{"x\r"}}\r{{b}}\n\techo\r\r\n' > return.just; run return.just
row 'a body line that ends in a carriage return has a place' "$status $(grep -c 'return.just:3:2$' ../errors)" '2 1'
printf '\377\n' > bytes.just; run bytes.just
row 'a file that is not UTF-8' "$status $(cat ../errors)" '3 error: bytes.just: not UTF-8
 ——▶ bytes.just:1:1'
printf 'a := "\303\274"\nb := "\303\274\303"\n' > bytes.just; run bytes.just
row 'its line and column' "$status $(tail -n 1 ../errors)" '3  ——▶ bytes.just:2:9'
mkdir folder.just; run folder.just; row 'a folder without justfiles' "$status $(cat ../errors)" "3 error: folder.just: can't be read: no justfile was found in it"
mkfifo pipe.just; { printf '%s' "$unformatted" > pipe.just & }; run pipe.just
row 'a pipe is not replaced' "$status $(test -p pipe.just && echo pipe)" '3 pipe'

# the justfiles of a folder
mkdir -p tree/.git tree/b/c tree/empty outside; ln -s ../outside tree/linked; ln -s ../../outside/justfile tree/b/linked.just; mkfifo tree/pipe.just
for name in tree/Justfile tree/.JUSTFILE tree/b/a.JUST tree/b/c/z.just tree/b/c/justfile tree/b-c.just outside/justfile tree/.git/x.just tree/notes tree/b/just tree/b/ajustfile; do
    put "$name" "$unformatted"
done
run --check tree
row 'a folder: its justfiles and those below, in order' "$status $(cat ../output)" '1 tree/.JUSTFILE
tree/Justfile
tree/b-c.just
tree/b/a.JUST
tree/b/c/justfile
tree/b/c/z.just'
(cd tree && justfiles --check .) > ../output; row 'the folder that one is in' "$? $(tail -n 1 ../output)" '1 ./b/c/z.just'
run --list tree/b/ tree/Justfile tree/b
row 'folders and files, in the order of the arguments' "$status $(cat ../output)" '0 tree/b/a.JUST
tree/b/c/justfile
tree/b/c/z.just
tree/Justfile'
put tree/b/c/justfile "$broken"; run --check tree; row 'a rejected justfile of a folder' "$status $(wc -l < ../output) $(grep -c 'tree/b/c/justfile:1:16$' ../errors)" '2 2 1'
put "$(printf 'tree/b/g\377.just')" "$formatted"; put "$(printf 'tree/b/g\377.txt')" x; run --check tree/b
row 'a name in a folder that is not UTF-8' "$status $(grep -v ' [^e]' ../errors | grep -c .) $(grep -c "tree/b/g.*.just: can't be read: its name isn't UTF-8" ../errors)" '3 0 1'
if [ "$(id -u)" = 0 ] && mount --bind outside tree/empty 2> /dev/null; then
    put ../mounted "$unformatted"; : > tree/on.just; mount --bind ../mounted tree/on.just; : > ../mounted; put ../mounted "$unformatted"
    run --check tree; row 'what is mounted in a folder is left out' "$(grep -c 'empty\|on.just' ../output)" 0
    umount tree/empty tree/on.just
fi
rm -r tree outside
mkdir many; i=0; while [ $i -lt 10000 ]; do put "many/$i.just" "$unformatted"; i=$((i + 1)); done
run --check many; row 'a folder of 10,000 files' "$status $(wc -l < ../output) $(LC_ALL=C sort -c ../output && echo sorted)" '1 10000 sorted'
rm -r many

mkdir sub; put sub/target.just "$unformatted"; ln -s sub/target.just link.just; ln -s nowhere dangling.just
run link.just
row 'a link stays, and its file is formatted' "$status $(readlink link.just) $(text sub/target.just)" "0 sub/target.just $formatted."
run dangling.just; row 'a link to nothing' "$status $(readlink dangling.just)" '3 nowhere'
for mode in 644 600 755 754 664 640; do
    put mode.just "$unformatted"; chmod $mode mode.just; run mode.just
    row "permissions stay: $mode" "$status $(stat -c %a mode.just) $(text mode.just)" "0 $mode $formatted."
done
printf '\357\273\277name:="x"\n' > mark.just; run mark.just
row 'a byte order mark is dropped' "$status $(text mark.just)" "0 $formatted."

# what is lost by replacing a file is kept by writing it in place
place() {
    inode=$(stat -c '%i %u %g %a' "$2"); run ${3:-} "$2"
    row "$1 is written in place" "$status $(text "$2")$(stat -c '%i %u %g %a' "$2")" "0 $formatted.$inode"
}
put hard.just "$unformatted"; ln hard.just also.just; place 'a file with two links' hard.just
row 'and its other name has the text' "$(text also.just)" "$formatted."
put group.just "$unformatted"; chmod 660 group.just; place 'a file whose group may do more than others' group.just
long=$(printf '%0250d' 0).just; put "$long" "$unformatted"; place 'a file with a long name' "$long"; rm "$long"
put itself.just "$unformatted"; place 'with --in-place any file' itself.just --in-place
before=$(stat -c '%i %Y %Z' itself.just); run --in-place itself.just
row 'and one that is formatted is not touched' "$status $(stat -c '%i %Y %Z' itself.just)" "0 $before"
for options in '--list --in-place' '--in-place --list'; do
    put itself.just "$unformatted"; run $options itself.just c.just
    row "$options names what it changed" "$status $(cat ../output)" '0 itself.just'
done
for words in '--check --in-place' '--in-place --check' '--diff --in-place' '--in-place -' '--list --in-place -'; do
    put itself.just "$unformatted"; run $words; row "$words is refused" "$status $(cat ../errors)" "3 error: unexpected argument: ${words##* }
see justfiles --help"
done
if command -v setfacl > /dev/null && setfacl -m u:1:rw mode.just 2> /dev/null; then
    put list.just "$unformatted"; chmod 600 list.just; setfacl -m u:1:rw list.just; before=$(getfacl -p list.just)
    place 'a file with an access list' list.just
    row 'and the list stays' "$(getfacl -p list.just)" "$before"
    put denied.just "$unformatted"; chmod 644 denied.just; setfacl -m u:1:--- denied.just; before=$(getfacl -p denied.just)
    run --in-place denied.just
    row 'with --in-place one that only denies stays, too' "$status $(text denied.just)$(getfacl -p denied.just)" "0 $formatted.$before"
    mkdir lists; setfacl -d -m u:1:rwx lists; put lists/a.just "$unformatted"; chmod 600 lists/a.just; run lists/a.just
    row 'a list of the folder gives no more than the mode' "$status $(getfacl -pc lists/a.just | sed -n 's/^user:[^:].*effective:/list /p')$(stat -c %a lists/a.just)" '0 list ---600'
fi
put full.just "$unformatted"; i=0; while [ $i -lt 100 ]; do : > full.just.$i.new; i=$((i + 1)); done; run full.just
row 'what is in the way is named' "$status $(text full.just)$(cat ../errors)" "3 $unformatted.error: full.just: can't be replaced: full.just.0.new to full.just.99.new are in the way"
rm full.just.1.new; run full.just
row 'and what is left over is passed' "$status $(text full.just)$(ls full.just.*.new | wc -l)" "0 $formatted.99"
rm full.just.*.new
put secret 'a secret'; put planted.just "$unformatted"; ln -s secret planted.just.0.new; run planted.just
row 'a link at the name of the new file is not followed' "$status $(text planted.just)$(text secret)" "0 $formatted.a secret."
rm planted.just.0.new
row 'no other file is left over' "$(ls -A | grep -c '\.new$\|\.old$')" 0

# what others do meanwhile
if command -v python3 > /dev/null; then
    cat > ../swap.py <<'END'
import ctypes, sys
swap = ctypes.CDLL(None).renameat2
one, other = (name.encode() for name in sys.argv[1:])
while swap(-100, one, -100, other, 2) == 0:
    pass
END
    mkdir held private; ln -s private held.other; exec 5< held
    for there in "$formatted" ''; do
        python3 ../swap.py held held.other & swapper=$!
        wrong=0; i=0
        while [ $i -lt 600 ]; do
            rm -f private/*; [ -z "$there" ] || put private/justfile "$there"
            put /proc/$$/fd/5/justfile "b:='own'
"
            justfiles held/justfile 2> /dev/null > ../output
            [ "$(cat private/* 2> /dev/null; echo .)" = "$there." ] || wrong=$((wrong + 1))
            i=$((i + 1))
        done
        kill $swapper; wait $swapper 2> /dev/null
        what=planted; [ -z "$there" ] || what=overwritten
        row "a folder is swapped, 600 runs: nothing is $what" "$wrong" 0
    done
    exec 5<&-; rm -r held held.other private
fi
wrong=0; i=0
while [ $i -lt 200 ]; do
    put withdrawn.just "$unformatted"; chmod 644 withdrawn.just
    justfiles withdrawn.just 2> /dev/null & chmod 600 withdrawn.just; wait $!
    [ "$(stat -c %a withdrawn.just)" = 600 ] || wrong=$((wrong + 1))
    rm -f withdrawn.just*; i=$((i + 1))
done
row 'permissions that are withdrawn meanwhile stay so, 200 times' "$wrong" 0

# an output that goes away
mkdir many; i=0; while [ $i -lt 3000 ]; do put "many/a-name-that-is-long-enough-$i.just" "$unformatted"; i=$((i + 1)); done
for option in --check --diff; do
    { justfiles $option many/*.just 2> ../errors; echo $? > ../status; } | head -n 1 > ../output
    row "$option into head: it stops" "$(cat ../status) $(cat ../errors)$(wc -l < ../output)" '3 1'
done
rm -r many

# system calls that fail, are slow, or kill the program
traced() {
    LC_ALL=C strace -f -o ../trace "$@" 2> ../errors > ../output
}
if command -v strace > /dev/null && traced true; then
    put kept.just "$unformatted"
    traced -e trace=chown,lchown,fchown,fchownat,chmod,fchmodat justfiles kept.just
    row 'no owner and no mode is set by a name' "$? $(grep -c 'ch[mo]' ../trace)" '0 0'
    put saved.just "$unformatted"; { sleep 0.5; put saved.just 'b := "y"
'; } &
    traced -e inject=fsync:delay_enter=1500000 justfiles saved.just; status=$?; wait
    row 'what is saved meanwhile stays' "$status $(text saved.just)$(cat ../errors)" '3 b := "y"
.error: saved.just: changed meanwhile'
    put other.just 'b := "y"
'; put saved.just "$unformatted"; { sleep 0.5; mv other.just saved.just; } &
    traced -e inject=fsync:delay_enter=1500000 justfiles saved.just; status=$?; wait
    row 'and what is put in its place' "$status $(text saved.just)" '3 b := "y"
.'
    put swapped.just "$unformatted"; chmod 600 secret; { sleep 0.5; ln -sf secret swapped.just.0.new; } &
    traced -e inject=fchmod:delay_enter=1500000 justfiles swapped.just; wait
    row 'a link that is put in the place of the new file' "$(text secret)$(stat -c %a secret)" 'a secret.600'
    rm -f swapped.just*; put whole.just "$unformatted"; put linked.just "$unformatted"; ln linked.just linked.too
    for file in whole.just linked.just; do
        wrong=
        for call in openat read write pwrite64 fsync ftruncate fchmod rename fstat newfstatat unlink; do
            for number in 1 2 3 4 5 6 7 8; do
                for fault in error=ENOSPC error=EIO signal=KILL; do
                    put $file "$unformatted"; rm -f $file.*
                    (traced -e inject=$call:$fault:when=$number justfiles $file) 2> /dev/null
                    got=$(text $file)
                    copy=$(text $file.0.old 2> /dev/null)
                    case $got in
                    "$unformatted." | "$formatted.") continue ;;
                    esac
                    [ "$copy" = "$unformatted." ] || wrong="$wrong $call:$fault:$number"
                done
            done
        done
        row "each system call fails or kills: $file is as it was, formatted or beside it" "$wrong" ''
        rm -f $file.*
    done
    put linked.just "$unformatted"
    traced -e inject=pwrite64:error=EIO:when=2+ justfiles linked.just
    row 'an error names the copy of what cannot be put back' "$? $(text linked.just.0.old)$(grep -c 'its text is in linked.just.0.old' ../errors)" "3 $unformatted.1"
    rm -f linked.*

    # its text is shorter by its last line, which is so often a line of the recipe
    torn='a           :
    echo x
'; whole='a:
    echo x
'
    wrong=; left=
    for call in pwrite64 fsync fdatasync ftruncate unlink; do
        for number in 1 2 3 4 5 6; do
            rm -f torn.*; put torn.just "$torn"; ln torn.just torn.too
            (traced -e inject=$call:signal=KILL:when=$number justfiles torn.just) 2> /dev/null
            case $(text torn.just) in
            "$torn." | "$whole.") continue ;;
            esac
            run --check torn.just; [ "$status" -gt 1 ] || wrong="$wrong $call:$number"
            left=$(cat ../errors)
        done
    done
    row 'what a kill leaves in place is no justfile' "$wrong" ''
    row 'and its copy is told' "$left" \
        "error: torn.just: can't be read: it is half written: its text is in the copy beside it that ends in .0.old"
    rm -f torn.*; put left.just "$unformatted"; ln left.just left.too
    traced -e inject=unlink:error=EACCES justfiles left.just
    row 'a copy that cannot be removed is named' "$? $(text left.just)$(cat ../errors)" "3 $formatted.error: left.just.0.old: can't be removed"
    rm -f left.*; mkdir ../temporary; put "$long" "$unformatted"
    TMPDIR=../temporary traced -e inject=unlink:error=EACCES justfiles "$long"
    row 'one elsewhere says whose it is' "$? $(ls ../temporary)" "3 justfiles.$(printf '%032d' 0).0.old"
    rm "$long"; put piped.just "$unformatted"; { sleep 0.5; rm piped.just; mkfifo piped.just; } &
    timeout 30 strace -f -o ../trace -e inject=fsync:delay_enter=1500000 justfiles piped.just 2> ../errors; status=$?; wait
    row 'a pipe that is put in its place' "$status $(cat ../errors)" '3 error: piped.just: changed meanwhile'
    rm -f piped.*
fi

# files may have one block
i=0; : > big.just; while [ $i -lt 200 ]; do echo "name$i:='some text that is long enough'"; i=$((i + 1)); done >> big.just
cp big.just ../kept
(trap '' XFSZ; ulimit -f 1; justfiles big.just > ../output 2> ../errors; echo $? > ../status)
row 'a file that would be too big is left as it was' "$(cat ../status) $(cmp big.just ../kept && echo same)" '3 same'
row 'and no other file' "$(ls -A | grep -c '\.new$')" 0
if [ "$(id -u)" = 0 ] && mkdir ../small && mount -t tmpfs -o size=16k none ../small 2> /dev/null; then
    cp ../kept ../small/big.just; run ../small/big.just
    row 'on a full disk a file is left as it was' "$status $(cmp ../small/big.just ../kept && echo same)" '3 same'
    row 'and no other file' "$(ls -A ../small | wc -l) $(grep -c '^error: ../small/big.just: ' ../errors)" '1 1'
    ln ../small/big.just ../small/also.just; run ../small/big.just
    row 'one that is written in place too' "$status $(cmp ../small/big.just ../kept && echo same) $(ls -A ../small | wc -l)" '3 same 2'
    umount ../small
    put mounted.just "$unformatted"; put shown.just "$unformatted"; mount --bind shown.just mounted.just
    run mounted.just; umount mounted.just
    row 'a mounted file' "$status $(text shown.just)$(text mounted.just)" "0 $formatted.$unformatted."
fi
justfiles --diff big.just > /dev/full 2> ../errors; row 'a report that cannot be written' "$?" 3
row 'and an error that says so' "$(grep -c '^error: big.just: ' ../errors)" 1

# as another user, whom permissions stop
as_nobody() {
    setpriv --reuid 65534 --regid 65534 --clear-groups justfiles "$@" 2> ../errors
}
if [ "$(id -u)" = 0 ] && command -v setpriv > /dev/null; then
    mkdir other && put other/readonly.just "$unformatted" && chmod 444 other/readonly.just && chmod 777 other . ..
    as_nobody other/readonly.just
    row 'no permission to write the file' "$? $(text other/readonly.just)" "3 $unformatted."
    chmod 666 other/readonly.just; chmod 555 other
    as_nobody other/readonly.just
    row 'no permission to write its folder' "$? $(text other/readonly.just)$(ls "${TMPDIR:-/tmp}" | grep -c '^justfiles.*old$')" "0 $formatted.0"
    put other/readonly.just "$unformatted"; chmod 777 other
    as_nobody other/readonly.just
    row 'a file of another owner' "$? $(text other/readonly.just)$(stat -c '%u %g %a' other/readonly.just)" "0 $formatted.0 0 666"
    put other/readonly.just "$unformatted"; chmod 000 other/readonly.just
    as_nobody other/readonly.just
    row 'no permission to read the file' "$?" 3
    chown 65534:65534 other/readonly.just; chmod 640 other/readonly.just; justfiles other/readonly.just
    row 'the owner stays' "$? $(stat -c '%u %g %a' other/readonly.just)" '0 65534 65534 640'
fi

# examples/justfmt.vim, in Vim without a terminal
command -v vim > /dev/null || echo 'files.sh: no vim, so examples/justfmt.vim was not tried' >&2
if command -v vim > /dev/null; then
    printf 'source %s\n' "$top/examples/justfmt.vim" > ../vimrc
    edit() {
        vim -i NONE -Nu ../vimrc -n -es "$@" -c 'qa!' justfile < /dev/null > /dev/null 2>&1
    }
    put justfile "$broken"; edit -c 'redir! > ../messages' -c write -c 'redir END'
    row 'Vim saves a rejected file' "$(text justfile)" "$broken."
    row 'and shows its error and place after its own message' "$(grep -v '^$' ../messages | tail -n 2 | sed 's/^".*written$/written/')" \
        "written
1:16 error: expected '*', identifier, or '(', but found end of line"
    put justfile 'a:="1"



b := "2"
c:="3"
d := "4"
'
    edit -c '5mark b' -c '6mark c' -c '7mark d' -c '7' -c write -c "call writefile([line(\"'b\") . line(\"'c\") . line(\"'d\") . line('.')], '../marks')"
    row 'Vim keeps marks and the cursor' "$(cat ../marks) $(text justfile)" '3455 a := "1"

b := "2"
c := "3"
d := "4"
.'
    printf 'name:="x"\r\n' > justfile; edit -c write; row 'Vim saves CRLF as LF' "$(text justfile)" "$formatted."
    put justfile "$unformatted"; PATH=$(echo "$PATH" | cut -d: -f2-) edit -c 'redir! > ../messages' -c write -c 'redir END'
    row 'Vim tells that there is no program' "$(text justfile) $(grep -c 'justfiles.*not found' ../messages)" "$unformatted. 1"
    edit -c 'source ../vimrc' -c 'redir! > ../messages' -c 'autocmd justfmt BufWritePre' -c 'redir END'
    row 'sourced twice it runs once' "$(grep -c 'Format()' ../messages)" 1
    for name in .JUSTFILE Up.Just; do
        put "$name" "$unformatted"; vim -i NONE -Nu ../vimrc -n -es -c write -c 'qa!' "$name" < /dev/null > /dev/null 2>&1
        row "Vim formats $name" "$(text "$name")" "$formatted."; rm "$name"
    done
    put notjust "$unformatted"; vim -i NONE -Nu ../vimrc -n -es -c write -c 'qa!' notjust < /dev/null > /dev/null 2>&1
    row 'and no other file' "$(text notjust)" "$unformatted."; rm notjust
    rm justfile
fi

# the same in a terminal of 80 columns
vim_in() {
    rm -f ../state
    tmux -L "justfmt$$" -f /dev/null new-session -d -x 80 -y 24 "env PATH='$PATH' TERM=screen vim -i NONE -Nu ../vimrc -n '$1'; echo ended > ../state"
    sleep 1
}
keys() {
    tmux -L "justfmt$$" send-keys "$@"; sleep 0.5
}
screen() {
    tmux -L "justfmt$$" capture-pane -p
}
state() {
    keys ":call writefile([join([$1])], '../state')" Enter; cat ../state
    keys ':qa!' Enter
}
two_windows="line('.'), line(\"'b\"), line(\"'c\"), line('.', win_getid(1)), col('.', win_getid(1))"
if command -v vim > /dev/null && command -v tmux > /dev/null; then
    put two.just 'a:="1"



b := "2"
c:="3"
d := "4"
'
    vim_in two.just; keys ':split' Enter; keys '7G$'; keys ':wincmd w' Enter; keys '5Gmb6Gmc'; keys ':w' Enter
    row 'two windows: lines go, and cursors and marks stay' "$(state "$two_windows")" '4 3 4 5 8'
    put two.just 'a := "1"
[private, no-cd, linux]
b:
    echo 1
d := "4"
'
    vim_in two.just; keys ':split' Enter; keys '5G$'; keys ':wincmd w' Enter; keys '3Gmb4Gmc'; keys ':w' Enter
    row 'two windows: lines come' "$(state "$two_windows")" '6 5 6 7 8'
    put broken.just "$broken"; vim_in broken.just; keys ':wq' Enter
    row ':wq of a rejected file tells it' "$(screen | grep '^1:16 error: ') $(cat ../state 2> /dev/null)" \
        "1:16 error: expected '*', identifier, or '(', but found end of line (ENTER) "
    keys Enter; row 'and ends with ENTER' "$(cat ../state)" ended
    vim_in broken.just; keys ':w' Enter; keys ':q' Enter; row 'later it ends at once' "$(cat ../state)" ended
    put long.just 'set a-name-that-is-so-long-that-no-screen-of-eighty-columns-has-a-place-for-it := true
'
    vim_in long.just; keys ':w' Enter
    row 'a long message is cut off, and asks for no key' "$(screen | grep '^1:5 ') $(state "line('.')")" \
        '1:5 error: unknown setting `a-name-that-is-so-long-that-no-screen-of 1'
    rm two.just broken.just long.just
elif command -v vim > /dev/null; then
    echo 'files.sh: no tmux, so examples/justfmt.vim was not tried in a terminal' >&2
fi

# the hook
cd .. && git init -q repository && cd repository || exit 2
git config user.name x; git config user.email x@example.org; git config commit.gpgsign false
cp "$top/examples/pre-commit" .git/hooks/pre-commit && chmod +x .git/hooks/pre-commit
commit() {
    git commit -q -m x "$@" > ../output 2> ../errors
    status=$?
}
put justfile "$formatted"; git add .; commit; row 'the hook passes a formatted justfile' "$status" 0
for name in 'with blank.just' "quote's.just" 'double"quote.just' 'back\slash.just' 'new
line.just' '-n.just' 'UP.JUST' 'JUSTFILE2.just' 'sub folder/.JustFile'; do
    mkdir -p 'sub folder'; put "./$name" "$unformatted"; git add .; commit
    row "it rejects $name unformatted" "$status" 1
    put "./$name" "$formatted"; git add .; commit
    row "and passes it formatted" "$status" 0
done
put justfile "$unformatted"; git add justfile; put justfile "$formatted"; commit
row 'what is staged counts, not what is formatted after' "$status" 1
git add justfile; put justfile "$unformatted"; put other.txt x; git add other.txt; commit
row 'and not what is unformatted after' "$status" 0
git checkout -q justfile; put justfile "$broken"; git add justfile; commit
row 'it tells a rejected file, with its place' "$status $(grep -c 'justfile:1:16$' ../errors)" '1 1'
git reset -q --hard; put justfile "$unformatted"; git add justfile; commit
row 'and says what to run' "$status $(grep -c '(run: justfiles -- justfile && git add -- justfile)$' ../errors)" '1 1'
git reset -q --hard; echo '*.just text eol=crlf' > .gitattributes; put crlf.just "$formatted"; git add .; commit
row 'a formatted file that git converts' "$status" 0
git rm -qf .gitattributes crlf.just; commit
mkdir ../relative; (TMPDIR=../relative; export TMPDIR; put justfile "$formatted
"; git add justfile; commit); row 'nothing stays in a relative TMPDIR' "$(ls ../relative)" ''
git reset -q --hard; put "$garbled" "$unformatted"; git add .; commit
row 'a name that is not UTF-8 is told' "$status $(LC_ALL=C grep -ac "$(printf 'not formatted: b\377d.just')" ../errors)" '1 1'
put "$garbled" "$formatted"; git add .; commit; row 'and passes it formatted' "$status" 0
git rm -q "$garbled"; commit
put "$escape" "$unformatted"; git add .; commit
row 'a name with a control character is told without it' "$status $(grep -c '^not formatted: e?\[31m.just' ../errors)" '1 1'
rm "$escape"; git add .
git reset -q --hard; git rm -q 'with blank.just'; commit; row 'a file that is deleted' "$status" 0
mkdir stage; put stage/1:a.just "$unformatted"; git mv -f "quote's.just" "quote's too.just"; put "quote's too.just" "$unformatted"; git add .; commit
row 'a name like that of a stage, and one with a quote' "$status $(grep -c "^not formatted: stage/1:a.just (run: justfiles -- 'stage/1:a.just'" ../errors) $(grep -c "git add -- 'quote'\\\\''s too.just')" ../errors)" '1 1 1'
git reset -q --hard; put 0:a.just "$unformatted"; git add .; commit; row 'a name that begins with a stage' "$status" 1
id=$(git rev-parse :0:0:a.just); rm -f ".git/objects/$(echo "$id" | cut -c1-2)/$(echo "$id" | cut -c3-)"
sh .git/hooks/pre-commit 2> ../errors; row 'an object that is missing' "$? $(grep -c '^rejected: 0:a.just' ../errors)" '1 1'
git reset -q --hard; git clean -fdq
mkdir -p deep/er; i=0; while [ $i -lt 300 ]; do put "deep/er/$i.just" "$formatted"; i=$((i + 1)); done; put deep/er/last.just "$unformatted"; git add .
(cd deep && sh ../.git/hooks/pre-commit 2> ../../errors); row 'many files, from a folder below' "$? $(cat ../errors)" '1 not formatted: deep/er/last.just (run: justfiles -- deep/er/last.just && git add -- deep/er/last.just)'
git reset -q --hard; git clean -fdq
git mv "quote's.just" renamed.just; commit; row 'a file that is renamed' "$status" 0
git mv renamed.just again.just; put again.just "$unformatted"; git add .; commit
row 'a file that is renamed and unformatted' "$status" 1
git reset -q --hard; ln -s justfile link.just; ln -s nowhere dangling.just; git add .; commit
row 'links' "$status" 0
put justfile "$unformatted"; commit -a; row 'commit -a' "$status" 1
git reset -q --hard; put x.txt y; git add .; commit; row 'no justfile at all' "$status" 0
step=$(sed -n 's/^  run: \(justfiles .*\)/\1/p' "$top/docs/EDITORS.md")
known=$(sed -n '/^git ls-files /p' "$top/docs/EDITORS.md")
sh -c "$step" > ../output 2> ../errors; row 'the step of CI passes a formatted file' "$?" 0
put justfile "$unformatted"; sh -c "$step" > ../output 2> ../errors
row 'and shows the diff of another' "$? $(grep -c '^+name := ' ../output)" '1 1'
put justfile "$broken"; sh -c "$step" > ../output 2> ../errors
row 'and the error of one that is rejected' "$? $(grep -c 'justfile:1:16$' ../errors)" '2 1'
git reset -q --hard; put sub.JUST "$unformatted"; sh -c "$step" > ../output 2> ../errors
row 'and of one in capitals' "$? $(grep -c '^+name := ' ../output)" '1 1'
git add .; sh -c "$known" > ../output 2> ../errors; row 'so does the command for what git knows' "$? $(cat ../output)" '123 sub.JUST'
git reset -q --hard; git rm -q dangling.just; put -x.just "$formatted"; git add .; sh -c "$known" > ../output 2>&1; row 'which passes formatted files' "$? $(cat ../output)" '0 '
git reset -q --hard
if command -v pre-commit > /dev/null && git -C "$top" status > /dev/null 2>&1; then
    put justfile "$unformatted"; git add .
    PRE_COMMIT_HOME=$work/pre-commit pre-commit try-repo "$top" justfiles --all-files > ../output 2>&1
    row 'pre-commit formats, and names what it changed' "$? $(text justfile) $(grep -cx justfile ../output)" "1 $formatted. 1"
    git add .; PRE_COMMIT_HOME=$work/pre-commit pre-commit try-repo "$top" justfiles-check --all-files > ../output 2>&1
    row 'and passes what is formatted' "$?" 0
else
    echo 'files.sh: no pre-commit, or the repository is of another user: .pre-commit-hooks.yaml was not tried' >&2
fi
put justfile "$formatted
"; git add .
rm ../bin/justfiles; commit
row 'no program on PATH' "$status $(cat ../errors)" '1 pre-commit: justfiles is not on PATH'
exit $failed
