#!/bin/sh
# Tries the built program justfile_server: server.sh [PROGRAM [EDITS]]
#
# Edits a justfile at random and compares what the server says with what a new one says of the whole text, and sends
# what is no message (server.py); asks about long texts (answers.py), breaks texts and types into long ones (parts.py),
# renames at random (renames.py). Then drives Neovim without a screen, with the lines that docs/EDITORS.md has for it
# (server.lua), and Emacs with eglot (server.el), where they are. Prints a row for each part. Ends with 1 if one ended
# otherwise than it should.
set -u
top=$(cd "$(dirname "$0")/.." && pwd)
program=${1:-$top/crates/justfile_server/out/justfile_server}
[ -x "$program" ] || { echo "server.sh: no program $program: rt run in crates/justfile_server builds it" >&2; exit 2; }
program=$(realpath "$program")
work=$(mktemp -d) || exit 2
trap 'rm -rf "$work"' EXIT
status=0
for words in '--help:A server' '-h:A server' '--version:justfile_server, commit ' '-V:justfile_server, commit '; do
    case $(timeout 10 "$program" "${words%%:*}" < /dev/null) in
    "${words#*:}"*) echo "${words%%:*}: as it should" ;;
    *) echo "${words%%:*}: not as it should"; status=1 ;;
    esac
done
python3 "$top/bench/server.py" "$program" "${2:-1000}" || status=1
python3 "$top/bench/answers.py" "$program" || status=1
python3 "$top/bench/parts.py" "$program" || status=1
python3 "$top/bench/renames.py" "$program" || status=1
printf 'e:="é𝄞\nbuild: clean\n  echo {{e}}\nclean:\n  rm -rf out\n' > "$work/justfile"
if command -v nvim > /dev/null; then
    sed -n '/^```lua$/,/^```$/p' "$top/docs/EDITORS.md" | sed '/^```/d' > "$work/init.lua"
    mkdir "$work/bin" && ln -s "$program" "$work/bin/justfile_server"
    (cd "$work" && PATH=$work/bin:$PATH HOME=$work timeout 120 \
        nvim --headless -i NONE -u init.lua justfile -c "luafile $top/bench/server.lua") || status=1
else
    echo "no nvim: Neovim isn't tried"
fi
if emacs --batch --no-init-file --eval "(require 'eglot)" > /dev/null 2>&1; then
    (cd "$work" && HOME=$work SERVER=$program JUSTFILE=$work/justfile timeout 120 \
        emacs --batch --no-init-file -l "$top/bench/server.el" 2> /dev/null) || status=1
else
    echo "no emacs with eglot: it isn't tried"
fi
exit $status
