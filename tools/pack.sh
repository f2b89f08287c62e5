#!/bin/sh
# Packs the proved libraries of this checkout, for callers that are proved elsewhere: pack.sh ARCHIVE [CRATE]
#
# Run it where `rt check` or `rt ci` has built the library CRATE, or else justfile_syntax, from these sources. The archive, ARCHIVE
# (as libraries.tar.zst), holds that library and those below it, a sum of the sources that each was built of, crates.txt
# and the kit's version. check_over.py proves a caller over it, and refuses it where its sums or its kit are others.
set -eu
archive=$1
crate=${2:-justfile_syntax}
case $archive in /*) ;; *) archive=$PWD/$archive ;; esac
top=$(cd "$(dirname "$0")/.." && pwd)
work=$(mktemp -d)
trap 'rm -rf "$work"' EXIT
cd "$top"
python3 tools/check_over.py --pack "$crate" "$work" >"$work/names"
tar -c -f - -C "$work" sums kit -C "$top" crates.txt -T "$work/names" | zstd -q -T0 -f -o "$archive"
echo "$archive: $(wc -l <"$work/names") libraries, $(du -h "$archive" | cut -f1)"
