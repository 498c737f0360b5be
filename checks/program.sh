#!/usr/bin/env bash
# The built program at the real edge: files, standard output and standard error. Each row has a status and both texts.
set -u
top=$(cd "$(dirname "$0")/.." && pwd)
program=$top/crates/svfs/out/svfs
image=$top/crates/svfs/data/E
work=$(mktemp -d); trap 'rm -rf "$work"' EXIT
failed=0

row() { # status, what standard output gets, what standard error gets, words
  local status=$1 out=$2 note=$3; shift 3
  "$program" "$@" >"$work/out" 2>"$work/note"; local got=$?
  if [ "$got" != "$status" ] || [ "$(cat "$work/out")" != "$out" ] || [ "$(cat "$work/note")" != "$note" ]; then
    echo "checks/program.sh: svfs $*: status $got, '$(cat "$work/out")', '$(cat "$work/note")'; wanted $status, '$out', '$note'" >&2
    failed=1
  fi
}

[ -x "$program" ] || { echo "checks/program.sh: $program is not built" >&2; exit 1; }
cp "$image" "$work/image"; chmod 444 "$work/image"
printf 'x' >"$work/short"
row 0 'hello' '' cat "$work/image" 3
row 1 '' 'svfs: words not understood' cat "$work/image"
row 1 '' 'svfs: words not understood'
row 2 '' 'svfs: image refused: 1 Magic 0' cat "$work/short" 3
row 2 '' 'svfs: image refused: 1 Magic 0' cat /dev/null 3
row 5 '' 'svfs: file fault' cat "$work/none" 3
row 5 '' 'svfs: file fault' cat "$work" 3
row 9 '' 'svfs: no such file' cat "$work/image" 2
row 0 'ok blocks 5 free 0 inodes 16 used 2' '' check "$work/image"
row 2 '' 'svfs: image refused: 1 Magic 0' check "$work/short"
row 5 '' 'svfs: file fault' check "$work/none"
row 1 '' 'svfs: words not understood' check
printf 'svj 1 1 100\n1 drop 2 = kept\n1 drop 2 = kept\n0 purge = done\n' >"$work/journal"
printf 'svj 1 1 100\n1 drop 2 = kept\n1 drop 2 = freed\n0 purge = done\n' >"$work/illegal"
row 0 $'inode 2 d 755 links 2 size 48 pages 1\ninode 3 f 644 links 1 size 6 pages 1' '' replay "$work/image" "$work/journal"
row 8 '' 'svfs: journal line 3 refused' replay "$work/image" "$work/illegal"
row 8 '' 'svfs: journal line 1 refused' replay "$work/image" /dev/null
row 5 '' 'svfs: file fault' replay "$work/image" "$work/none"

row 0 '' '' mkfs "$work/made" 64 32
row 0 'ok blocks 64 free 59 inodes 32 used 1' '' check "$work/made"
row 9 '' 'svfs: no such file' cat "$work/made" 2
row 0 'inode 2 d 755 links 2 size 32 pages 1' '' replay "$work/made" "$work/journal"
if [ "$(od -An -v -tx1 -j512 -N20 "$work/made" | tr -d ' \n')" != 5356354602000400400000000a001e000e000000 ]; then
  echo "checks/program.sh: the superblock that was made begins otherwise" >&2; failed=1
fi
row 0 '' '' mkfs "$work/made" 4 2
row 0 'ok blocks 4 free 0 inodes 16 used 1' '' check "$work/made"
row 1 '' 'svfs: words not understood' mkfs "$work/unmade" 3 2
row 1 '' 'svfs: words not understood' mkfs "$work/unmade" 8 81
row 1 '' 'svfs: words not understood' mkfs "$work/unmade" 65537 2
if [ -e "$work/unmade" ]; then echo "checks/program.sh: an image of refused words was made" >&2; failed=1; fi
row 5 '' 'svfs: file fault' mkfs "$work" 4 2
row 5 '' 'svfs: file fault' mkfs "$work/none/made" 4 2

"$program" cat "$work/image" 3 >/dev/full 2>"$work/note"
if [ $? != 6 ] || [ "$(cat "$work/note")" != 'svfs: write fault' ]; then
  echo "checks/program.sh: a full device is not status 6" >&2; failed=1
fi
"$program" cat "$work/image" 9 2>/dev/full >"$work/out"
if [ $? != 9 ]; then echo "checks/program.sh: a note that cannot be written changes the status" >&2; failed=1; fi
cmp -s "$image" "$work/image" || { echo "checks/program.sh: the image changed" >&2; failed=1; }
exit $failed
