#!/usr/bin/env bash
# Times `svfs mkfs` of an image of 64 MiB, which is the greatest, beside mkfs.minix on a file of that length. Run it at the top
# of the repository, where the program is built: bench/mkfs.sh. It wants mkfs.minix.
#
# svfs new     the file is not there
# svfs again   in place of the image that was made before
# svfs least   four blocks: what is left is the start of the program
# dd           as many writes of 1,024 bytes to a new file as the image has blocks
# mkfs.minix   writes its tables and leaves the blocks behind them alone; svfs reads each block, and writes those that differ
set -eu
. "$(dirname "$0")/timed.sh"

made_new() {
    rm -f "$work/new"
    "$program" mkfs "$work/new" 65536 20000
}

written_new() {
    rm -f "$work/written"
    dd if=/dev/zero of="$work/written" bs=1024 count=65536 status=none
}

timed 'svfs new' made_new
timed 'svfs again' "$program" mkfs "$work/new" 65536 20000
timed 'svfs least' "$program" mkfs "$work/least" 4 2
timed dd written_new
truncate -s 64M "$work/minix"
timed 'mkfs.minix' mkfs.minix -2 -n 30 -i 20000 "$work/minix"
"$program" check "$work/new"
