#!/usr/bin/env bash
# Times `svfs check` on images of 64 MiB beside fsck.minix -f and e2fsck -fn on images with as many files and bytes. Run it at
# the top of the repository, where the program is built: bench/check.sh. It wants python3, mkfs.minix and mke2fs.
#
# files    200 directories with 90 files of 2,500 bytes each
# wide     one directory with 1,000,000 entries, which name 1,000 files
# deep     30,000 directories, each in the one before
# named    one file that 1,000 entries name
# empty    the root alone: a chain of over 65,000 free blocks
# unread   `files` with a wrong first byte: what is left is the reading of the image file into memory
set -eu
. "$(dirname "$0")/timed.sh"
python3 "$top/bench/images.py" "$work"

for image in files wide deep named empty unread; do
    timed "svfs $image" "$program" check "$work/$image"
done
timed 'fsck.minix files' fsck.minix -f "$work/files.minix"
timed 'e2fsck files' e2fsck -fn "$work/files.ext2"
