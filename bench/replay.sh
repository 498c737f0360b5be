#!/usr/bin/env bash
# Times `svfs replay` of journals of 100 MB over an image of 64 MiB that `svfs mkfs` made. Run it at the top of the repository,
# where the program is built: bench/replay.sh. It wants python3.
#
# looks    short lines: `stat`, `look` and `drop`
# writes   long lines: 1,024 bytes are written over the same page again and again
# wide     4,000 files are made in one directory
# promises 100 promises of as many bytes as a file may have, for which there is no room
# none     no entry: what is left is the check and the load of the image
set -eu
. "$(dirname "$0")/timed.sh"
"$program" mkfs "$work/image" 65536 20000

for kind in looks writes wide promises none; do
    python3 "$top/bench/journals.py" "$kind" >"$work/$kind"
    timed "$kind, $(wc -l <"$work/$kind") lines" "$program" replay "$work/image" "$work/$kind"
done
