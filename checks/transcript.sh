#!/usr/bin/env bash
# The README's transcript, typed anew: each of its commands in one shell, one after another, with the answers that stand below it. It
# runs in a folder that stands for the top and has the built program under the launcher's name, so that nothing is built here.
set -u
top=$(cd "$(dirname "$0")/.." && pwd)
program=$top/crates/svfs/out/svfs
work=$(mktemp -d); trap 'rm -rf "$work"' EXIT

[ -x "$program" ] || { echo "checks/transcript.sh: $program is not built" >&2; exit 1; }
mkdir -p "$work/top/crates/svfs/data" "$work/tmp"
ln -s "$program" "$work/top/svfs"
cp "$top/crates/svfs/data/E" "$work/top/crates/svfs/data/E"

# The indented lines from the first that begins with $ on, to the next that is not indented.
awk '/^    \$ / { begun = 1 } begun && !/^    / { exit } begun { print substr($0, 5) }' "$top/README.md" >"$work/wanted"
[ -s "$work/wanted" ] || { echo "checks/transcript.sh: the README has no transcript" >&2; exit 1; }

cd "$work/top" || exit 1
export TMPDIR=$work/tmp
while IFS= read -r command; do
  printf '$ %s\n' "$command"
  eval "$command"
done < <(sed -n 's/^\$ //p' "$work/wanted") >"$work/got" 2>&1

if ! diff "$work/wanted" "$work/got" >"$work/difference"; then
  echo "checks/transcript.sh: the README's transcript (<) and what is answered (>) differ" >&2
  cat "$work/difference" >&2
  exit 1
fi
