#!/usr/bin/env bash
# Tries each link of the documents: the file that it names is there, and so is the heading behind a #. A path in backticks that begins
# with a folder of the top has to be there too, and a name in backticks, as `sv_bmap::lookup`, has to stand in the code of that crate.
# Links to other places than this repository are not tried.
set -u
cd "$(dirname "$0")/.." || exit 1
failed=0

tell() { echo "checks/links.sh: $1: $2" >&2; failed=1; }

# The names by which a link reaches the headings of a document: lower case, without punctuation, with - for a space.
headings() { sed -n 's/^##* //p' "$1" | tr '[:upper:]' '[:lower:]' | sed 's/[^a-z0-9 _-]//g; s/ /-/g'; }

for page in *.md docs/*.md; do
  for link in $(grep -oE '\]\([^)[:space:]]+\)' "$page" | sed 's/^](//; s/)$//'); do
    case $link in http://* | https://*) continue ;; esac
    file=${link%%#*}
    target=$(dirname "$page")/$file
    [ -n "$file" ] || target=$page
    if [ ! -e "$target" ]; then
      tell "$page" "$link is not there"
    elif [ "$link" != "$file" ] && ! headings "$target" | grep -qxF -- "${link#*#}"; then
      tell "$page" "$link names no heading"
    fi
  done
  for path in $(grep -oE '`(crates|docs|checks|bench|\.ci)/[A-Za-z0-9_./-]+`' "$page" | tr -d '`'); do
    case $path in *..*) continue ;; esac
    [ -e "$path" ] || tell "$page" "$path is not there"
  done
  for name in $(grep -oE '`sv[a-z_]*(::[A-Za-z_]+)+`' "$page" | tr -d '`' | sort -u); do
    grep -rqwE --include='*.rt' "(fn|struct|enum|trait|type|const) ${name##*::}" "crates/${name%%::*}/src" || tell "$page" "$name is not there"
  done
done
exit $failed
