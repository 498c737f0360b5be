#!/usr/bin/env bash
# The launcher ./svfs, over a toolchain that only notes what it is asked: what it says without one, what it proves and in which order,
# and what makes it prove again.
set -u
top=$(cd "$(dirname "$0")/.." && pwd)
work=$(mktemp -d); trap 'rm -rf "$work"' EXIT
failed=0
tell() { echo "checks/launcher.sh: $*" >&2; failed=1; }

# A copy of what the launcher reads, and the commands that it may use, without rt.
clone=$work/clone asked=$work/asked
mkdir -p "$clone/crates" "$work/bin" "$work/kit" "$work/tmp"
cp "$top/svfs" "$top/crates.txt" "$top/HANDLES" "$clone"
for crate in "$top"/crates/*/; do
  for folder in src data; do
    [ ! -d "$crate$folder" ] || { mkdir -p "$clone/crates/$(basename "$crate")" && cp -r "$crate$folder" "$clone/crates/$(basename "$crate")"; }
  done
done
for tool in bash env dirname readlink find sed grep sort xargs sha256sum cat touch mkdir cp mktemp rm sleep head tail flock; do
  ln -s "$(command -v "$tool")" "$work/bin/$tool"
done

# What it notes is a line `begin NAME` and a line `end NAME`. Two crates that do not wait for each other meet: each waits until the other
# has begun, and fails if it never does. Another waits until the launcher has shown how far it is.
cat >"$work/kit/rt" <<'RT'
#!/usr/bin/env bash
name=$(basename "$PWD")
echo "begin $name" >>"$ASKED"
echo 'so far: 1 of 9 functions checked'
[ ! -e out/kept ] || echo "goes on $name" >>"$ASKED"
mkdir -p out && touch out/kept
[ "$name" != "${FAILS-}" ] || { echo "error: $name is not proved"; exit 1; }
await() { for _ in $(seq 600); do grep -q "$1" "$2" && return; sleep 0.1; done; echo "error: $name waits for $1"; exit 1; }
meet() { await "^begin $1\$" "$ASKED"; }
case $name in
  sv_form) meet sv_dev ;;
  sv_dev) meet sv_form ;;
  sv_plain) await 'now: sv_plain (1 of 9)' "$NOTE" ;;
  sv_check) meet sv_journal ;;
  sv_journal) meet sv_check ;;
  svfs) mkdir -p out && printf '#!/usr/bin/env bash\necho "program: $*"\n' >out/svfs && chmod +x out/svfs ;;
esac
echo "end $name" >>"$ASKED"
RT
chmod +x "$work/kit/rt"
for tool in seq basename chmod; do ln -s "$(command -v "$tool")" "$work/kit/$tool"; done

launch() { # PATH, words: leaves status, out and note
  local path=$1; shift
  env -i PATH="$path" TMPDIR="$work/tmp" ASKED="$asked" NOTE="$work/note" FAILS="${fails-}" "$clone/svfs" "$@" >"$work/out" 2>"$work/note" </dev/null
  status=$?
}
alone=$work/bin with_rt=$work/kit:$work/bin
: >"$asked"

# Help needs no toolchain. It names each command of the README.
for word in '' -h --help; do
  launch "$alone" ${word:+"$word"}
  [ "$status" = 1 ] || tell "help by '$word' has status $status"
  [ "$(cat "$work/note")" = 'svfs: words not understood' ] || tell "help by '$word' notes '$(cat "$work/note")'"
  [ "$(sed 's/^svfs \([a-z]*\( [A-Z][A-Z]*\)*\) .*/\1/' "$work/out")" = "$(sed -n 's/^| `\([a-z]* [A-Z ]*\)` |.*/\1/p' "$top/README.md")" ] ||
    tell "help by '$word' and the README name other commands"
done

# A missing toolchain names itself in one line.
launch "$alone" check image
[ "$status" = 69 ] || tell "without a toolchain the status is $status"
[ "$(cat "$work/note")" = "svfs: the toolchain's command rt is not on the PATH" ] || tell "without a toolchain: $(cat "$work/note")"

# What is not proved is told, with where all that was said stands, and nothing runs.
fails=sv_plain launch "$with_rt" check image
[ "$status" = 70 ] || tell "where a crate is not proved the status is $status"
grep -q 'error: sv_plain is not proved' "$work/note" || tell "the error of a crate is not shown"
grep -q '^svfs: sv_plain could not be built; all that was said is in /' "$work/note" || tell "it is not said which crate is not proved"
[ ! -s "$work/out" ] || tell "something ran that was not proved"

# The next run goes on with what the crates' copies kept.
# Each crate of the program is proved once, after those that it stands on; crates that do not wait for each other met.
: >"$asked"
launch "$with_rt" check image
[ "$status" = 0 ] && [ "$(cat "$work/out")" = 'program: check image' ] || tell "it was not built: $status, $(cat "$work/note")"
[ "$(sed -n 's/^begin //p' "$asked" | LC_ALL=C sort | tr '\n' ' ')" = 'sv_check sv_dev sv_form sv_journal sv_plain sv_session svfs ' ] ||
  tell "other crates were proved: $(cat "$asked")"
place() { grep -n "^$1\$" "$asked" | sed 's/:.*//'; }
sed -n 's/^\([a-z_]*\)[^:]*: /\1 /p' "$top/crates.txt" | while read -r crate below; do
  for name in $below; do
    if grep -q "^begin $crate\$" "$asked" && grep -q "^end $name\$" "$asked"; then
      [ "$(place "end $name")" -lt "$(place "begin $crate")" ] || echo "$crate began before $name was proved"
    fi
  done
done >"$work/order"
[ ! -s "$work/order" ] || tell "$(cat "$work/order")"
grep -q '^goes on sv_plain$' "$asked" || tell "what was kept is gone"
[ -z "$(find "$work/tmp" -name 'svfs-proving-*')" ] || tell "the copies are left"
[ -z "$(find "$clone/crates/svfs/out" -name '*.rt')" ] || tell "a copy stands in the checkout"

# Nothing is proved again where nothing changed, nor where files were only touched; a change is.
runs_again() { # what was done, how often rt is to be asked
  : >"$asked"
  launch "$with_rt" check image
  [ "$(cat "$work/out")" = 'program: check image' ] || tell "$1: it did not run"
  [ "$(grep -c '^begin svfs$' "$asked")" = "$2" ] || tell "$1: rt was asked $(grep -c . "$asked") times"
}
runs_again 'nothing changed' 0
find "$clone/crates" -name '*.rt' -exec touch {} +
touch "$clone/crates.txt"
runs_again 'files were touched' 0
echo '// one line more' >>"$clone/crates/sv_form/src/lib.rt"
runs_again 'a file changed' 1
echo '// one line more' >>"$clone/crates/sv_turn/src/lib.rt"
runs_again 'a crate changed that the program does not stand on' 0
rm "$clone/crates/sv_form/src/$(cd "$clone/crates/sv_form/src" && echo * | sed 's/ .*//')"
runs_again 'a file is gone' 1
exit $failed
