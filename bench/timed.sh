# Sourced by the scripts that time the program's commands. It names the top of the repository, a folder that goes at the end, and
# the program, which is built if need be. `timed NAME WORDS` tells the least of five runs of the words, in milliseconds, and the
# last line that they wrote.
top=$(cd "$(dirname "$0")/.." && pwd)
work=$(mktemp -d)
trap 'rm -rf "$work"' EXIT
"$top/svfs" check "$top/crates/svfs/data/E" >/dev/null
program=$top/crates/svfs/out/svfs

timed() {
    local name=$1 best=; shift
    for _ in 1 2 3 4 5; do
        local start end
        start=$(date +%s%N); "$@" >"$work/out" 2>&1 || true; end=$(date +%s%N)
        [ -n "$best" ] && [ $((end - start)) -ge "$best" ] || best=$((end - start))
    done
    printf '%-22s %6d.%03d ms   %s\n' "$name" $((best / 1000000)) $((best / 1000 % 1000)) "$(tail -1 "$work/out")"
}
