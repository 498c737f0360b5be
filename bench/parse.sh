#!/usr/bin/env bash
# Times the parse of scripts of 4, 8 and 16 MiB. Half of each text is `write` lines whose bytes are kept, half is
# `unlink` lines with long paths. Run it at the top of the repository: bench/parse.sh
# The program stands in a copy of the crates, in a temporary folder, since the gate takes no crate that only measures.
set -eu
top=$(cd "$(dirname "$0")/.." && pwd)
copy=$(mktemp -d)
trap 'rm -rf "$copy"' EXIT
mkdir -p "$copy/crates/parse_bench/src"
for crate in sv_form sv_plain sv_dir sv_script; do
    mkdir "$copy/crates/$crate"
    for part in src specs proofs; do
        [ ! -e "$top/crates/$crate/$part" ] || cp -r "$top/crates/$crate/$part" "$copy/crates/$crate/"
    done
    grep "^$crate:" "$top/crates.txt" >>"$copy/crates.txt"
done
echo "parse_bench: sv_script" >>"$copy/crates.txt"
cp "$top/HANDLES" "$copy/"
git -C "$copy" init -q
cat >"$copy/crates/parse_bench/src/main.rt" <<'END'
#![tactic(auto)]

use std::alloc::{AllocError, Global};
use std::io;
use std::time::Instant;

use sv_script::parse;

// So many times a line of 2,048 bytes that keeps 1,020 of them, and one of 2,048 that is a path.
fn text_of(alloc: Global, pairs: u32) -> Result<Vec<u8>, AllocError> {
    let mut hex = Vec::from_slice(alloc, b"write 0")?;
    hex.push(b' ')?;
    for _ in 0..1019 {
        hex.extend_from_slice(b"a7")?;
    }
    hex.extend_from_slice(b"\n")?;
    let mut path = Vec::from_slice(alloc, b"unlink ")?;
    for _ in 0..255 {
        path.extend_from_slice(b"abcdefgh")?;
    }
    path.extend_from_slice(b"\n")?;
    let mut text = Vec::new(alloc);
    for _ in 0..pairs {
        text.extend_from_slice(hex.as_slice())?;
        text.extend_from_slice(path.as_slice())?;
    }
    Ok(text)
}

fn measure(rt: &(impl Print + std::rt::Clock), alloc: Global, pairs: u32) -> io::Result<()> {
    let text = text_of(alloc, pairs)?;
    let bytes = text.len();
    let start = Instant::now(rt)?;
    let parsed = parse(alloc, text.as_slice());
    let took = start.elapsed(rt)?;
    match parsed {
        Ok(script) => {
            let lines = script.as_slice().len();
            println!(rt; "{bytes} bytes: {lines} lines in {took:?}")
        }
        Err((line, fault)) => println!(rt; "{bytes} bytes: line {line} {fault} in {took:?}"),
    }
}

fn main(rt: HostRuntime) -> io::Result<()> {
    measure(&rt, rt.alloc(), 1024)?;
    measure(&rt, rt.alloc(), 2048)?;
    measure(&rt, rt.alloc(), 4096)
}
END
(cd "$copy/crates/parse_bench" && rt run)
