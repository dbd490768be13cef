#!/bin/sh
# Times `encode` and `decode` of `obq_wire` over frames of 1 KiB to 16 MiB of texts, and over tables of 10, 1,000 and 100,000
# groups of which each needs the one before. A program that makes the frames and times the calls is built in a temporary copy of
# the crates that it needs, beside what is kept of their proofs.
#
#   bench/frames.sh
#
# prints for each frame its bytes and groups, the best of RUNS times (5 by default) of each call, and what a byte and a group
# cost.
set -eu

cd "$(dirname "$0")/.."
runs=${RUNS:-5}
folder=$(mktemp -d)
trap 'rm -rf "$folder"' EXIT

mkdir "$folder/crates"
cp -a crates/obq_base crates/obq_tables crates/obq_wire "$folder/crates/"
cp HANDLES "$folder/"
grep -E '^obq_(base|tables|wire):' crates.txt > "$folder/crates.txt"
echo "frames_times: obq_wire obq_base" >> "$folder/crates.txt"
mkdir -p "$folder/crates/frames_times/src" "$folder/crates/frames_times/specs" "$folder/crates/frames_times/proofs"
touch "$folder/crates/frames_times/specs/Lib.antt" "$folder/crates/frames_times/proofs/Lib.antt"
cat > "$folder/crates/frames_times/src/main.rt" <<'PROGRAM'
//! Times frames.
#![tactic(auto)]

use obq_wire::{decode, encode};
use std::alloc::{AllocError, Global};
use std::time::Instant;
use std::{env, io};

// A reply up to the count of its table.
fn reply(alloc: Global, groups: u32) -> Result<Vec<u8>, AllocError> {
    let mut frame = Vec::new(alloc);
    frame.push(2)?;
    frame.extend_from_slice(&[0; 24])?;
    frame.extend_from_slice(&groups.to_be_bytes())?;
    Ok(frame)
}

// An object with so many fields of texts of 1,000 bytes.
fn texts(alloc: Global, count: u32) -> Result<Vec<u8>, AllocError> {
    let mut frame = reply(alloc, 0)?;
    frame.extend_from_slice(&[4, 0])?;
    frame.extend_from_slice(&count.to_be_bytes())?;
    for _ in 0..count {
        frame.extend_from_slice(&[0, 0, 0, 1, 120, 0, 3, 0, 0, 3, 232])?;
        frame.extend_from_slice(&[97; 1000])?;
    }
    Ok(frame)
}

// So many groups, each of which needs the one before, and the last as the value.
fn groups(alloc: Global, count: u32) -> Result<Vec<u8>, AllocError> {
    let mut frame = reply(alloc, count)?;
    for k in 0..count {
        frame.extend_from_slice(&[0, 0, 0, 0, 0, 0, 0, 0])?;
        frame.extend_from_slice(&k.to_be_bytes())?;
        frame.extend_from_slice(&[0, 0, 0, 1, 0, 0, 0, 0, 0, 1])?;
        if k == 0 {
            frame.extend_from_slice(&[0, 0, 0, 0])?;
        } else {
            frame.extend_from_slice(&[0, 0, 0, 1, 5])?;
            frame.extend_from_slice(&(k - 1).to_be_bytes())?;
            frame.extend_from_slice(&[0, 0, 0, 0])?;
        }
    }
    frame.extend_from_slice(&[0, 5])?;
    frame.extend_from_slice(&count.wrapping_sub(1).to_be_bytes())?;
    frame.extend_from_slice(&[0, 0, 0, 0])?;
    Ok(frame)
}

fn main(rt: HostRuntime) -> io::Result<()> {
    let alloc = rt.alloc();
    let mut runs = 5_u32;
    for word in env::args(&rt)? {
        runs = word.parse::<u32>().unwrap_or(runs);
    }
    for (count, nested) in [
        (1, false),
        (16, false),
        (256, false),
        (4096, false),
        (16384, false),
        (10, true),
        (1000, true),
        (100_000, true),
    ] {
        let frame = if nested {
            groups(alloc, count)?
        } else {
            texts(alloc, count)?
        };
        let mut reading = u128::MAX;
        let mut writing = u128::MAX;
        for _ in 0..runs {
            let begun = Instant::now(&rt)?;
            let read = decode(alloc, frame.as_slice());
            reading = reading.min(begun.elapsed(&rt)?.as_nanos());
            if let Ok(packet) = read {
                let begun = Instant::now(&rt)?;
                let written = encode(alloc, &packet);
                writing = writing.min(begun.elapsed(&rt)?.as_nanos());
                drop(packet);
                if let Ok(bytes) = written {
                    if bytes.as_slice() != frame.as_slice() {
                        println!(rt; "another frame")?;
                    }
                }
            } else {
                println!(rt; "no frame")?;
            }
        }
        let bytes = frame.len();
        let kind = if nested { "groups" } else { "texts" };
        println!(rt; "{kind} {count} bytes {bytes} decode {reading} encode {writing}")?;
    }
    Ok(())
}
PROGRAM

cd "$folder/crates/frames_times"
rt run -- "$runs" 2> "$folder/log" > "$folder/times" || { tail -5 "$folder/log" >&2; exit 1; }
awk '$1 == "texts" || $1 == "groups" {
    printf "%-6s %7d  %9d bytes  decode %8.3f ms (%7.1f MB/s)  encode %8.3f ms (%7.1f MB/s)", $1, $2, $4, $6 / 1e6, $4 * 1e3 / $6, $8 / 1e6, $4 * 1e3 / $8
    if ($1 == "groups") printf "  a group %.0f and %.0f ns", $6 / $2, $8 / $2
    printf "\n"
}' "$folder/times"
grep -v '^texts\|^groups' "$folder/times" || true
