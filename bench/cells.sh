#!/bin/sh
# Times calls on the cells of a site: select and update in objects of 10 and 1,000 fields, reading and writing an item at the
# end of arrays of 10 and 65,536, and appends of 64 and of 65,536 bytes to a writer up to 1, 16 and 64 MiB.
#
#   bench/cells.sh
#
# builds a program over the crates of this checkout, in a folder of its own (rt keeps what it proved of them, so that takes
# half a minute), runs it RUNS times (5 by default), and prints the best time of a call.
set -eu

runs=${RUNS:-5}
here=$(cd "$(dirname "$0")/.." && pwd)
folder=$(mktemp -d)
trap 'rm -rf "$folder"' EXIT

for crate in obq_base obq_tables obq_model obq_heap obq_objects; do
    mkdir -p "$folder/crates/$crate"
    (cd "$here/crates/$crate" && tar cf - --exclude=./out .) | tar xf - -C "$folder/crates/$crate"
    grep "^$crate:" "$here/crates.txt" >> "$folder/crates.txt"
done
echo "cells: obq_base obq_heap obq_objects sqlite_items" >> "$folder/crates.txt"
cp "$here/HANDLES" "$folder/HANDLES"
mkdir -p "$folder/crates/cells/src"
cat > "$folder/crates/cells/src/main.rt" <<'EOF'
//! Times calls on the cells of a site.
#![tactic(auto)]

use obq_base::{FieldBody, Flags, Name, NoMemory, Ref, SiteId, Text, Value};
use obq_heap::{Cell, NameMap, SiteHeap, Written};
use obq_objects::{select, update, Selected, Updated};
use sqlite_items::Items;
use std::alloc::Global;
use std::io;
use std::time::Instant;

fn digit(number: u32) -> u8 {
    (number % 10) as u8 + b'0'
}

fn field_name(alloc: Global, k: u32) -> Result<Name, NoMemory> {
    let bytes = vec![in alloc; b'f', digit(k / 1000), digit(k / 100), digit(k / 10), digit(k)]?;
    Ok(Name::new(bytes))
}

fn names(alloc: Global, count: u32) -> Result<Vec<Name>, NoMemory> {
    let mut names = Vec::new(alloc);
    for k in 0..count {
        names.push(field_name(alloc, k)?)?;
    }
    Ok(names)
}

fn place(heap: &mut SiteHeap, cell: Cell) -> Result<Ref, NoMemory> {
    if heap.len() > 99 {
        return Err(NoMemory);
    }
    heap.place(cell, 0)
}

fn object(alloc: Global, heap: &mut SiteHeap, count: u32) -> Result<Ref, NoMemory> {
    let mut fields = NameMap::new(alloc);
    for k in 0..count {
        fields.put(field_name(alloc, k)?, FieldBody::Value(Value::Int(1)))?;
    }
    let flags = Flags {
        protected: false,
        serialized: false,
    };
    let owner = None;
    place(
        heap,
        Cell::Object {
            flags,
            owner,
            fields,
        },
    )
}

fn array(alloc: Global, heap: &mut SiteHeap, count: u32) -> Result<Ref, NoMemory> {
    let mut items = Items::new(alloc);
    for _ in 0..count {
        items.push(Value::Int(1))?;
    }
    place(heap, Cell::Array(items))
}

fn select_each(
    alloc: Global,
    heap: &SiteHeap,
    o: Ref,
    names: &[Name],
    rounds: u32,
) -> Result<u64, NoMemory> {
    let mut count: u64 = 0;
    for _ in 0..rounds {
        for name in names {
            if let Some(Cell::Object { .. }) = heap.get(o) {
                if let Selected::Value(_) = select(alloc, heap, o, name)? {
                    count = count.wrapping_add(1);
                }
            }
        }
    }
    Ok(count)
}

fn update_one(alloc: Global, heap: &mut SiteHeap, o: Ref, name: &Name) -> Result<bool, NoMemory> {
    let Some(Cell::Object { .. }) = heap.get(o) else {
        return Ok(false);
    };
    let body = FieldBody::Value(Value::Int(2));
    match update(alloc, heap, o, name, body, false)? {
        Updated::Done => Ok(true),
        _ => Ok(false),
    }
}

fn update_each(
    alloc: Global,
    heap: &mut SiteHeap,
    o: Ref,
    names: &[Name],
    rounds: u32,
) -> Result<u64, NoMemory> {
    let mut count: u64 = 0;
    for _ in 0..rounds {
        for name in names {
            if update_one(alloc, heap, o, name)? {
                count = count.wrapping_add(1);
            }
        }
    }
    Ok(count)
}

/// Reads and writes the item at this place.
fn item_at(heap: &mut SiteHeap, r: Ref, k: u32, times: u32) -> u64 {
    let mut count: u64 = 0;
    for _ in 0..times {
        if heap.item(r, k).is_some() && heap.set_item(r, k, Value::Int(3)) {
            count = count.wrapping_add(1);
        }
    }
    count
}

fn write_times(heap: &mut SiteHeap, r: Ref, text: &Text, times: u32) -> Result<(), NoMemory> {
    for _ in 0..times {
        heap.write_text(r, text)?;
    }
    Ok(())
}

fn text_of(alloc: Global, length: u32) -> Result<Text, NoMemory> {
    let mut bytes = Vec::new(alloc);
    for _ in 0..length {
        bytes.push(b'x')?;
    }
    Ok(Text::new(bytes))
}

fn time_objects(rt: &HostRuntime, count: u32) -> io::Result<()> {
    let alloc = rt.alloc();
    let mut heap = SiteHeap::new(alloc, SiteId(0));
    let o = object(alloc, &mut heap, count).map_err(failed)?;
    let names = names(alloc, count).map_err(failed)?;
    let rounds = if count < 100 { 200_000 } else { 2_000 };
    let start = Instant::now(rt)?;
    let found = select_each(alloc, &heap, o, &names, rounds).map_err(failed)?;
    let taken = start.elapsed(rt)?.as_nanos();
    println!(rt; "select {count} {found} {taken}")?;
    let start = Instant::now(rt)?;
    let done = update_each(alloc, &mut heap, o, &names, rounds).map_err(failed)?;
    let taken = start.elapsed(rt)?.as_nanos();
    println!(rt; "update {count} {done} {taken}")?;
    Ok(())
}

fn time_items(rt: &HostRuntime, count: u32) -> io::Result<()> {
    let alloc = rt.alloc();
    let mut heap = SiteHeap::new(alloc, SiteId(0));
    let r = array(alloc, &mut heap, count).map_err(failed)?;
    let start = Instant::now(rt)?;
    let found = item_at(&mut heap, r, count.saturating_sub(1), 2_000_000);
    let taken = start.elapsed(rt)?.as_nanos();
    println!(rt; "item {count} {found} {taken}")?;
    Ok(())
}

/// Writes texts of 64 or of 65,536 bytes, so many mebibytes.
fn time_writer(rt: &HostRuntime, length: u32, mebibytes: u32) -> io::Result<()> {
    let alloc = rt.alloc();
    let mut heap = SiteHeap::new(alloc, SiteId(0));
    let r = place(&mut heap, Cell::Writer(Written::new(alloc))).map_err(failed)?;
    let text = text_of(alloc, length).map_err(failed)?;
    let texts = if length == 64 { 16_384u32 } else { 16 };
    let times = texts.saturating_mul(mebibytes);
    let start = Instant::now(rt)?;
    write_times(&mut heap, r, &text, times).map_err(failed)?;
    let taken = start.elapsed(rt)?.as_nanos();
    println!(rt; "append-{length} {mebibytes}-MiB {times} {taken}")?;
    Ok(())
}

fn failed(_: NoMemory) -> io::Error {
    io::Error::from(io::ErrorKind::OutOfMemory)
}

fn main(rt: HostRuntime) -> io::Result<()> {
    time_objects(&rt, 10)?;
    time_objects(&rt, 1_000)?;
    time_items(&rt, 10)?;
    time_items(&rt, 65_536)?;
    // 1, 16 and 64 MiB
    for mebibytes in [1, 16, 64] {
        time_writer(&rt, 64, mebibytes)?;
        time_writer(&rt, 65_536, mebibytes)?;
    }
    Ok(())
}
EOF
if ! (cd "$folder/crates/cells" && rt run) > "$folder/log" 2>&1; then
    tail -n 20 "$folder/log" >&2
    exit 1
fi

echo "cores: $(nproc)"
run=0
while [ "$run" -lt "$runs" ]; do
    "$folder/crates/cells/out/cells"
    run=$((run + 1))
done | awk '
    {
        row = $1 " " $2
        if (!(row in best)) { order[++rows] = row; best[row] = $4; calls[row] = $3 }
        if ($4 < best[row]) best[row] = $4
    }
    END { for (k = 1; k <= rows; k++) printf "%-12s %8s: %10.1f ns a call\n", substr(order[k], 1, index(order[k], " ") - 1), substr(order[k], index(order[k], " ") + 1), best[order[k]] / calls[order[k]] }
'
