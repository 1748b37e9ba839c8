#!/usr/bin/env bash
# Times declarations, look-ups and removals at once in arenas of 10 tables, with 100,000 and with 1,000,000 symbols in one
# run, and prints their ratios, which are about 10 where the time of all grows with the square, beside what they take among
# 10,000. It does so for the removal of 25,000 and of 250,000 symbols that own a table with one symbol each, and for as many
# declarations at once in the middle of a table as it has names, and prints the memory that a symbol takes in all, with short
# and with long names. Then it declares 200,000 names in one table that collide in a map whose hashes have no key, beside as many
# that do not. The program is made in a temporary copy of the repository. It is no part of the gate.
set -euo pipefail
for tool in rt git awk mktemp; do
  command -v "$tool" > /dev/null || { echo "symtab: skipped, there is no $tool"; exit 0; }
done
[ -r /proc/self/statm ] || { echo "symtab: skipped, there is no /proc/self/statm"; exit 0; }

root=$(cd "$(dirname "$0")/.." && pwd)
copy=$(mktemp -d)
trap 'rm -rf "$copy"' EXIT
mkdir "$copy/crates"
cp "$root/HANDLES" "$copy/"
cp -r "$root/crates/lf_base" "$root/crates/symtab_arena" "$copy/crates/"
{
  grep -E '^(lf_base|symtab_arena)\b' "$root/crates.txt"
  echo 'symtab_bench: lf_base symtab_arena indexmap anyhow'
} > "$copy/crates.txt"
bench=$copy/crates/symtab_bench
mkdir -p "$bench/src" "$bench/specs" "$bench/proofs"
touch "$bench/specs/Lib.antt" "$bench/proofs/Lib.antt"
cat > "$bench/src/main.rt" <<'PROGRAM'
//! Times declarations, look-ups and removals.
#![tactic(auto)]

ghost use Rattle.std.specs.Prelude.{IfOk, All};
ghost use Rattle.symtab_arena.specs.Changes.{IsPlainIn, IsShallowIn};

use anyhow::Result;
use indexmap::IndexMap;
use lf_base::{Memory, Name, SymId, TableId};
use std::alloc::Global;
use std::fs;
use std::hash::{BuildHasher, BuildHasherDefault, FoldHasher, Hasher};
use std::time::Instant;
use symtab_arena::Arena;

const TABLES: u32 = 10;
const TINY: u64 = 10_000;
const SMALL: u64 = 100_000;
const LARGE: u64 = 1_000_000;
const FEW_OWNERS: u64 = 50_000;
const MANY_OWNERS: u64 = 500_000;
const ROUNDS: u32 = 4;
const KEY: [u64; 2] = [0x0123_4567_89ab_cdef, 0xfedc_ba98_7654_3210];

const COLLIDING: u64 = 200_000;
const IN_A_MAP: u64 = 20_000;
/// Hashes of colliding names are alike in these bits, so that all are looked for at few places.
const ALIKE: u64 = 0x1fff;
/// How many beginnings of names are tried.
const TRIED: u64 = 1_000_000_000;

type Outcome<T> = std::result::Result<T, Memory>;

fn name_of(alloc: Global, number: u64) -> Outcome<Name> {
    Name::new(alloc, &number.to_le_bytes())
}

/// A name of 31 bytes.
fn long_name_of(alloc: Global, number: u64) -> Outcome<Name> {
    let Ok(mut bytes) = Vec::from_slice(alloc, &number.to_le_bytes()) else {
        return Err(Memory);
    };
    for _ in 8..31 {
        if let Err(_) = bytes.push(0x61) {
            return Err(Memory);
        }
    }
    Name::new(alloc, &bytes)
}

/// One of the first tables after the root.
fn table_of(number: u64, tables: u32) -> TableId {
    let place = if tables == 0 { 0 } else { number % tables as u64 };
    TableId(place.min(TABLES as u64) as u32 + 1)
}

/// An arena with these names over its tables. Each has eight bytes.
fn filled(alloc: Global, names: &[u64], tables: u32) -> Outcome<Arena<u32>> {
    let mut arena = Arena::keyed(alloc, KEY)?;
    for number in 0..tables {
        let name = Name::new(alloc, &number.to_le_bytes())?;
        arena.linked();
        let _ = arena.declare_owner(TableId(0), &name, number);
    }
    for number in names {
        let name = name_of(alloc, *number)?;
        let table = table_of(*number, tables);
        if arena.has_table(table) {
            let _ = arena.declare(table, &name, 0);
        }
    }
    Ok(arena)
}

/// An arena with these names over its tables, of 31 bytes each.
fn filled_long(alloc: Global, names: &[u64], tables: u32) -> Outcome<Arena<u32>> {
    let mut arena = filled(alloc, &[], tables)?;
    for number in names {
        let name = long_name_of(alloc, *number)?;
        let table = table_of(*number, tables);
        if arena.has_table(table) {
            let _ = arena.declare(table, &name, 0);
        }
    }
    Ok(arena)
}

/// An arena in which each of these names over its tables owns a table with one symbol.
fn filled_with_owners(alloc: Global, names: &[u64], tables: u32) -> Outcome<Arena<u32>> {
    let mut arena = filled(alloc, &[], tables)?;
    for number in names {
        let name = name_of(alloc, *number)?;
        let table = table_of(*number, tables);
        if arena.has_table(table) {
            if let Ok((_, own)) = arena.declare_owner(table, &name, 0) {
                if arena.has_table(own) {
                    let _ = arena.declare(own, &name, 0);
                }
            }
        }
    }
    Ok(arena)
}

/// How many of these names are found.
fn found(alloc: Global, arena: &Arena<u32>, names: &[u64]) -> u64 {
    let mut count: u64 = 0;
    for number in names {
        if let Ok(name) = name_of(alloc, *number) {
            if let Some(_) = arena.lookup_here(table_of(*number, TABLES), &name) {
                count = count.wrapping_add(1);
            }
        }
    }
    count
}

/// Each second symbol of a table, of those that own no table.
fn each_second(alloc: Global, arena: &Arena<u32>, table: TableId) -> Outcome<Vec<SymId>>
    ensures { IfOk result (λ gone. All (IsPlainIn arena.now table) gone.items) }
{
    arena.linked();
    let mut gone = Vec::new(alloc);
    for place in 0..arena.table_len(table) / 2 {
        let symbol = arena.nth(table, 2 * place);
        match arena.owned(symbol) {
            None => match gone.push(symbol) {
                Ok(()) => {}
                Err(_) => return Err(Memory),
            },
            Some(_) => {}
        }
    }
    Ok(gone)
}

/// Takes out each second symbol of each table.
fn thin_out(alloc: Global, arena: &mut Arena<u32>) {
    for number in 1..TABLES + 1 {
        let table = TableId(number);
        if let Ok(gone) = each_second(alloc, arena, table) {
            if arena.has_table(table) {
                arena.remove_all(table, &gone);
            }
        }
    }
}

/// Each second symbol of a table, of those whose table holds no owner.
fn each_second_owner(alloc: Global, arena: &Arena<u32>, table: TableId) -> Outcome<Vec<SymId>>
    ensures { IfOk result (λ gone. All (IsShallowIn arena.now table) gone.items) }
{
    arena.linked();
    let mut gone = Vec::new(alloc);
    for place in 0..arena.table_len(table) / 2 {
        let symbol = arena.nth(table, 2 * place);
        if arena.owns_no_owner(symbol) {
            match gone.push(symbol) {
                Ok(()) => {}
                Err(_) => return Err(Memory),
            }
        }
    }
    Ok(gone)
}

/// Takes out each second symbol of each table, with the table that it owns.
fn thin_out_owners(alloc: Global, arena: &mut Arena<u32>) {
    for number in 1..TABLES + 1 {
        let table = TableId(number);
        if let Ok(gone) = each_second_owner(alloc, arena, table) {
            if arena.has_table(table) {
                arena.remove_all_owned(table, &gone);
            }
        }
    }
}

/// So many names of the same length whose hashes without a key are alike in the low bits.
fn colliding(alloc: Global, count: usize) -> Vec<u64> {
    let mut names = Vec::new(alloc);
    for number in 0..TRIED {
        if names.len() >= count {
            return names;
        }
        add_colliding(&mut names, number);
    }
    names
}

/// Adds the names with one beginning of seven letters.
fn add_colliding(names: &mut Vec<u64>, number: u64) {
    let mut rest = number;
    let mut prefix = BuildHasherDefault::<FoldHasher>::new().build_hasher();
    prefix.write_usize(8);
    let mut bytes: u64 = 0;
    for _ in 0..7 {
        let letter = 0x61 + (rest % 26) as u8;
        rest /= 26;
        prefix.write_u8(letter);
        bytes = bytes >> 8 | (letter as u64) << 48;
    }
    for letter in 0x61..0x7bu8 {
        let mut hasher = prefix;
        hasher.write_u8(letter);
        let hash = hasher.finish();
        if (hash ^ hash >> 32) & ALIKE == 0 {
            let _ = names.push(bytes | (letter as u64) << 56);
        }
    }
}

/// Fills a map whose hashes have no key.
fn fill_map(alloc: Global, names: &[u64]) {
    let mut map: IndexMap<Vec<u8>, u32> = IndexMap::new(alloc);
    for number in names {
        if let Ok(key) = Vec::from_slice(alloc, &number.to_le_bytes()) {
            let _ = map.insert(key, 0);
        }
    }
}

fn numbers(alloc: Global, count: u64) -> Vec<u64> {
    let mut names = Vec::new(alloc);
    for number in 0..count {
        let _ = names.push(number);
    }
    names
}

/// Times an arena of so many names.
fn time_arena(rt: &HostRuntime, count: u64, rounds: u32) -> Result<()> {
    let alloc = rt.alloc();
    let names = numbers(alloc, count);
    let start = Instant::now(rt)?;
    for _ in 0..rounds {
        let _ = filled(alloc, &names, TABLES);
    }
    let declared = start.elapsed(rt)?.as_nanos();
    let Ok(mut arena) = filled(alloc, &names, TABLES) else { return Ok(()) };
    let start = Instant::now(rt)?;
    let hits = found(alloc, &arena, &names);
    let looked = start.elapsed(rt)?.as_nanos();
    let start = Instant::now(rt)?;
    thin_out(alloc, &mut arena);
    let removed = start.elapsed(rt)?.as_nanos();
    let left = arena.len();
    println!(rt; "arena {count} {rounds} {declared} {looked} {removed} {hits} {left}")?;
    Ok(())
}

/// Times the removal of symbols that own a table.
fn time_owners(rt: &HostRuntime, count: u64) -> Result<()> {
    let alloc = rt.alloc();
    let names = numbers(alloc, count);
    let Ok(mut arena) = filled_with_owners(alloc, &names, TABLES) else { return Ok(()) };
    let start = Instant::now(rt)?;
    thin_out_owners(alloc, &mut arena);
    let removed = start.elapsed(rt)?.as_nanos();
    let left = arena.len();
    println!(rt; "owners {count} {removed} {left}")?;
    Ok(())
}

/// So many new names, with what they stand for.
fn pairs(alloc: Global, names: &[u64]) -> Outcome<Vec<(Name, u32)>> {
    let mut pairs = Vec::new(alloc);
    for number in names {
        let name = name_of(alloc, !*number)?;
        if let Err(_) = pairs.push((name, 0)) {
            return Err(Memory);
        }
    }
    Ok(pairs)
}

/// Times as many declarations at once in the middle of a table as it has names.
fn time_inserts(rt: &HostRuntime, count: u64) -> Result<()> {
    let alloc = rt.alloc();
    let names = numbers(alloc, count / 2);
    let Ok(mut arena) = filled(alloc, &names, 1) else { return Ok(()) };
    let Ok(pairs) = pairs(alloc, &names) else { return Ok(()) };
    let table = TableId(1);
    if !arena.has_table(table) {
        return Ok(());
    }
    let place = arena.table_len(table) / 2;
    let start = Instant::now(rt)?;
    let _ = arena.declare_all_at(table, place, pairs);
    let inserted = start.elapsed(rt)?.as_nanos();
    let held = arena.table_len(table);
    println!(rt; "inserts {count} {inserted} {held}")?;
    Ok(())
}

/// Shows the memory before and after arenas are filled.
fn show_memory(rt: &HostRuntime) -> Result<()> {
    let names = numbers(rt.alloc(), LARGE);
    println!(rt; "before {}", fs::read_to_string(rt, "/proc/self/statm")?)?;
    let arena = filled(rt.alloc(), &names, TABLES);
    println!(rt; "short {}", fs::read_to_string(rt, "/proc/self/statm")?)?;
    let other = filled_long(rt.alloc(), &names, TABLES);
    println!(rt; "long {}", fs::read_to_string(rt, "/proc/self/statm")?)?;
    let _ = (arena, other);
    Ok(())
}

/// Times names in one table of an arena.
fn time_names(rt: &HostRuntime, what: &str, names: &[u64]) -> Result<()> {
    let start = Instant::now(rt)?;
    let arena = filled(rt.alloc(), names, 1);
    let taken = start.elapsed(rt)?.as_nanos();
    let held = match &arena {
        Ok(arena) => arena.len(),
        Err(_) => 0,
    };
    println!(rt; "table {what} {taken} {held}")?;
    Ok(())
}

/// Times names in a map.
fn time_map(rt: &HostRuntime, what: &str, names: &[u64]) -> Result<()> {
    let start = Instant::now(rt)?;
    fill_map(rt.alloc(), names);
    let taken = start.elapsed(rt)?.as_nanos();
    println!(rt; "map {what} {taken}")?;
    Ok(())
}

fn main(rt: HostRuntime) -> Result<()> {
    let alloc = rt.alloc();
    show_memory(&rt)?;
    time_arena(&rt, TINY, ROUNDS)?;
    time_arena(&rt, SMALL, ROUNDS)?;
    time_arena(&rt, LARGE, 1)?;
    time_inserts(&rt, TINY)?;
    time_inserts(&rt, SMALL)?;
    time_inserts(&rt, LARGE)?;
    time_owners(&rt, FEW_OWNERS)?;
    time_owners(&rt, MANY_OWNERS)?;
    time_names(&rt, "apart", &numbers(alloc, COLLIDING))?;
    time_names(&rt, "alike", &colliding(alloc, COLLIDING as usize))?;
    time_map(&rt, "apart", &numbers(alloc, IN_A_MAP))?;
    time_map(&rt, "alike", &colliding(alloc, IN_A_MAP as usize))?;
    Ok(())
}
PROGRAM
# the lists of symbols that are taken out hold only such as their calls ask for
write_invariant() {
  mkdir -p "$bench/proofs/$1"
  cat > "$bench/proofs/$1/Invariants.antt" <<INVARIANTS
use Rattle.std.proofs.Common.{All}
use Rattle.symtab_arena.specs.Changes.{$2}
use Rattle.symtab_bench.proofs.$1.Given as goal

abbrev pub invariant-loop-place : goal.invariant-loop-place
invariant-loop-place l = All ($2 l.arena l.table) l.gone.items
INVARIANTS
}
write_invariant each_second IsPlainIn
write_invariant each_second_owner IsShallowIn
git -C "$copy" init -q

cd "$bench"
if ! rt run > "$copy/out" 2>&1; then
  tail -20 "$copy/out"
  echo "symtab: the program was not built or did not run"
  exit 1
fi
awk -v page="$(getconf PAGESIZE 2> /dev/null || echo 4096)" '
  $1 == "before" { before = $3 }
  $1 == "short" || $1 == "long" { after[$1] = $3 }
  $1 == "arena" {
    n = $2
    declared[n] = $4 / n / $3; looked[n] = $5 / n; removed[n] = $6 / (n / 2)
    if ($7 != n || $8 != n / 2 + 10) { print "symtab: an arena does not hold what it should"; exit 1 }
  }
  $1 == "inserts" {
    inserted[$2] = $3 / ($2 / 2)
    if ($4 != $2) { print "symtab: a table does not hold what it should"; exit 1 }
  }
  $1 == "owners" {
    owners[$2] = $3 / $2
    if ($4 != $2 + 10) { print "symtab: an arena does not hold what it should"; exit 1 }
  }
  $1 == "table" || $1 == "map" { taken[$1, $2] = $3; held[$1, $2] = $4 }
  function ratio(what, of) {
    printf "%s: %.0f ns among 10,000, %.0f ns among 100,000, %.0f ns among 1,000,000, ratio of the last two %.2f (at most 4)\n", what, of[10000], of[100000], of[1000000], of[1000000] / of[100000]
  }
  END {
    if (held["table", "apart"] != 200001 || held["table", "alike"] < 200001) { print "symtab: a table does not hold what it should"; exit 1 }
    ratio("a declaration", declared); ratio("a look-up", looked); ratio("a declaration at once in the middle of a table", inserted); ratio("a symbol of a removal at once", removed)
    printf "a symbol of a removal at once of owners and what they own: %.0f ns among 100,000, %.0f ns among 1,000,000, ratio %.2f (at most 4)\n", owners[50000], owners[500000], owners[500000] / owners[50000]
    printf "bytes a symbol in all, with a name of 8 bytes: %.0f (at most 250), of 31 bytes: %.0f\n", (after["short"] - before) * page / 1000000, (after["long"] - after["short"]) * page / 1000000
    printf "200,000 names in a table that collide where hashes have no key: %.0f ns each, others %.0f ns, ratio %.2f (at most 2)\n", taken["table", "alike"] / 200000, taken["table", "apart"] / 200000, taken["table", "alike"] / taken["table", "apart"]
    printf "the first 20,000 of them in a map whose hashes have no key: ratio %.1f\n", taken["map", "alike"] / taken["map", "apart"]
  }' "$copy/out"
