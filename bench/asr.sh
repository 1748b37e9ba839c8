#!/usr/bin/env bash
# Builds programs of 100,000 and of 1,000,000 statements, each an assignment in an arm of one chain of `else if`, in one run,
# and prints the time and the memory that a node takes, the time of printing a byte of their text, and the ratios of the
# times, which are about 10 where all grows with the size. Then it builds and drops an expression that is 4,000 deep. All of
# it goes on within 8 MiB of stack. The program is made in a temporary copy of the repository. It is no part of the gate.
set -euo pipefail
for tool in rt git awk mktemp; do
  command -v "$tool" > /dev/null || { echo "asr: skipped, there is no $tool"; exit 0; }
done
[ -r /proc/self/statm ] || { echo "asr: skipped, there is no /proc/self/statm"; exit 0; }

root=$(cd "$(dirname "$0")/.." && pwd)
copy=$(mktemp -d)
trap 'rm -rf "$copy"' EXIT
mkdir "$copy/crates"
cp "$root/HANDLES" "$copy/"
for crate in lf_base ast_nodes symtab_arena type_rules asr_nodes; do
  cp -r "$root/crates/$crate" "$copy/crates/"
done
{
  grep -E '^(lf_base|ast_nodes|symtab_arena|type_rules|asr_nodes)\b' "$root/crates.txt"
  echo 'asr_bench: lf_base asr_nodes sqlite_items anyhow'
} > "$copy/crates.txt"
bench=$copy/crates/asr_bench
mkdir -p "$bench/src" "$bench/specs" "$bench/proofs/nested"
touch "$bench/specs/Lib.antt" "$bench/proofs/Lib.antt"
cat > "$bench/proofs/nested/Invariants.antt" <<'PROOF'
use Rattle.std.proofs.Common.{◌≡◌, true, is_some}
use Rattle.asr_nodes.specs.Keys.{expr}
use Rattle.asr_nodes.specs.Nodes.{node_at}
use Rattle.asr_bench.proofs.nested.Given as goal

abbrev pub invariant-loop-n : goal.invariant-loop-n
invariant-loop-n l = is_some (node_at l.asr (expr l.inner)) ≡ true
PROOF
cat > "$bench/src/main.rt" <<'PROGRAM'
//! Times the building and the printing of trees.
#![tactic(auto)]

ghost use Rattle.std.specs.Prelude.{◌≡◌, [], ◌∷◌, IfOk};

use anyhow::Result;
use asr_nodes::{Asr, Expr, Stmt, Symbol, code, print_asr};
use lf_base::{ExprId, Memory, Name, StmtId, SureSink, SymId, TableId};
use sqlite_items::Items;
use std::alloc::Global;
use std::fs;
use std::time::Instant;

const SMALL: u32 = 100_000;
const LARGE: u32 = 1_000_000;
const DEEP: u32 = 4_000;
const ROOT: TableId = TableId(0);

fn assign(asr: &mut Asr, line: u32) -> std::result::Result<StmtId, Memory> {
    let target = asr.build_expr(Expr::Var { symbol: SymId(0) })?;
    let value = asr.build_expr(Expr::IntConst { kind: 4, value: 1 })?;
    asr.build_stmt(Stmt::Assign {
        line,
        target,
        value,
    })
}

fn one(alloc: Global, id: StmtId) -> std::result::Result<Items<StmtId>, Memory>
    ensures { IfOk result (λ ids. ids ≡ id ∷ []) }
{
    match Items::from_slice(alloc, &[id]) {
        Ok(ids) => Ok(ids),
        Err(_) => Err(Memory),
    }
}

// `if (.true.) then; x = 1; else; REST; end if`
fn arm(asr: &mut Asr, alloc: Global, line: u32, rest: StmtId) -> std::result::Result<StmtId, Memory> {
    let action = assign(asr, line)?;
    let condition = asr.build_expr(Expr::LogConst { value: code::TRUE })?;
    let then_block = one(alloc, action)?;
    let else_block = one(alloc, rest)?;
    if !asr.has_stmt(rest) || !asr.has_stmt(action) || !asr.has_expr(condition) {
        return Err(Memory);
    }
    asr.build_stmt(Stmt::If {
        line,
        condition,
        then_block,
        else_block,
    })
}

fn chain(asr: &mut Asr, alloc: Global, count: u32) -> std::result::Result<StmtId, Memory> {
    let mut first = assign(asr, count)?;
    for line in 0..count {
        first = arm(asr, alloc, line, first)?;
    }
    Ok(first)
}

fn program(asr: &mut Asr, alloc: Global, first: StmtId) -> std::result::Result<SymId, Memory> {
    let name = Name::new(alloc, b"p")?;
    let body = one(alloc, first)?;
    if !asr.has_stmt(first) || !asr.arena().has_table(ROOT) {
        return Err(Memory);
    }
    let unit = Symbol::Program {
        source: Items::new(alloc),
        deps: Items::new(alloc),
        table: ROOT,
        body,
    };
    match asr.build_symbol(ROOT, &name, unit) {
        Ok(id) => Ok(id),
        Err(_) => Err(Memory),
    }
}

fn filled(asr: &mut Asr, alloc: Global, count: u32) -> std::result::Result<SymId, Memory> {
    let first = chain(asr, alloc, count)?;
    program(asr, alloc, first)
}

fn printed(asr: &Asr, alloc: Global, unit: SymId) -> usize {
    let Ok(mut sink) = SureSink::new(alloc) else { return 0 };
    if !asr.is_unit(unit) {
        return 0;
    }
    match print_asr(asr, unit, &mut sink) {
        Ok(()) => sink.bytes().len(),
        Err(_) => 0,
    }
}

fn nested(asr: &mut Asr, depth: u32) -> std::result::Result<ExprId, Memory> {
    let mut inner = asr.build_expr(Expr::IntConst { kind: 4, value: 1 })?;
    for n in 0..depth {
        inner = asr.build_expr(Expr::Paren { inner })?;
    }
    Ok(inner)
}

fn show(rt: &HostRuntime, count: u32) -> Result<()> {
    let alloc = rt.alloc();
    let Ok(mut asr) = Asr::new(alloc) else { return Ok(()) };
    println!(rt; "before {}", fs::read_to_string(rt, "/proc/self/statm")?)?;
    let start = Instant::now(rt)?;
    let Ok(unit) = filled(&mut asr, alloc, count) else { return Ok(()) };
    let built = start.elapsed(rt)?.as_nanos();
    println!(rt; "after {}", fs::read_to_string(rt, "/proc/self/statm")?)?;
    let start = Instant::now(rt)?;
    let bytes = printed(&asr, alloc, unit);
    let shown = start.elapsed(rt)?.as_nanos();
    let start = Instant::now(rt)?;
    drop(asr);
    let dropped = start.elapsed(rt)?.as_nanos();
    println!(rt; "nodes {count} {built} {dropped} {bytes} {shown}")?;
    Ok(())
}

fn deep(rt: &HostRuntime) -> Result<()> {
    let Ok(mut asr) = Asr::new(rt.alloc()) else { return Ok(()) };
    if let Ok(outer) = nested(&mut asr, DEEP) {
        println!(rt; "deep {}", outer.0)?;
    }
    Ok(())
}

fn main(rt: HostRuntime) -> Result<()> {
    show(&rt, SMALL)?;
    show(&rt, LARGE)?;
    deep(&rt)
}
PROGRAM
cd "$bench"
git -C "$copy" init -q 2> /dev/null || true
ulimit -s 8192
rt run 2> "$copy/log" > "$copy/out" || { tail -n 40 "$copy/log"; exit 1; }
awk '
  $1 == "before" { before = $3 }
  $1 == "after" { after = $3 }
  $1 == "nodes" {
    nodes = 5 * $2
    printf "%d statements, %d nodes: built in %.0f ns a node, dropped in %.0f, %.0f bytes a node; %d bytes of text, %.1f ns a byte\n", 2 * $2, nodes, $3 / nodes, $4 / nodes, (after - before) * 4096 / nodes, $5, $6 / $5
    if (built) printf "ten times the size: built in %.1f times the time, dropped in %.1f, printed in %.1f\n", $3 / built, $4 / dropped, $6 / shown
    built = $3; dropped = $4; shown = $6
  }
  $1 == "deep" { print "an expression 4,000 deep: built and dropped, its number is " $2 }
' "$copy/out"
