"""Writes the crates of the CRC-32's tables, code and proofs, a crate for each table, so that they are proved side by side:  python3 tools/crc32_tables.py

An entry is two states in one number: four bits in the highest byte of a state, in its upper half and in its lower, moved by k bytes.
Table t has the rows k = 28 * t to 28 * t + 31, and eight look-ups in its first 31 move a state by 28 * t to 28 * t + 27 bytes. The last
row is there because a `match` ends with an arm for any other key: as no length below 28 has that arm, the look-up tests none.
"""
import os

POLYNOMIAL = 0xEDB88320
ROWS = 32
LENGTHS = 28
CRATES = ["crc32_tables", "crc32_tables_long"]


def bits(n, s):
    for _ in range(n):
        s = (s >> 1) ^ ((s & 1) * POLYNOMIAL)
    return s


def entries(t):
    return [bits(8 * (LENGTHS * t + i // 16), i % 16 << 28) << 32 | bits(8 * (LENGTHS * t + i // 16), i % 16 << 24) for i in range(16 * ROWS)]


def source(tables):
    out = f"""// States moved by {LENGTHS * tables[0]} to {LENGTHS * (tables[-1] + 1) - 1} bytes, from tables. `crc32` alone calls this. Written by tools/crc32_tables.py.
//
// A table is a function of a key, {ROWS} rows of sixteen entries: the key's upper half counts the rows from the table's first,
// and its lower half are the four bits that are moved. An entry is two states in one number, for the upper half of a byte and the lower.
// A `match` becomes a table in constant memory, where a `const` array would be built anew at each use;
// and a table that is called at one place only, in a loop, is inlined there. The remainder of a length is the length:
// it says that no key has the last arm, which stands for any other key, so that the look-up tests none.
#![tactic(auto)]

ghost use Rattle.std.specs.Prelude.{{◌≡◌, ◌+◌, ◌*◌, ◌<◌}};
ghost use Rattle.crc32_spec.specs.Crc.{{bits}};
ghost use Rattle.crc32_spec.specs.Rows.{{entry_at}};

use crc32_spec::{{four_bits, half}};
"""
    for t in tables:
        first, values = LENGTHS * t, entries(t)
        out += f"""
// The rows {first} to {first + ROWS - 1}.
fn rows{t}(key: u64) -> u64
    requires {{ key < {16 * ROWS} }}
    ensures {{ result ≡ entry_at {first} key }}
{{
    match key {{
"""
        out += "".join(f"        {i} => {x},\n" for i, x in enumerate(values[:-1]))
        out += f"""        _ => {values[-1]},
    }}
}}

// A state moved by {first} + n bytes.
pub fn moved{t}(s: u32, n: u64) -> u32
    requires {{ n < {LENGTHS} }}
    ensures {{ result ≡ bits (8 * ({first} + n)) s }}
{{
    let mut sum: u32 = 0;
    let mut j: u64 = 0;
    while j < 8 {{
        sum ^= half(rows{t}((n % {LENGTHS} + 3 - j / 2) * 16 + four_bits(s, j)), j);
        j += 1;
    }}
    sum
}}
"""
    return out


def table_proof(crate, t):
    first, values = LENGTHS * t, entries(t)
    lines = "".join("    " + " ∷ ".join(str(x) for x in values[i:i + 4]) + " ∷\n" for i in range(0, len(values), 4))
    last = len(values) - 1
    answer = "".join(
        f"\npub returns-in-{i} : goal.returns-in-{i}\nreturns-in-{i} c = arm c.args.key {i} c.requires c.in-{i}.is\n" for i in range(last)
    )
    return f"""-- `{crate}::rows{t}` meets its contract: one computed test says that the table holds what it should, and each arm is its entry.
-- Written by tools/crc32_tables.py. Assumes nothing.
use mathlib.Core.Path.{{◌≡◌}}
use mathlib.Core.List.{{List, [], ◌∷◌}}
use Prim.Native.Nat.{{ℕ, ◌<◌}}
use lib.ListN.{{get_or}}
use Rattle.crc32_spec.specs.Crc.{{bits, bit}}
use Rattle.crc32_spec.specs.Rows.{{entry_at}}
use Rattle.crc32_spec.proofs.Rows.{{tested, alike, rows, powers, span, double, last}}
use Rattle.{crate}.proofs.rows{t}.Goals as goal

abbrev table : List ℕ
table =
{lines}    []

arm : (i k : ℕ) → i < {len(values)} → i ≡ k → get_or table k 0 ≡ entry_at {first} i
unfolding table bits bit alike rows powers span double
arm = tested table {first} tt
{answer}
pub returns-in_default : goal.returns-in_default
returns-in_default c = arm c.args.key {last} c.requires (last {last} c.args.key c.requires c.in_default.in_default-own.rest)
"""


def move_invariants(crate, t):
    first = LENGTHS * t
    return f"""use mathlib.Core.Path.{{◌≡◌}}
use Prim.Native.Nat.{{◌+◌, ◌-◌, ◌*◌, ◌≤◌}}
use lib.Bits.{{bit_xor}}
use Rattle.crc32_spec.specs.Crc.{{bits}}
use Rattle.crc32_spec.proofs.Rows.{{left}}
use Rattle.{crate}.proofs.moved{t}.Given as goal

abbrev pub invariant-loop-j : goal.invariant-loop-j
invariant-loop-j l = (l.j ≤ 8) × (bit_xor l.sum (left ({first} + l.n) l.s l.j) ≡ bits (8 * ({first} + l.n)) l.s)

abbrev pub decreases-loop-j : goal.decreases-loop-j
decreases-loop-j l = 8 - l.j
"""


def move_proof(crate, t):
    first = LENGTHS * t
    return f"""-- `{crate}::moved{t}` meets its contract: a turn looks four bits up, and what is looked up and what is left sum up to the same.
-- Written by tools/crc32_tables.py. Assumes nothing.
use mathlib.Core.Path.{{◌∙◌}}
use Prim.Native.Nat.{{◌+◌}}
use native.Mathlib.Omega.{{arith}}
use Rattle.crc32_spec.proofs.Rows.{{all_left, looked-up, none_left}}
use Rattle.{crate}.proofs.moved{t}.Goals as goal

pub loop-j-init : goal.loop-j-init
loop-j-init c = (omega arith, all_left ({first} + c.args.n) c.args.s)

pub loop-j-preserved : goal.loop-j-preserved
loop-j-preserved c = (
  omega arith,
  looked-up {first} c.args.n c.args.s c.loop-j.j c.loop-j.sum _ _ _ (omega arith) (omega arith)
      c.four_bits.ensures c.rows{t}.ensures c.half-sum.ensures
      ∙ c.loop-j.invariant.1,
)

pub returns : goal.returns
returns c =
    none_left ({first} + c.args.n) c.args.s c.loop-j.j c.loop-j.sum _ (omega arith)
    c.ranges.s.fits c.loop-j.invariant.1
"""


def write(path, text):
    os.makedirs(os.path.dirname(path), exist_ok=True)
    with open(path, "w") as f:
        f.write(text)


for t, crate in enumerate(CRATES):
    write(f"crates/{crate}/src/lib.rt", source([t]))
    write(f"crates/{crate}/proofs/rows{t}/Answers.antt", table_proof(crate, t))
    write(f"crates/{crate}/proofs/moved{t}/Invariants.antt", move_invariants(crate, t))
    write(f"crates/{crate}/proofs/moved{t}/Answers.antt", move_proof(crate, t))
