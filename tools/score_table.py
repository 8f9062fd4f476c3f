#!/usr/bin/env python3
"""Makes the table of the score (document 01, 'Score') and a list of ratios with their scores, from exact whole numbers, and holds the
repository to them.

  tools/score_table.py            writes the four files
  tools/score_table.py --check    names each file that is not what it would write; exit status 1 if there is one

The files: crates/score/src/thresholds.rt (entry k is the bits of the least f32 above 0 whose 1,024th power reaches 10^k, for k from 0 to
1,024), crates/score/proofs/Entries.antt (the same table with its rule), crates/score_replay/stdin (ratios, as little-endian f32) and
crates/score_replay/stdout (what the program must print for them).
"""
import argparse
import math
import pathlib
import random
import struct
import sys

TOP = 1024
PART = 128  # entries that one computed test of the prover takes: the whole table passes its limit of steps
HIDDEN, SIGN, INFINITY = 0x80_0000, 0x8000_0000, 0x7F80_0000

ROOT = pathlib.Path(__file__).resolve().parent.parent


# ---- exact arithmetic


def reaches(bits, k):
    """10^k ≤ r^1024, for the finite r of a pattern from 2^-126 on: r is significand · 2^exponent."""
    field, digits = divmod(bits, HIDDEN)
    significand, exponent = HIDDEN + digits, field - 150
    return 10**k << max(-exponent, 0) * TOP <= significand**TOP << max(exponent, 0) * TOP


def bits_of(value):
    return struct.unpack("<I", struct.pack("<f", value))[0]


def value_of(bits):
    return struct.unpack("<f", struct.pack("<I", bits))[0]


def threshold(k):
    """The guess is a float's; the tests that settle it are exact."""
    bits = bits_of(10 ** (k / TOP))
    while not reaches(bits, k):
        bits += 1
    while reaches(bits - 1, k):
        bits -= 1
    return bits


def score(bits):
    """The definition, with no use of the table: the largest k in 0..1,024 with 10^k ≤ r^1024; 0 below 1 or for NaN; 1,024 for plus infinity."""
    if bits > INFINITY or bits < bits_of(1.0):
        return 0
    if bits == INFINITY:
        return TOP
    k = min(int(TOP * math.log10(value_of(bits))), TOP)
    while k < TOP and reaches(bits, k + 1):
        k += 1
    while not reaches(bits, k):
        k -= 1
    return k


# ---- the four files


def source(table):
    rows = "".join(f"    0x{n >> 16:04x}_{n & 0xFFFF:04x},\n" for n in table)
    return f"""// Made by tools/score_table.py.
ghost use Rattle.std.specs.Prelude.{{◌≡◌, ℕ, ◌≤◌, get_or, length}};
ghost use Rattle.score.specs.Score.{{Threshold}};

// Entry k: the bits of the least f32 above 0 whose 1,024th power reaches 10^k.
static THRESHOLDS: [u32; {len(table)}] = [
{rows}];

pub(crate) fn table() -> &'static [u32]
    ensures len {{ length result.now ≡ {len(table)} }}
    ensures entries {{ (k : ℕ) → k ≤ {TOP} → Threshold k (get_or result.now k 0) }}
{{
    &THRESHOLDS
}}
"""


def proof(table):
    starts = range(0, len(table), PART)
    names = [f"part{i}" for i in range(len(starts))]
    out = [
        """-- Made by tools/score_table.py: the table of src/thresholds.rt in parts, each with the computed test of its entries, and the rule at every entry.
-- Assumes nothing.
use mathlib.Core.Path.{◌≡◌, refl}
use mathlib.Core.List.{List, [], ◌∷◌, ◌++◌}
use Prim.Native.Nat.{ℕ, ◌≤◌}
use native.Mathlib.Omega.{arith}
use lib.Dec.{T}
use lib.Ieee.{of_bits}
use lib.ListN.{length, get_or}
use Rattle.score.specs.Score.{Threshold, reaches}
use Rattle.score.proofs.Table.{every, every_append, entry_of}
use Rattle.score.proofs.Bits.{least, least_is}
"""
    ]
    for i, (name, start) in enumerate(zip(names, starts)):
        entries = " ∷ ".join(str(n) for n in table[start : start + PART])
        out.append(
            f"""unfoldable pub {name} : List ℕ
{name} = {entries} ∷ []

ok{i} : T (every least {start} {name})
unfolding {name} reaches of_bits
ok{i} = tt
"""
        )
    out.append("-- the parts put together, from the last")
    rest, passed = names[-1], f"ok{len(names) - 1}"
    for i in reversed(range(len(names) - 1)):
        whole = f"{names[i]} ++ {rest}"
        out.append(
            f"""from{i} : T (every least {starts[i]} ({whole}))
from{i} = every_append least {names[i]} {rest} {starts[i]} {starts[i + 1]} (unfold {names[i]} in refl) ok{i} {passed}
"""
        )
        rest, passed = f"({whole})", f"from{i}"
    out.append(
        f"""unfoldable pub table : List ℕ
table = {rest[1:-1]}

long : length table ≡ {len(table)}
unfolding table {" ".join(names)}
long = refl

pub rule : (k : ℕ) → k ≤ {TOP} → Threshold k (get_or table k 0)
unfolding table
rule k h = least_is k (get_or table k 0) (entry_of least table {passed} k (rw long (omega arith)))
"""
    )
    return "\n".join(out)


def ratios(table):
    """Every threshold and its two neighbours, the patterns at the ends of each kind of float, and 2,000 patterns at random."""
    edges = [0, 1, HIDDEN - 1, HIDDEN, bits_of(1.0), bits_of(10.0), INFINITY - 1, INFINITY, INFINITY + 1, 0x7FC0_0000, SIGN - 1]
    rng = random.Random(1024)
    low, high = bits_of(0.5), bits_of(20.0)
    return (
        [n + d for n in table for d in (-1, 0, 1)]
        + [n + sign for n in edges for sign in (0, SIGN)]
        + [rng.randrange(low, high) for _ in range(1000)]
        + [rng.randrange(2 * SIGN) for _ in range(1000)]
    )


def files():
    table = [threshold(k) for k in range(TOP + 1)]
    listed = ratios(table)
    return {
        "crates/score/src/thresholds.rt": source(table).encode(),
        "crates/score/proofs/Entries.antt": proof(table).encode(),
        "crates/score_replay/stdin": struct.pack(f"<{len(listed)}I", *listed),
        "crates/score_replay/stdout": "".join(f"{n:08x} {score(n)}\n" for n in listed).encode(),
    }


def main():
    parser = argparse.ArgumentParser(description=__doc__, formatter_class=argparse.RawDescriptionHelpFormatter)
    parser.add_argument("--check", action="store_true", help="write nothing; say which files differ")
    check = parser.parse_args().check
    wrong = 0
    for name, content in files().items():
        path = ROOT / name
        if not check:
            path.write_bytes(content)
        elif not path.exists() or path.read_bytes() != content:
            print(f"{name} is not what tools/score_table.py writes", file=sys.stderr)
            wrong = 1
    return wrong


if __name__ == "__main__":
    sys.exit(main())
