#!/usr/bin/env python3
"""Brings the definitions and lemmas of this repository to today's spelling, once, after port.py.

usage: python3 tools/respell.py            at the top of the repository

Names of functions, types and fields of src/ stay. A definition or a lemma is in snake case, a dash joins two names, a plain word hangs
on by an underscore, and a fact keeps its capital. The table below says each name; a name that would fall on one that stands is refused.
"""
import os
import re
import sys

# everywhere in specs/ and proofs/, and in the clauses and imports of src/
NAMES = """
words/specs
words/proofs
  word-of word_of-four
  joined-list joined_list
  digits-agree digits_agree
  xor-cancel xor_cancel
  xor-exchange xor_exchange
  xor-double xor_double
  turned_or turned-or
  turned_lt turned-lt
  turned-back turned_back
  ror-none ror_none
  ror4-one ror4_one
  times8-one times8_one
  rotate-left-one rotate_left_one
  rotate-right-one rotate_right_one
  wrapping-add-one wrapping_add_one
  byte-of-one byte_of_one
  from-le-bytes-one from_le_bytes_one
  to-le-bytes-one to_le_bytes_one
spans/specs
  xorBytes xor_bytes
spans/proofs
  xor_bytes Bytes-xor_bytes
  append-bytes Bytes-append
  take-bytes Bytes-take
  drop-bytes Bytes-drop
  replicate-bytes Bytes-replicate
  append-all AllBytes-append
  take-all-bytes AllBytes-take
  drop-all-bytes AllBytes-drop
  replicate-all AllBytes-replicate
  xor_all AllBytes-xor_bytes
  xor-at xor_at
  xor-twice xor_twice
  xor-zeros xor_zeros
  head-length head_length
  front-none front_none
  front-next front_next
  front-more front_more
  front-done front_done
  written-length written_length
  take-before take_before
  splice-whole splice_whole
  block-whole block_whole
  mid-splice mid_splice
  given-after given_after
  given-other given_other
  least-one least_one
  copy-one copy_one
  xor-one xor_one
field/specs
  mdsPoly mds_poly
  rsPoly rs_poly
  rowTimes row_times
  mdsTimes mds_times
  rsTimes rs_times
  mdsColumn mds_column
field/proofs
  scale-double scale_double
  product_lt product-lt
  remainder-small remainder_small
  remainder-double remainder_double
  step_twice step-twice
  is-horner is_horner
  horner-more horner_more
  mul-step mul_step
  mul-two mul_two
  byte-xor byte_xor
  word-xor word_xor
  mds-small mds_small
  columns-more columns_more
  times-one times_one
  written-column written_column
  no-column no_column
  with-top with_top
  without-top without_top
  double-one double_one
  gf-mult-one gf_mult_one
  gf-mult gf_mult
  mds-column-mult-one mds_column_mult_one
  mds-column-mult mds_column_mult
  mds-mult-one mds_mult_one
  mds-mult mds_mult
  rs-mult-one rs_mult_one
  rs-mult rs_mult
sbox/specs
  qOf q_of
sbox/proofs
  q-injective q_injective
  rows-one rows_one
  order-one order_one
  sbox-one sbox_one
twofish/specs
  permutedAt permuted_at
  everyOther every_other
  sBytes s_bytes
  keyNumber key_number
  setUp set_up
twofish/proofs
  y-taken y_taken
  y-left y_left
  y-step y_step
  through-law through_law
  fill-two fill_two
  set-four set_four
  concat-snoc concat_snoc
  parts-length parts_length
  part-more part_more
  stores-more stores_more
  bytes-at bytes_at
  is-A is_a_word
  is-B is_b_word
  even-key even_key
  odd-key odd_key
  s-four s_four
  taken-units taken_units
  set-up-taken set_up_taken
  set-up-refused set_up_refused
block/specs
  sWords s_words
  encipheredWords enciphered_words
  decipheredWords deciphered_words
  blockNumber block_number
block/proofs
  through-at through_at
  bytes-of-at bytes_of_at
  y-at y_at
  looked-up looked_up
"""

# the paper's single letters, only where they are these definitions and not a variable or a type parameter
LETTERS = {
    "crates/twofish/specs/Schedule.antt": {"Me": "m_e", "Mo": "m_o", "A": "a_word", "B": "b_word", "K": "k_word"},
    "crates/twofish/proofs/ScheduleLaws.antt": {"Me": "m_e", "Mo": "m_o", "A": "a_word", "B": "b_word", "K": "k_word"},
    "crates/twofish/proofs/subkeys/Proof.antt": {"K": "k_word"},
    "crates/twofish/src/lib.rt": {"K": "k_word"},
    "crates/block/specs/Block.antt": {"S": "s_list"},
    "crates/block/specs/Rounds.antt": {"F\u2080": "f\u2080", "F\u2081": "f\u2081"},
    "crates/block/proofs/Columns.antt": {"S": "s_list"},
    "crates/block/proofs/g_column/Proof.antt": {"S": "s_list"},
    "crates/block/src/lib.rt": {"S": "s_list"},
}

NAME = re.compile(r"[\w\-'\u207b\u00b9]+")
SIGNATURE = re.compile(r"(?m)^ *(?:(?:unfoldable|abbrev|pub|record|data) +)*([\w\-'\u207b\u00b9]+) *:")
CODE = re.compile(r"^\s*(ghost use|requires|ensures)\b")


def table():
    names = {}
    for line in NAMES.splitlines():
        if line.startswith("  "):
            old, new = line.split()
            if old in names:
                sys.exit(f"respell: {old} stands twice in the table")
            names[old] = new
    return names


def words(text, names):
    return NAME.sub(lambda m: names.get(m.group(), m.group()), text)


def turned(text, names, letters):
    """Each line respelled: a letter only before the line's comment, since comments keep the paper's letters."""
    out = []
    for line in text.split("\n"):
        code, dash, note = line.partition("-- ") if not line.startswith("--") else ("", "", line)
        out.append(words(code, {**names, **letters}) + dash + words(note, names))
    return "\n".join(out)


def main():
    names = table()
    files = []
    for folder, dirs, found in os.walk("crates"):
        dirs[:] = sorted(d for d in dirs if d != "out")
        files += [os.path.join(folder, f) for f in sorted(found) if f.endswith((".antt", ".rt"))]
    files += [os.path.join("docs", f) for f in sorted(os.listdir("docs")) if f == "PROMISES.md"]
    texts = {p: open(p, encoding="utf-8").read() for p in files}
    standing = {n for p, t in texts.items() if p.endswith(".antt") for n in SIGNATURE.findall(t)}
    for old, new in names.items():
        if new in standing and new not in names:
            sys.exit(f"respell: {old} would fall on {new}, which stands: nothing was written")
    for path, text in texts.items():
        letters = LETTERS.get(path, {})
        if path.endswith(".rt"):
            new = "\n".join(words(l, {**names, **letters}) if CODE.match(l) else l for l in text.split("\n"))
        elif path.endswith(".md"):
            new = words(text, {o: n for o, n in names.items() if o.endswith("-one")})
        else:
            new = turned(text, names, letters)
        if new != text:
            with open(path, "w", encoding="utf-8") as f:
                f.write(new)
    return 0


if __name__ == "__main__":
    sys.exit(main())
