#!/usr/bin/env python3
"""Respells the repository's own definitions and lemmas: snake case, types in camel case.

usage: python3 tools/respell.py [TOP]

It turns whole names in .antt files, in .rt files outside string literals, and in code spans of .md files.
A second run changes nothing.
"""

import os
import re
import sys

TABLE = dict(
    row.split()
    for row in """
Columns-read ColumnsRead
Grammar-holds GrammarHolds
Well-shaped WellShaped
Worked-values WorkedValues
after-all after_all
all-unbroken all_unbroken
at-add at_add
at-column at_column
at-nil at_nil
at-rounds at_rounds
binom-absorb binom_absorb
binom-last binom_last
binom-none binom_none
binom-past binom_past
bound-more bound_more
by-plain by_plain
by-trial by_trial
clear-sound clear_sound
column-expands column_expands
columns-read columns_read
cube-answer cube_answer
cube-of cube_of
cube-of-one cube_of_one
cube-of-other cube_of_other
cube-one cube_one
cube-other cube_other
cut-column cut_column
cut-rest cut_rest
cut-rows cut_rows
cut-sheet cut_sheet
digit-plain digit_plain
digits-after digits_after
digits-end digits_end
digits-high digits_high
digits-is digits_is
digits-say digits_say
digits-unbroken digits_unbroken
dot-after dot_after
dot-all dot_all
dot-more dot_more
dot-none dot_none
dot-part dot_part
drop-some drop_some
each-hom each_hom
end-of-line end_of_line
expansion-refused expansion_refused
fermat-at fermat_at
field-full field_full
field-short field_short
field-unbroken field_unbroken
field-value field_value
fields-written fields_written
four-laws four_laws
four-power four_power
four-root four_root
four-root-of four_root_of
from-least from_least
from-minus-one from_minus_one
from-minus-seventeen from_minus_seventeen
full-admitted full_admitted
full-least full_least
full-most full_most
given-negated given_negated
given-plain given_plain
glue-begin glue_begin
glue-lines glue_lines
grammar-holds grammar_holds
integer-at integer_at
inverse-step inverse_step
is-of is_of
less-whole less_whole
line-end line_end
line-length line_length
line-lines line_lines
line-more line_more
line-none line_none
line-of-length line_of_length
line-say line_say
line-says line_says
line-some line_some
line-values line_values
lines-say lines_say
lines-unbroken lines_unbroken
loosened-at loosened_at
not-refused not_refused
number-minus number_minus
number-unbroken number_unbroken
number-value number_value
of-bytes of_bytes
of-lines of_lines
ok-not-err ok_not_err
output-of output_of
padded-says padded_says
part-last part_last
part-more part_more
part-past part_past
part-zero part_zero
partial-admitted partial_admitted
partial-least partial_least
partial-most partial_most
plain-hom plain_hom
power-after power_after
power-even power_even
power-four power_four
power-odd power_odd
power-of-nil power_of_nil
power-plus power_plus
power-root power_root
power-round power_round
power-seven power_seven
power-square power_square
power-three power_three
power_zero power-zero
prime-17 prime_17
prime-baby-bear prime_baby_bear
prime-koala-bear prime_koala_bear
product-most product_most
residues-laws residues_laws
rest-is rest_is
rest-pos rest_pos
root-after root_after
root-same root_same
row-long row_long
rows-bad rows_bad
rows-length rows_length
rows-push rows_push
rows-say rows_say
rows-zero rows_zero
say-line say_line
say-rows say_rows
sheet-of sheet_of
size-at size_at
size-refused size_refused
sizes-refused sizes_refused
sum-cong sum_cong
sum-last sum_last
tab-more tab_more
ten-most ten_most
text-blank text_blank
text-is text_is
text-plain text_plain
text-unbroken text_unbroken
text-value text_value
two-laws two_laws
two-mul two_mul
whole-at whole_at
whole-c whole_c
whole-size whole_size
width-admitted width_admitted
width-least width_least
width-most width_most
width-refused width_refused
with-column with_column
worked-values worked_values_lem
written-more written_more
""".strip().splitlines()
)

NAME = re.compile(r"[^\s(){}.;,@\"«»`]+")
STRING = re.compile(r'"(?:[^"\\]|\\.)*"')
SPAN = re.compile(r"`[^`\n]+`")


def turned(text):
    return NAME.sub(lambda m: TABLE.get(m[0], m[0]), text)


def outside_strings(text):
    parts, last = [], 0
    for m in STRING.finditer(text):
        parts += [turned(text[last : m.start()]), m[0]]
        last = m.end()
    return "".join(parts) + turned(text[last:])


def in_spans(text):
    return SPAN.sub(lambda m: turned(m[0]), text)


HOW = {".antt": turned, ".rt": outside_strings, ".md": in_spans}


def main(top):
    for folder, inside, files in os.walk(top):
        inside[:] = [d for d in inside if d not in (".git", "out", "target")]
        for name in files:
            how = HOW.get(os.path.splitext(name)[1])
            if how is None:
                continue
            path = os.path.join(folder, name)
            with open(path, encoding="utf-8") as f:
                old = f.read()
            new = how(old)
            if new != old:
                with open(path, "w", encoding="utf-8") as f:
                    f.write(new)


main(sys.argv[1] if len(sys.argv) > 1 else ".")
