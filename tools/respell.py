#!/usr/bin/env python3
"""Brings this repository's own definitions and lemmas to the spelling of today's Rattle: words in snake case, a dash only between two names.

usage: tools/respell.py     at the top of the repository, once, right after the kit's port.py

It turns whole words in each .rt and .antt file below crates/. No old name in the table is one of a function, a type or a string of src/, so
there only ghost text changes, and a comment that names a definition.
"""
import os
import re

TABLE = """
absent-among absent_among
absent-around absent_around
accepted-only accepted_only
all-below all_below
all-parts all_parts
among-holds among_holds
annotation-asym annotation_asym
annotation-conn annotation_conn
annotation-total annotation_total
annotation-trans annotation_trans
annotationContentLess annotation_content_less
annotationLess annotation_less
annotationOf annotation_of
around-before around_before
around-first around_first
around-pop around_pop
assigned-among assigned_among
assigned-new assigned_new
assigned-over assigned_over
at-among at_among
at-apart at_apart
back-apart back_apart
behind-set behind_set
behind-tag behind_tag
big-endian-less big_endian_less
big-endian-one big_endian_one
big-endian-order big_endian_order
big-endian-summed big_endian-summed
bigEndian big_endian
bitSet bit_set
bitsLeft bits_left
block-stands block_stands
borrow-stands borrow_stands
by-tag by_tag
byte-by-byte byte_by_byte
bytes-by bytes_by
bytesFor bytes_for
bytesNeeded bytes_needed
compares-at compares_at
contentBytes content_bytes
contentLess content_less
continues-at continues_at
digit-small digit_small
drop-behind drop_behind
encode-128 encode_128
encode-300 encode_300
encode-bytes encode_bytes
encode-highest encode_highest
encode-last encode_last
encode-more encode_more
encode-value encode_value
encodeBy encode_by
enters-again enters_again
enters-inserted enters_inserted
enters-member enters_member
enters-nobody enters_nobody
epoch-covers-its-last epoch_covers_its_last
epoch-covers-no-later epoch_covers_no_later
fieldText field_text
finalized-300 finalized_300
finalized-asym finalized_asym
finalized-conn finalized_conn
finalized-highest finalized_highest
finalized-total finalized_total
finalized-trans finalized_trans
finalizedContentLess finalized_content_less
finalizedLess finalized_less
first-left first_left
found-removed found_removed
found-replaced found_replaced
found-sole found_sole
front-any front_any
front-apart front_apart
front-getD front_get
front-set front_set
get-back get_back
get-front get_front
has-behind has_behind
has-cases has_cases
has-cons-cases has_cons_cases
hasPlace has_place
height-stands height_stands
height-stands-in height_stands_in
height-total height_total
heightOf height_of
holds-among holds_among
in-number in_number
insert-more insert_more
insert-none insert_none
inserted-is inserted_is
inserted-push inserted_push
key-total key_total
keyBytes key_bytes
keyLess key_less
kindAnnotation kind_annotation
kindKey kind_key
layerText layer_text
leaves-member leaves_member
leaves-nobody leaves_nobody
leftIn left_in
length-around-any length-around_any
length-encode-last length-encode_last
length-encode-more length-encode_more
length-encode-ten length-encode_ten
length_encode_pos length-encode_pos
lex-at lex_at
lex-total lex_total
lexLess lex_less
locationText location_text
lookup-among lookup_among
missing-added missing_added
next-power-one next_power_one
no-tag no_tag
no-view no_view
none-begins none_begins
not-padded not_padded
not-refused not_refused
not-tenth not_tenth
notarized-1-128 notarized_1_128
nth-any nth_any
number-only number_only
number-stands number_stands
number-total number_total
numberRefusalOf number_refusal_of
one-by one_by
one-encoding one_encoding
one-length one_length
one-number-refusal one_number_refusal
one-refusal one_refusal
one-step one_step
other-bit other_bit
own-bit own_bit
pair-asym pair_asym
pair-cases pair_cases
pair-conn pair_conn
pair-first pair_first
pair-second pair_second
pair-total pair_total
pair-trans pair_trans
pairLess pair_less
pop-any pop_any
push-any push_any
put-tag put_tag
read-last read_last
refBytes ref_bytes
refusalOf refusal_of
refused-early refused_early
refused-number refused_number
refused-only refused_only
refuses-digest refuses_digest
refuses-end refuses_end
refuses-epoch refuses_epoch
refuses-height refuses_height
refuses-number refuses_number
refuses-tag refuses_tag
refuses-view refuses_view
remove-more remove_more
remove-none remove_none
removed-is removed_is
removed-push removed_push
rest-after rest_after
rest-set rest_set
rest-upto rest_upto
retained-all retained_all
retained-length retained_length
retained-more retained_more
retained-push retained_push
retained-rising retained_rising
retained-steady retained_steady
rising-added rising_added
rising-around rising_around
rising-holds rising_holds
rising-join rising_join
rising-parts rising_parts
rising-removed rising_removed
rising-replaced rising_replaced
rising-tested rising_tested
rising-with rising_with
rising-without rising_without
round-covers-itself round_covers_itself
round-covers-no-later round_covers_no_later
round-stands round_stands
round-stands-in round_stands_in
round-total round_total
roundLess round_less
roundOf round_of
row-after row_after
row-front row_front
row-length row_length
row-set row_set
same-height same_height
same-round same_round
shape-by shape_by
shape-last shape_last
shape-more shape_more
shift-whole shift_whole
short-digest short_digest
sole-among sole_among
sole-around sole_around
steady-at steady_at
step-eq step_eq
step-gt step_gt
step-lt step_lt
sum-higher sum_higher
sum-push sum_push
sumFrom sum_from
summed-big-endian summed-big_endian
sweep-drops sweep_drops
sweep-keeps sweep_keeps
tag-left tag_left
tag-of-field tag_of_field
tag-room tag_room
tagged-asym tagged_asym
tagged-conn tagged_conn
tagged-total tagged_total
tagged-trans tagged_trans
tail-put tail_put
take-bytes take_bytes
total-by total_by
total-from total_from
turned-byte turned_byte
turned-end turned_end
turned-first turned_first
turned-getD turned_get
turned-getD-any turned_get_any
turned-last turned_last
turned-min turned_min
turned-set-any turned-set_any
turned_set turned-set
two-numbers two_numbers
unknown-tag unknown_tag
value-by value_by
value-cons value_cons
value-more value_more
value-positive value_positive
value-push value_push
view-at view_at
walk-accepts walk_accepts
walk-refuses walk_refuses
whole-size whole_size
without-among without_among
without-around without_around
x-is x_is
xor-bit xor_bit
xs-is xs_is
"""

PAIRS = dict(line.split() for line in TABLE.split("\n") if line)
WORD = re.compile(r"(?<![\w'-])(?:" + "|".join(sorted(map(re.escape, PAIRS), key=len, reverse=True)) + r")(?![\w'-])")


def turn(path):
    with open(path, encoding="utf-8") as f:
        old = f.read()
    new = WORD.sub(lambda m: PAIRS[m.group()], old)
    if new != old:
        with open(path, "w", encoding="utf-8") as f:
            f.write(new)


def main():
    for folder, dirs, files in os.walk("crates"):
        dirs[:] = [d for d in dirs if d != "out"]
        for name in files:
            if name.endswith((".antt", ".rt")):
                turn(os.path.join(folder, name))


main()
