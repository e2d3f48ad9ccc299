#!/usr/bin/env python3
"""Brings the repository's own definitions and lemmas to the spelling of today's Rattle: snake case for words, upper
camel case for facts and types, a dash only where a lemma's name joins two definitions' names.

Run once, at the top, after the port's own scripts: python3 tools/respell.py [ROOT]
It renames in the clauses and ghost items of crates/*/src, and in crates/*/specs and crates/*/proofs. Comments keep their
words, but for names that stand in them between backquotes. Functions of src/, strings and files keep their names.
"""

import pathlib
import re
import sys

# old name, new name
NAMES = dict(line.split() for line in """
Both-lawful BothLawful
Bytes-tell-rows BytesTellRows
Entry-fits EntryFits
Is-served IsServed
Kept-up KeptUp
One-apart OneApart
S s_box
S-byte s_box_byte
S-invS s_box-inv_s_box
Same-rows SameRows
Some-fault SomeFault
Sound-act SoundAct
Stamp-tells-row StampTellsRow
Stands-for StandsFor
Strip-file IsStripFile
Struck-out StruckOut
Turn-keeps-stamp TurnKeepsStamp
accepted-blocks accepted_blocks
accepted-place accepted_place
act-follows act_follows
act-passed act_passed
act-refusal act_refusal
addRoundKey add_round_key
aes-redone aes_redone
aes-undone aes_undone
aes-untweaked aes_untweaked
aesRounds aes_rounds
aesRounds-more aes_rounds_more
all-each-row all_each_row
all-served all_served
answer-misfit answer_misfit
answer-of answer_of
answers-untraced answers_untraced
at-forth at_forth
at-station at_station
bigEndian big_endian
bigEndian-bytes big_endian_bytes
bigEndian-length big_endian-length
bigEndian-small big_endian_small
bodies-end bodies_end
body-follows body_follows
body-start body_start
body-within body_within
both-lawful both_lawful
both-sound both_sound
by-act by_act
bytes-tell-rows bytes_tell_rows
cell-blocks cell_blocks
cells-after cells_after
cells-follow cells_follow
column-bytes column_bytes
column-undone column_undone
columns-bytes columns_bytes
columns-undone columns_undone
compare-refusal compare_refusal
constant-bytes constant_bytes
copied-row copied_row
decides-same decides_same
decimal-longer decimal_longer
digit-byte digit_byte
digit-linear digit_linear
digit-product digit_product
doubled-byte doubled_byte
doubled-linear doubled_linear
each-bytes each_bytes
each-row-same each_row_same
each-row-twice each_row_twice
each-sound each_sound
each-undone each_undone
edition-one edition_one
either-linear either_linear
end-untraced end_untraced
end-verdict end_verdict
entries-end entries_end
entries-few entries_few
entries-more entries_more
entries-refused entries_refused
entries-sound entries_sound
entries-start entries_start
entries-verdict entries_verdict
entry-cut entry_cut
entry-linear entry_linear
entry-long entry_long
entry-start entry_start
entry-unit entry_unit
entry-verdict entry_verdict
entry-within entry_within
fault-line fault_line
fault-short fault_short
fields-of fields_of
fields-verdict fields_verdict
file-accepted file_accepted
file-mark file_mark
file-totals file_totals
filled-long filled_long
first-left first_left
first-records first_records
first-right first_right
firstOff first_off
fits-sound fits_sound
fork-redone fork_redone
fork-undone fork_undone
forkAes fork_aes
forkAes-bytes fork_aes_bytes
forkAes-lawful fork_aes_lawful
forkAes-made fork_aes_made
forkAesMaps fork_aes_maps
fromBits from_bits
fullRound full_round
fullRound-bytes full_round_bytes
fullRound-invFullRound full_round-inv_full_round
getD-cells get_or-cells
getD-each-row get_or-each_row
getD-opened get_or-opened
going-all going_all
going-none going_none
has-mark has_mark
has-trailer has_trailer
head-block head_block
header-block header_block
header-tweak header_tweak
how-many how_many
image-block image_block
image-origin image_origin
in-blank in_blank
in-spare in_spare
invAes inv_aes
invAes-untweaked inv_aes_untweaked
invAesRounds inv_aes_rounds
invAesRounds-more inv_aes_rounds_more
invBranch inv_branch
invForkAes inv_fork_aes
invForkAes-bytes inv_fork_aes_bytes
invForkAes-made inv_fork_aes_made
invFullRound inv_full_round
invFullRound-bytes inv_full_round_bytes
invFullRound-fullRound inv_full_round-full_round
invKiasu inv_kiasu
invKiasu-bytes inv_kiasu_bytes
invKiasu-made inv_kiasu_made
invKiasuRounds inv_kiasu_rounds
invKiasuRounds-run inv_kiasu_rounds_run
invMix inv_mix
invMix-mix inv_mix-mix
invMixColumn inv_mix_column
invMixColumns inv_mix_columns
invRounds-same inv_rounds_same
invRun inv_run
invRun-bytes inv_run_bytes
invRun-more inv_run_more
invRun-run inv_run_run
invS inv_s_box
invS-S inv_s_box-s_box
invS-byte inv_s_box_byte
invShiftRows inv_shift_rows
invShiftRows-bytes inv_shift_rows_bytes
invShiftRows-shiftRows inv_shift_rows-shift_rows
invStem inv_stem
invSubBytes inv_sub_bytes
invSubBytes-bytes inv_sub_bytes_bytes
invSubBytes-subBytes inv_sub_bytes-sub_bytes
inverse-bits inverse_bits
inverse-one inverse_one
inverse-only inverse_only
inverse-rule inverse_rule
inverse-zero inverse_zero
is-conversion is_conversion
is-sound is_sound
keeps-up keeps_up
kept-agree kept_agree
kept-or kept_or
keyByte key_byte
keyByte-byte key_byte_byte
keyByte-more key_byte_more
keyed-all keyed_all
keyed-bytes keyed_bytes
keyed-more keyed_more
keyed-none keyed_none
keyed-step keyed_step
keyedRun-redone keyed_run_redone
keyedRun-undone keyed_run_undone
kiasu-bytes kiasu_bytes
kiasu-inverse kiasu_inverse
kiasu-made kiasu_made
kiasu-redone kiasu_redone
kiasu-undone kiasu_undone
kiasuMap kiasu_map
kiasuRounds kiasu_rounds
kiasuRounds-run kiasu_rounds_run
laid-front laid_front
laid-is laid_is
laid-rest laid_rest
laid-stands laid_stands
last-redone last_redone
last-undone last_undone
lay-refusal lay_refusal
least-below least_below
least-number least_number
ledger-answer ledger_answer
ledger-answers ledger_answers
ledger-lay ledger_lay
ledger-of ledger_of
ledger-run ledger_run
ledger-step ledger_step
length-each-row length_each_row
length-fault-line length-fault_line
length-flat-set length-flat_set
length-record-line length-record_line
length-total-line length-total_line
linear-zero linear_zero
lines-done lines_done
listed-bytes listed_bytes
listing-by listing_by
listing-long listing_long
listing-read listing_read
listing-refused listing_refused
listing-sound listing_sound
long-verdict long_verdict
longest-fault longest_fault
longest-record longest_record
longest-total longest_total
memory-fits memory_fits
mix-invMix mix-inv_mix
mixColumn mix_column
mixColumns mix_columns
mixed-cancel mixed_cancel
mixed-more mixed_more
mixed-with mixed_with
mixing-all mixing_all
mixing-more mixing_more
mixing-none mixing_none
moreIf more_if
most-entries most_entries
most-input most_input
most-rows most_rows
most-text most_text
moved-bytes moved_bytes
next-least next_least
nextKey next_key
numbers-rise numbers_rise
ok-sound ok_sound
on-rows on_rows
one-put one_put
origin-block origin_block
origin-image origin_image
other-made other_made
own-stamp own_stamp
own-tweak own_tweak
part-set part_set
part-sym part_sym
partial-byte partial_byte
partial-linear partial_linear
pile-back pile_back
pile-known pile_known
pile-named pile_named
pile-number pile_number
pile-of pile_of
pile-short pile_short
pile-word pile_word
place-named place_named
plain-block plain_block
product-byte product_byte
product-linear product_linear
put-cells put_cells
put-digit put_digit
put-digits put_digits
put-flat put_flat
put-length put_length
put-part put_part
put-put put_put
put-row put_row
put-twice put_twice
put-within put_within
quarter-bytes quarter_bytes
ran-follows ran_follows
read-refused read_refused
record-line record_line
record-short record_short
records-listing records_listing
refusal-memory refusal_memory
refused-first refused_first
refused-line refused_line
refused-or refused_or
repeated-bytes repeated_bytes
replaced-all replaced_all
replaced-more replaced_more
replaced-none replaced_none
reply-follows reply_follows
rest-verdict rest_verdict
right-block right_block
right-tells right_tells
room-all room_all
room-more room_more
room-none room_none
roundConstants round_constants
roundKey round_key
roundKey-bytes round_key_bytes
rounds-same rounds_same
row-answers row_answers
row-sum row_sum
row-tweak row_tweak
rows-below rows_below
rows-for rows_for
rows-from-sealed rows_from_sealed
run-answers run_answers
run-blocks run_blocks
run-both run_both
run-bytes run_bytes
run-invRun run_inv_run
run-state run_state
run-told run_told
same-kind-is same_kind_is
same-table same_table
scheduled-row scheduled_row
sealed-stands sealed_stands
served-kept served_kept
set-each-row set_each_row
shift-inverse shift_inverse
shift-linear shift_linear
shiftRows shift_rows
shiftRows-bytes shift_rows_bytes
shiftRows-invShiftRows shift_rows-inv_shift_rows
shiftedMap shifted_map
short-verdict short_verdict
shows-made shows_made
side-inverse side_inverse
sized-cells sized_cells
small-drop small_drop
small-filled small_filled
small-take small_take
some-none some_none
sound-end sound_end
sound-first sound_first
sound-from sound_from
sound-struck sound_struck
sound-trailer sound_trailer
spare-zero spare_zero
spread-bytes spread_bytes
stamp-by stamp_by
stamp-of stamp_of
stamp-one stamp_one
stamp-refused stamp_refused
stamp-stands stamp_stands
stamp-tells-row stamp_tells_row
stamps-differ stamps_differ
stands-is stands_is
stands-sealed stands_sealed
state-of state_of
station-back station_back
station-known station_known
station-named station_named
station-number station_number
station-of station_of
station-short station_short
station-word station_word
stays-refused stays_refused
stem-redone stem_redone
step-answer step_answer
step-misfit step_misfit
stored-block stored_block
stored-sized stored_sized
strips-stand strips_stand
struck-agree struck_agree
struck-out struck_out
struck-right struck_right
subBytes sub_bytes
subBytes-bytes sub_bytes_bytes
subBytes-invSubBytes sub_bytes-inv_sub_bytes
sum4-byte sum4_byte
sum4-same sum4_same
sum4-swap sum4_swap
sum4-unit sum4_unit
sum4-xor sum4_xor
swept-more swept_more
swept-put swept_put
too-long-line too_long_line
total-is-sum total_is_sum
total-line total_line
total-rows total_rows
total-short total_short
trailer-few trailer_few
trailer-verdict trailer_verdict
trailer-whole trailer_whole
turn-call turn_call
turn-keeps-stamp turn_keeps_stamp
tweak-bytes tweak_bytes
tweakedKey tweaked_key
tweakedKey-small tweaked_key_small
tweakedKey-zero tweaked_key_zero
unready-text unready_text
with-place with_place
written-more written_more
wrong-memory wrong_memory
wrong-place wrong_place
xor-inverse xor_inverse
xor-swap xor_swap
xor-twice xor_twice
xored-bytes xored_bytes
xored-comm xored_comm
xored-long xored_long
xored-twice xored_twice
zero-kept zero_kept
zeroTweak zero_tweak
zeroTweak-bytes zero_tweak_bytes
zeros-zero zeros_zero
◌andThen◌ ◌and_then◌
""".split("\n") if line)

# names that are one letter long, and stand for something else elsewhere
ONLY_IN = {"S": ("aes",)}

TOKEN = re.compile(r"[^\s(){}\[\].,;«»]+")
QUOTED = re.compile(r"`[^`]*`")


def renamed(text, crate):
    def new(m):
        word = m.group(0)
        if word in NAMES and crate in ONLY_IN.get(word, (crate,)):
            return NAMES[word]
        return word

    return TOKEN.sub(new, text)


def turned(line, comment, crate):
    """The line with names turned; of its comment, only what stands between backquotes."""
    at = line.find(comment)
    if at < 0 or '"' in line[:at]:
        return renamed(line, crate)
    note = QUOTED.sub(lambda m: renamed(m.group(0).replace("`", "` "), crate).replace("` ", "`"), line[at:])
    return renamed(line[:at], crate) + note


def main(root):
    for path in sorted((root / "crates").rglob("*")):
        part = path.relative_to(root).parts
        if path.suffix not in (".rt", ".antt") or "out" in part:
            continue
        old = path.read_text()
        comment = "//" if path.suffix == ".rt" else "--"
        new = "\n".join(turned(line, comment, part[1]) for line in old.split("\n"))
        if new != old:
            path.write_text(new)


if __name__ == "__main__":
    main(pathlib.Path(sys.argv[1] if len(sys.argv) > 1 else "."))
