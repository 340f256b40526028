#!/usr/bin/env python3
"""Spells the names of the specs and proofs as today's Rattle spells its own: words in snake case, with no capital inside.

usage: python3 tools/respell_names.py [FOLDER]

It goes by the tables below, over crates/*/specs, proofs, src and must-fail of FOLDER (this folder, by default), and over
the code spans of README.md and docs/. Whole words alone turn, in code and in comments; a name that the toolchain makes
(as loop-x-preserved, or what stands behind c., l., w. or goal.) stays. No quoted text of a source file is touched. A
second run changes nothing.

Where plain respelling would let two names fall together, or a definition with a function of src/, the table has another
name. It was run once, beside the toolchain's own script for older repositories, and is kept so that the commit that
ran it can be made again.
"""

import os
import re
import sys

# old name, new name
NAMES = dict(
    line.split()
    for line in """
above-hi above_hi
above-least above_least
absent-known absent_known
accumulate-keeps accumulate_keeps
accumulate-site accumulate_site
accumulated-length accumulated_length
accumulatingAddsLots accumulating_adds_lots
add-next add_next
addFrom add_from
addFromBy add_from_by
addSpan add_span
addStretches add_stretches
addTimes times_added
added-column added_column
added-or-null added_or_null
adds-column adds_column
adds-found adds_found
adds-lots adds_lots
adds-nothing adds_nothing
after-null after_null
afterType after_type
all-added all_added
all-count all_count
all-taken all_taken
allowed-started allowed_started
allowedBelongs allowed_belongs
always-valid always_valid
and-left-is and_left_is
answer-allowed answer_allowed
answer-lives answer_lives
answer-read answer_read
answerNow answer_now
answeredBy answered_by
atColon at_colon
begins-exact begins_exact
begins-same begins_same
below-least below_least
below-lo below_lo
bit-low bit_low
bit-room bit_room
bitmapLen bitmap_len
blankRecord blank_statistics
boardAccumulated board_accumulated
boardCleared board_cleared
boardCombined board_combined
boardMerged board_merged
both-add both_add
both-there both_there
both-took both_took
bothAdded both_added
by-cached by_cached
by-nan-count by_nan_count_lem
by-option by_option
byNanCount by_nan_count
byte-bit byte_bit
byte-of-bool byte_of_bool
byteEntries byte_entries
byteOnto byte_onto
bytes-bit bytes_bit
bytes-by bytes_by
bytes-end bytes_end
bytes-length bytes_length
cachedFits cached_sum_fits
cachedOk cached_ok
cachedStep cached_step
call-keeps call_keeps
capped-over capped_over
capped-so capped_so
capped-within capped_within
cappedTotal capped_total
cases-map cases_map
checked-between checked_between
checked-fits checked_fits
checked-out checked_out
checked-over checked_over
checked-within checked_within
checkedSum checked_sum
chunk-added chunk_added
chunk-overflow-ends chunk_overflow_ends
chunked-at chunked_at
chunked-first chunked_first
chunks-map chunks_map
clear-keeps clear_keeps
clear-site clear_site
cleared-length cleared_length
coded-code coded_code
colon-at colon_at
colon-none colon_none
column-adds-floats column_adds_floats
column-adds-signed column_adds_signed
column-adds-unsigned column_adds_unsigned
column-total column_total
columnCount column_count
columnLots column_lots
columnStep column_step
columnSumBy column_sum_by
combine-keeps combine_keeps
combine-site combine_site
combined-length combined_length
comes-null comes_null
comment-decides comment_decides
constantMeaning constant_meaning
constantProper constant_proper
converted-tells converted_tells
count-alone count_alone
count-lawful count_lawful
count-one count_one
count-present count_present
count-reads count_reads
count-start count_start
count-type count_type
countBatch count_batch
countDType count_dtype
countFrom count_from
countFromBy count_from_by
countItem count_item
countModel count_model
countScalar scalar_of_count
countTotal count_total
counted-or-not counted_or_not
counted-value counted_value
counts-add counts_add
countsNothing counts_nothing
cut-fuel cut_fuel
cut-length cut_length
cut-map cut_map
cut-none cut_none
cut-total cut_total
doubleEntries double_entries
eitherMeaning either_meaning
eitherProper either_proper
emptyAllowed empty_allowed
emptyNotSaturated empty_not_saturated
endsIn ends_in
endsIn-not ends_in_not
endsIn-push ends_in_push
entry-by entry_by_lem
entry-same entry_same
entryBy entry_by
every-call-keeps every_call_keeps
exact-fits exact_fits
exact-is exact_is
exact-more exact_more
exact-sum exact_sum
exactCount exact_count
exactTotal exact_total
exactly-lots exactly_lots
exactly-mapped exactly_mapped
familyOf family_of
far-passed far_passed
fault-of-named fault_of_named
faultAt fault_at
faultFrom fault_from
faultText fault_text
filled-length filled_length
filled-or filled_or
first-colon first_colon
first-none first_none
first-null first_null
fits-answer fits_answer
fits-belongs fits_belongs
fits-cached fits_cached
fits-cleared fits_cleared
fits-combines fits_combines
fits-decides fits_decides
fits-joins fits_joins
fits-reordered fits_reordered
fits-stays fits_stays
fits-taken fits_taken
fits-unused fits_unused
flags-right flags_right
flat-grown flat_grown
flat-length flat_length
flat-opened flat_opened
flat-stretches flat_stretches
float-joins float_joins
float-next float_next
float-part float_part
float-reads float_reads
float-sum-fits float_sum_fits
float-taken float_taken
float-told-apart float_told_apart
floatProduct float_product
floatRecord float_record
floatSpan float_span
floatStep float_step
floatSum float_sum
floatTimes float_times
floats-all-added floats_all_added
fresh-end fresh_end
freshStep fresh_step
from-line from_line
fromCached from_cached
fromSum from_sum
full-either-side full_either_side
gains-twice gains_twice
going-all going_all
going-at going_at
going-fault going_fault
going-passed going_passed
going-site going_site
half-adds half_adds
half-joins half_joins
half-stays half_stays
headerBy header_by
headerFrom header_from
headerOf header_of
held-again held_again
holds-belongs holds_belongs
holds-joins holds_joins
holds-reordered holds_reordered
holds-stays holds_stays
holdsNull holds_null
ifCounted if_counted
intIn int_in
intItem int_item
intTotal int_total
intWorth int_worth
is-null-scalar is_null_scalar
is-past is_past
is-state-scalar is_state_scalar
is-there is_there
is-written is_written
joined-allowed joined_allowed
keepEntry keep_entry
keepingNans keeping_nans
keeps-state keeps_state
kept-answered kept_answered
kept-canonical kept_canonical
kindNamed kind_of_name
left-answer left_answer
left-sum left_sum
length-new length_new
linesLeft lines_left
listed-proper listed_proper
longEntries long_entries
lots-sum lots_sum
lots-total lots_total
lotsBy lots_by
mag-neg mag_neg
merge-site merge_site
merged-capped merged_capped
merged-checked merged_checked
merged-length merged_length
merged-none merged_none
merged-or-null merged_or_null
merged-partial merged_partial
mergedCounts merged_counts
mergedInto merged_into
mergedStates merged_states
merging-saturates accumulators_saturate
mergingAddsSheets merging_adds_sheets
mergingSaturates merging_saturates
more-more more_more
more-passed more_passed
move-runs move_runs
nan-canonical nan_canonical
nan-ends nan_ends
nan-kept nan_kept
nan-kept-once nan_kept_once
nan-passed-over nan_passed_over
nanCount count_of_nans
nanPattern nan_pattern
nanState nan_state
nanValue nan_value
nanWorth nan_worth
nansOf nans_of
natIn nat_in
natItem nat_item
natTotal nat_total
natWorth nat_worth
new-board new_board
next-by next_by
nextFault next_fault
no-blank-at no_blank_at
no-blank-parts no_blank_parts
no-blank-sites no_blank_sites
no-blank-words no_blank_words
no-colon no_colon
no-next no_next
none-by none_by
none-by-rest none_by_rest
none-count none_count
none-not-some none_not_some
none-same none_same
none-second none_second
none-words none_words
not-nothing not_nothing
notEmpty not_empty
notEmpty-none not_empty_none
notEmpty-some not_empty_some
nothing-whole nothing_whole
nth-filled nth_filled
nth-map nth_map
nth-set-other nth_set_other
nth-there nth_there
nth-typed nth_typed
null-either-side null_either_side
null-left null_left
null-lots null_lots
null-merged null_merged
null-more null_more
null-neither null_neither
null-read null_read
null-right null_right
null-stays null_stays
nullAlways null_always
nullItem null_item
nullOf null_of
nullOnly null_only
nullable-or nullable_or
nullableOf nullable_of
number-taken number_taken
numeral-decides numeral_decides
of-family of_family
of-type of_type
ok-not-err ok_not_err
onFirst on_first
onNewBoard on_new_board
ones-length ones_length
onto-capped onto_capped
onto-more onto_more
onto-none onto_none
onto-nothing onto_nothing
onto-zero onto_zero
or-all or_all
or-none or_none
orderDoesNotCount order_does_not_count
other-column other_column
out-allowed out_allowed
overflow-ends overflow_ends
overflow-stays overflow_stays
own-dtype own_dtype
own-flag own_flag
own-kind own_kind
own-type own_type
page-end page_end
page-kept page_kept
page-step page_step
pair-answers pair_answers
pair-lawful pair_lawful
pair-reports pair_reports
pairBatch pair_batch
pairModel pair_model
part-map part_map
parted-by parted_by
partialKind partial_kind
partly-all partly_all
partly-fault partly_fault
partsFault parts_fault
passed-more passed_more
past-nans past_nans
past-second past_second
past-skipped past_skipped
past-type past_type
performed-length performed_length
pieces-at pieces_at
pieces-parted pieces_parted
pieces-without pieces_without
present-next present_next
primitiveMeaning primitive_meaning
primitiveProper primitive_proper
product-added product_added
product-adds product_adds
product-as-read product_as_read
product-canonical product_canonical
product-in product_in
product-in-128-bits product_in_128_bits
product-none product_none
product-over product_over
product-within product_within
ran-length ran_length
read-answered read_answered
read-site reads_site
readAfter answer_after
readingAt reading_at
reads-again pair_reads_again
reads-something reads_something
readsAgain reads_again
reasonText reason_text
record-answered record_answered
record-written record_written
recordAt statistics_at
refusedLeaves refused_leaves
reordered-none reordered_none
reordered-null reordered_null
reordered-sum reordered_sum
reordered-total reordered_total
reported-reads reported_reads
reportedModel reported_model
reportedTotal reported_total
right-count right_count
rightBatch right_batch
rows-push rows_push
rows-set rows_set
rows-unused rows_unused
run-first run_first
run-part run_part
run-same run_same
same-accumulated same_accumulated
same-cleared same_cleared
same-combined same_combined
same-dtype same_dtype
same-merged same_merged
same-sheets same_sheets
same-signed same_signed
same-site same_site
same-valid same_valid
sameFlag has_same_flag
sameKind has_same_kind
sameType has_same_type
saturated-started saturated_started
saturatedBy saturated_by
saturatedNow saturated_now
saturatedStaysAllowed saturated_stays_allowed
saturates-merging saturates_merging
saturation-read saturation_read
saturation-site saturation_site
scalar-same scalar_same
scalar-value scalar_value
scalarAllowed scalar_allowed
scalarNow scalar_now
scalarOf scalar_of
scalarOk scalar_ok
sheet-in sheet_in
sheet-lots sheet_lots
sheet-more sheet_more
sheet-reordered sheet_reordered
sheetAfter sheet_after
sheetAt sheet_at
sheetOf sheet_of
sheetsAccumulated sheets_accumulated
sheetsAfter sheets_after
sheetsCleared sheets_cleared
sheetsCombined sheets_combined
sheetsLine sheets_line
sheetsMerged sheets_merged
sheetsPage sheets_page
shorter-after shorter_after
signed-adds signed_adds
signed-amount signed_amount
signed-belongs signed_belongs
signed-cached signed_cached
signed-hands signed_hands
signed-joins signed_joins
signed-read signed_read
signed-reordered signed_reordered
signed-returns signed_returns
signed-stays signed_stays
signed-times signed_times_lem
signed-told-apart signed_told_apart
signed-total signed_total_lem
signed-total-of signed_total_of
signed-written signed_written
signedRecord signed_record
signedSpan signed_span
signedText signed_text
signedTimes signed_times
signedTotal signed_total
single-folded single_folded
single-sum single_sum
single-total single_total
site-reads site_reads
site-reads-more site_reads_more
site-report site_report
siteAnswer site_answer
siteColumn site_column
siteCount site_count
siteFault site_fault
siteLines site_lines
siteRead site_read
siteReset site_reset
siteSaturated site_saturated
siteScalar site_scalar
sites-keep sites_keep
sites-kept sites_kept
sitesFault sites_fault
sizeChecked size_checked
sizeFits is_board_size
skipped-without-comment skipped_without_comment
skipsBy skips_by
skipsNamed skips_of_name
sofar-more sofar_more
some-not-none some_not_none
span-adds span_adds
span-runs span_runs
start-by start_by
started-belongs started_belongs
state-flag state_flag
state-type state_type
state-value state_value
stateAs state_as
stateBatch state_batch
stateFilled state_filled
stateScalar scalar_of_state
statistics-same statistics_same
stays-null stays_null
step-answers step_answers
step-checked step_checked
step-next step_next
step-out step_out
step-refuses step_refuses
stepBy step_by
stepProduct step_product
steps-fit steps_fit
steps-total steps_total
stretch-same stretch_same
stretchSum stretch_sum
stretchSumBy stretch_sum_by
stretches-add stretches_add
stretches-run stretches_run
stretches-same stretches_same
stretchesFrom stretches_from
sum-alone sum_alone
sum-held sum_held
sum-in sum_in
sum-is-right sum_is_right
sum-lawful sum_lawful
sum-map sum_map
sum-out sum_out
sum-reads sum_reads
sum-reads-at sum_reads_at
sum-truthful sum_truthful
sum-type sum_type
sumBatch sum_batch
sumDType dtype_of_sum
sumFromZero sum_from_zero
sumIfCounted sum_if_counted
sumModel sum_model
sumPType sum_ptype
taken-allowed taken_allowed
taken-exact taken_exact
takenCount taken_count
takenIn taken_in
takes-own takes_own
takesItsDType takes_its_dtype
takesNoOther takes_no_other
there-by there_by
throughCache through_cache
times-one times_one
told-by-test told_by_test
total-by total_by
total-cons total_cons
total-from total_from
total-hi total_hi
total-lo total_lo
total-next total_next
true-at true_at
two-sites two_sites
type-same type_same
typeNamed type_of_name
typeThen type_then
typed-entry typed_entry
unsigned-adds unsigned_adds
unsigned-amount unsigned_amount
unsigned-belongs unsigned_belongs
unsigned-cached unsigned_cached
unsigned-hands unsigned_hands
unsigned-joins unsigned_joins
unsigned-part unsigned_part
unsigned-read unsigned_read
unsigned-reordered unsigned_reordered
unsigned-returns unsigned_returns
unsigned-stays unsigned_stays
unsigned-told-apart unsigned_told_apart
unsigned-total unsigned_total
unsigned-total-of unsigned_total_of
unsigned-type unsigned_type
unsigned-written unsigned_written
unsignedRecord unsigned_record
unsignedSpan unsigned_span
unsignedText unsigned_text
unsignedTimes unsigned_times
unsignedValue unsigned_value
utf8-after utf8_after
utf8-past utf8_past
validBy valid_by
value-of-dtype value_of_dtype
values-end values_end
values-later values_later
values-next values_next
values-typed values_typed
valuesColumn values_column
valuesFrom values_from
valuesKind values_kind
whole-adds whole_adds
whole-end whole_end
whole-runs whole_runs
whole-start whole_start
wholeCount whole_count
wholeLot whole_lot
wholeSum whole_sum
with-nans with_nans_lem
withNans with_nans
withPartial with_partial
without-nans without_nans_lem
withoutLast without_last
withoutLast-push without_last_push
withoutLast-same without_last_same
withoutNans without_nans
wordFault word_fault
words-after-gap words_after_gap
words-after-word words_after_word
words-at words_at
words-none words_none
wordsFault words_fault
writes-gain writes_gain
writes-truth writes_truth
wroteState wrote_state
zero-canonical zero_canonical
zero-fits zero_fits
zeroFloat zero_float
zeroValue zero_value
""".strip().splitlines()
)

# names that turn in one file alone: its path below crates/, old name, new name
LOCAL = {
    "columns/proofs/Views.antt": {"There": "is_there_at", "Adds": "adds_at"},
    "pairs/specs/Paired.antt": {"Pair": "pair_of_halves"},
    "pairs/proofs/Paired.antt": {"Pair": "pair_of_halves"},
    "site_totals/proofs/Reporting.antt": {"After": "after_step", "Left": "left_step", "Right": "right_step"},
}

# names that the toolchain's script has turned in the crates, for the pages
IN_PAGES = dict(
    line.split()
    for line in """
above-most above_most
add-none add_none
add-start add_start
all-there all_there
as-read as_read
bit-is bit_is
bitAt bit_at
bitsOf bits_of
by-bits by_bits
by-itself by_itself
byte-flag byte_flag
byte-next byte_next
byteOf byte_of
bytes-next bytes_next
call-kept call_kept
capped-is capped_is
codeOf code_of
columnSum column_sum
constantOf constant_of
count-next count_next
count-none count_none
count-same count_same
cut-sum cut_sum
drop-past drop_past
either-first either_first
entryAt entry_at
every-call every_call
exact-read exact_read
exact-same exact_same
first-chunk first_chunk
float-adds float_adds
floatOf float_of
folded-map folded_map
getD-any get_d_any
has-value has_value
intOf int_of
is-none is_none
is-some is_some
isNull is_null
itemOf item_of
kindOf kind_of
line-first line_first
linesOf lines_of
merge-in merge_in
merge-keeps merge_keeps
move-in move_in
named-by named_by
nan-is nan_is
nan-left nan_left
nan-right nan_right
natOf nat_of
newRow new_row
none-left none_left
none-stays none_stays
not-full not_full
not-none not_none
not-some not_some
nothing-left nothing_left
number-read number_read
one-less one_less
orElse or_else
out-cases out_cases
partly-more partly_more
past-first past_first
putBack put_back
read-again read_again
read-back read_back
reads-nothing reads_nothing
reads-same reads_same
rows-all rows_all
rows-at rows_at
rows-new rows_new
rows-next rows_next
run-length run_length
runFrom run_from
same-flag same_flag
same-kind same_kind
same-runs same_runs
scalar-read scalar_read
second-none second_none
set-there set_there
signed-part signed_part
signed-reads signed_reads
size-fits size_fits
some-is some_is
stateOf state_of
stays-within stays_within
step-added step_added
step-fits step_fits
step-in step_in
sum-fits sum_fits
sum-same sum_same
sum-step sum_step
toR to_r
typeBy type_by
typeOf type_of
typed-at typed_at
unsigned-reads unsigned_reads
valueOf value_of
values-same values_same
valuesOf values_of
withRow with_row
words-last words_last
wordsOf words_of
zeroOf zero_of
""".strip().splitlines()
)

WORD = re.compile(r"[^\s(){}.;,@\"«»:`]+")
MADE = re.compile(r"(?:^|[^\w'-])(?:c|l|w|goal|need|x|g)(?:\.[\w'-]+)*\.$")
QUOTED = re.compile(r"\"(?:\\.|[^\"\\\n])*\"")
SPAN = re.compile(r"`[^`\n]+`")


def respelled(text, names):
    def turn(m):
        word = m[0]
        if word not in names:
            return word
        if "-" in word and MADE.search(text[max(0, m.start() - 80) : m.start()]):
            return word
        return names[word]

    return WORD.sub(turn, text)


def outside_quotes(text, names):
    out, at = [], 0
    for m in QUOTED.finditer(text):
        out += [respelled(text[at : m.start()], names), m[0]]
        at = m.end()
    return "".join(out + [respelled(text[at:], names)])


def turned(path, below, text):
    names = NAMES | LOCAL.get(below, {})
    if path.endswith(".antt"):
        return respelled(text, names)
    if path.endswith((".rt", ".edit")):
        return outside_quotes(text, names)
    return SPAN.sub(lambda m: respelled(m[0], IN_PAGES | NAMES), text)


def files(root):
    for folder, dirs, names in os.walk(os.path.join(root, "crates")):
        dirs[:] = sorted(d for d in dirs if d != "out")
        yield from (os.path.join(folder, f) for f in sorted(names) if f.endswith((".antt", ".rt", ".edit")))
    pages = os.path.join(root, "docs")
    yield from (os.path.join(pages, f) for f in sorted(os.listdir(pages)) if f.endswith(".md") and not f.startswith("PORT"))
    yield os.path.join(root, "README.md")


def main(argv):
    root = argv[0] if argv else "."
    inside = os.path.join(root, "crates", "")
    changed = 0
    for path in files(root):
        with open(path, encoding="utf-8") as f:
            text = f.read()
        new = turned(path, path[len(inside) :] if path.startswith(inside) else "", text)
        if new != text:
            changed += 1
            with open(path, "w", encoding="utf-8") as f:
                f.write(new)
    print(f"{changed} files changed")


if __name__ == "__main__":
    main(sys.argv[1:])
