#!/usr/bin/env python3
"""Brings the names of our own definitions and lemmas to the spelling of today's Rattle.

usage: python3 tools/respell_names.py, once, at the top of a repository that port.py has just turned.

Words are in snake case. Names that begin with length- keep their hyphen, as those of the library do.
A lemma whose new name would fall together with a definition's ends in -is instead. Functions of
src/, strings, inputs and outputs keep their names, and so do the names that Rattle generates for
goals and steps.
"""

import os
import re

NAMES = """
addAnswer add_answer
address-fits address_fits
advanceResult advance_result
after-after after_after
afterAll after_all
all-checked all_checked
all-is all_is
all-taken all_taken
allTicks all_ticks
alone-found alone_found
alone-place alone_place
alone-there alone_there
answer-is answer_is
answerFrom answer_from
areMarks are_marks
ask-one ask_one
asked-found asked_found
asked-if asked_if
askedIn asked_in
asking-is asking_is
asking-nine asking_nine
asking-small asking_small
asksRecords asks_records
at-end at_end
at-h at_h
at-l at_l
at-newer at_newer
at-older at_older
at-start at_memory_start
before-grows before_grows
before-next before_next
before-none before_none
before-year before_year
begun-long begun_long
behind-0x behind_0x
behind-head behind_head
below-four below_four
below-zero below_zero
bit-linear bit_linear
bit-xor bit_in-xor
bitIn bit_in
blocks-left blocks_left
both-try both_try
broadcast-moves broadcast_moves
broadcast-told broadcast_told
by-table by_table
byte-linear byte_linear
byteIn byte_in
carried-alike carried_alike
carried-asked carried_asked
carried-number carried_number
carried-shows carried_shows
carried-used carried_used
cellAfter cell_after
chain-tells chain_tells
chained-none chained_none
chained-tells chained_tells
changeAddress change_address
changePassword change_password
changed-alike changed_alike
checkWord check_word
clearLog clear_log
cleared-or-not cleared_or_not
clearedBy cleared_by
clearsEvents clears_events
clearsGaps clears_gaps
clockAfter clock_after
closesPermitted closes_permitted
coming-fits coming_fits
command-asked command_asked
command-is command_is
commandOf command_of
count-is count_is
count-step count_step
covered-byte covered_byte
data-alike data_alike
data-of data_of-is
data-same data_same
dataIn data_in
dataLen data_len
date-parts date_parts
dateIn date_in
dateOf date_of
day-is day_is
dayNumber day_number
dayOfMonth day_of_month
dayOfYear day_of_year
debounceGiven debounce_given
decided-cell decided_cell
decides-more decides_more
destination-alike destination_alike
destinationOf destination_of
digitOf digit_of
done-together done_together
drop-least drop_least
e-after e_after
e-call e_call
e-calls e_calls
e-k e_k
e-m e_m
e-n e_n
e-o e_o
e-p e_p
e-r e_r
e-reply e_reply
e-result e_result
e-results e_results
e-x e_x
e-y e_y
enough-lent enough_lent
event-alike event_alike
event-becomes event_becomes
event-body event_body-is
event-by event_by
event-entered event_entered
event-noted event_noted-is
event-only event_only
event-read event_read-is
event-told event_told
event-whole event_whole
eventAt event_at
eventBody event_body
eventBytes event_bytes
eventNoted event_noted
eventNow event_now
eventRead event_read
eventResult event_result
events-after events_after-is
events-cleared events_cleared
events-held events_held
eventsAfter events_after
eventsSince events_since
eventsWith events_with
every-date every_date
every-second every_second
few-gaps few_gaps
few-held few_held
fields-found fields_found
filled-long filled_long
filledWith filled_with
finds-unique finds_unique
first-bytes first_bytes
first-cleared first_cleared
first-entered first_entered
first-set first_set
for-alike for_alike
for-asked for_asked
for-own for_own
for-shows for_shows
for-used for_used
found-asked found_asked
found-cell found_cell
found-shows found_shows
found-together found_together
foundIn placed_found
four-back four_back
four-told four_told
fourAt four_at
frame-asked frame_asked
frameAsks frame_asks
frameBefore frame_before
full-step full_step
gap-alike gap_alike
gap-body gap_body-is
gap-noted gap_noted-is
gap-only gap_only
gap-told gap_told
gap-whole gap_whole
gapBody gap_body
gapBytes gap_bytes
gapNoted gap_noted
gapRead gap_read
gapResult gap_result
gapVolume volume_of_gaps
gaps-after gaps_after-is
gaps-cleared gaps_cleared
gaps-held gaps_held
gapsAfter gaps_after
gapsSince gaps_since
gapsWith gaps_with
getD-sealed slice_index-sealed
givenBy given_by
granted-asked granted_asked
granted-cell granted_cell
grantedOf granted_of
grows-on grows_on
has-shape has_shape
has-volume has_volume
hear-whole hear_whole
heard-cell heard_cell
heard-shows heard_shows
heard-so heard_so
heard-step heard_step
heard-together heard_together
hearing-number hearing_number
hears-granted hears_granted
hears-refused hears_refused
hears-whole hears_whole
held-alike held_alike
held-part held_part
held-step held_step
heldBy held_by
heldCount held_count
heldFor held_for
heldIn held_in
heldNumber held_number
high-cancels high_cancels
holding-set holding_set
holdsFour holds_four
in-december in_december
in-month in_month
in-months in_months
in-round in_round
in-x in_x
in-y in_y
in-year in_year-is
in-years in_years
inYear in_year
indexPast index_past
is-shaped is_shaped
isBroadcast is_broadcast
isConfiguration is_configuration
isDay is_day
isEvents is_events
isGrant is_grant
isGranted is_granted
isLawful is_lawful
isLog is_log
isMark is_mark
isMask is_mask
isRight is_right
isSetpoint is_setpoint
isSetting is_setting
isShort is_short
isSpeed is_speed
isTime is_time
judged-alike judged_alike
judged-for-same judged_for_same
judged-number judged_number
judged-same judged_same
judged-shows judged_shows
judged-used judged_used
judgedFor judged_for
keeps-step keeps_step
kept-none kept_none
kept-number kept_number
kindAsked kind_asked
laid-held laid_held
last-two last_two
lastDate last_date
lastGiven last_given
later-number later_number
later-slots later_slots
leap-day leap_day
lent-all lent_all
lent-part lent_part
lent-rest lent_rest
life-alike life_alike
life-same life_same
lifeAfter life_after
logRecords log_records
logState log_state
long-next long_next
low-passes low_passes
made-last made_last
masksGiven masks_given
measureResult measure_result
measured-alike measured_alike
minute-added minute_added
minute-stays minute_stays
minuteOf minute_of
month-is month_is
monthDays month_days
monthLengths month_lengths
monthOf month_of
most-blocks most_blocks
moved-alike moved_alike
movedBy moved_by
newest-before newest_before
newest-few newest_few
newest-here newest_here
newest-last newest_last
newest-push newest_push
newest-push-full newest_push_full
next-within next_within
nextPlace place_after
nineBytes nine_bytes
no-count no_count
no-leap-day no_leap_day
no-month no_month
noPosition no_position
noRoom no_room
none-checked none_checked
not-headed not_headed
not-here not_here
not-long not_long
not-past not_past
not-read not_read
note-answer note_answer-is
note-room note_room
note-whole note_whole
noteAnswer note_answer
noteCall note_call
noteEvent note_event
noteGap note_gap
noteResult note_result
nothing-coming nothing_coming
number-held number_held
of-request of_request
ofDone of_done
ofHearing of_hearing
oldest-held oldest_held
onLine on_line
one-more-checked one_more_checked
one-more-taken one_more_taken
open-cell open_cell
open-needs open_needs
openWrites open_writes
opened-is opened_is
opened-long opened_long
or-false or_false
other-blocks other_blocks
other-cleared other_cleared
others-fit others_fit
outcome-alike outcome_alike
outcomeOf outcome_of
over-more over_more
over-push over_push
over-written over_written
own-alike own_alike
own-moves own_moves
own-told own_told
parameters-are parameters_are
part-first part_first
part-given part_given
part-is part_is
part-lent part_lent
passwordCell password_cell
passwords-of passwords_of
permitsSetpoints permits_setpoints
permittedWrites permitted_writes
place-within place_within
placed-front placed_front
placed-rest placed_rest
positionAt position_at
put-behind put_behind
put-together put_together
ranked-alike ranked_alike
ranked-shows ranked_shows
ranked-used ranked_used
reached-at reached_at
reached-is reached_is
readAddress read_address
readClock read_clock
readConfiguration read_configuration
readMarks read_marks
readSetting read_setting
readsLog reads_log
record-count record_count
record-max record_max
records-of records_of
recordsAnswer records_answer
refused-cell refused_cell
rejoin-step rejoin_step
reply-alike reply_alike
reply-by reply_by-is
reply-same reply_same
replyBy reply_by
replyLength reply_length
replyOf reply_of
replyTo reply_to
requestOf request_of
rest-fits rest_fits
rest-kept rest_kept
result-alike result_alike
result-by result_by-is
result-grants result_grants
result-number result_number
result-reaches result_reaches
result-same result_same
result-used result_used
resultTo result_to
right-alike right_alike
right-behind right_behind
rightBy right_by
rightFor right_for
rightIn right_in
ring-added ring_added
ring-emptied ring_emptied
ring-same ring_same
ring-step ring_step
ring-unused ring_unused
ringOf ring_of
room-alike room_alike
room-lent room_lent
row-alike row_alike
row-asked row_asked
row-used row_used
ruled-asked ruled_asked
ruled-number ruled_number
run-all run_all
same-cells same_cells-is
same-cut same_cut
same-date same_date
same-k same_k
sameAddress same_address
says-next says_next
seasonBit season_bit
seasonOf season_of
second-cleared second_cleared
second-set second_set
sends-kept sends_kept
sends-some sends_some
sent-most sent_most
sent-one sent_one
sentBytes sent_bytes
sentCount sent_count
set-part set_part
setClock set_clock
setSpeed set_speed
setting-past setting_past
settingCell setting_cell
settings-of settings_of
shape-of-reply shape_of_reply
short-alike short_alike
short-same short_same
slot-there slot_there
some-month some_month
sound-is sound_is
sound-parts sound_parts
span-alike span_alike
standingFor standing_for
stateBytes state_bytes
stateIn state_in
step-cell step_cell
step-shows step_shows
step-together step_together
stood-after stood_after
stood-for stood_for
stood-hearing stood_hearing
sumBelow sum_below
take-least take_least
takesType takes_type
ten-first ten_first
ten-is ten_is
ten-long ten_long
test-is test_is
this-block this_block
this-long this_long
this-taken this_taken
tickedBy ticked_by
timeAfter time_after
timeBy time_by
timed-alike timed_alike
toldCount told_count
toldMax told_max
tried-alike tried_alike
triedIn tried_in
triesIn tries_in
turns-tell turns_tell
turns-together turns_together
two-told two_told
twoAt two_at
unlessCleared unless_cleared
usedBy used_by
usedFor used_for
usedWith used_with
value-cond value_cond
verdict-alike verdict_alike
whole-records whole_records
whole-used whole_used
withAccess with_access
withData with_data
withLogs with_logs
worth-end worth_end
worth-next worth_next
writeConfiguration write_configuration
writeMarks write_marks
writeOutputMask write_output_mask
writeSetpoint write_setpoint
writesPermitted writes_permitted
wrong-found wrong_found
year-long year_long
year-rest year_rest
yearDays year_days
yearOf year_of
"""

TABLE = dict(line.split() for line in NAMES.split("\n") if line)
WORD = re.compile(r"(?<![\w'-])[a-z][A-Za-z0-9_']*(?:-[A-Za-z0-9_']+)*")
CLAUSE = re.compile(r"\b(ghost use\b|ghost\b|requires\b|ensures\b)")
GENERATED = re.compile(r"\b(c|goal)\.$")


def turned(text, answers):
    def new(match):
        name = match.group(0)
        before = text[max(0, match.start() - 8) : match.start()]
        if name not in TABLE or (answers and GENERATED.search(before)):
            return name
        return TABLE[name]

    return WORD.sub(new, text)


def turned_source(text):
    """Only ghost lines and clauses name definitions; a clause ends where its braces do."""
    out, depth = [], 0
    for line in text.split("\n"):
        if depth or CLAUSE.match(line.strip()):
            out.append(turned(line, False))
            depth += line.count("{") - line.count("}")
            if line.strip().endswith("= {") or depth < 0:
                depth = max(depth, 0)
        else:
            out.append(line)
    return "\n".join(out)


def main():
    for folder, folders, files in os.walk("crates"):
        folders[:] = [f for f in folders if f != "out"]
        for name in files:
            path = os.path.join(folder, name)
            if name.endswith(".antt"):
                answers = name in ("Answers.antt", "Invariants.antt")
                turn = lambda text: turned(text, answers)
            elif name.endswith(".rt"):
                turn = turned_source
            else:
                continue
            with open(path, encoding="utf-8") as file:
                old = file.read()
            new = turn(old)
            if new != old:
                with open(path, "w", encoding="utf-8") as file:
                    file.write(new)


main()
