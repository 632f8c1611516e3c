#!/usr/bin/env python3
"""Brings the definitions and lemmas of this repository to today's spelling: words in snake case, a dash only where it joins two names.

usage: python3 tools/respell.py    at the top of the repository, once, after the toolchain's own port script

A row of the table is OLD:NEW. Whole names are replaced in crates/*/specs, crates/*/proofs, crates/*/must-fail and the clauses of
crates/*/src; functions, types and files of src/ keep their names. docs/PORT.md says what it was for.
"""

import pathlib
import re

TABLE = """
None-before:NoneBefore accept-in:accept_in accepted-law:accepted_law accepted-right:accepted_right after-args:after_args
after-here:after_here after-split:after_split after-vals:after_vals alive-from:alive_from alive-in:alive_in alive-law:alive_law
alive-living:alive_living alive-small:alive_small alive-some:alive_some alive-there:alive_there along-as:along_as along-in:along_in
along-of:along_of and-digit:and_digit and-false:and_false and-of:and_of and-true:and_true any-skip:any_skip anyBelow:any_below
anyBelow-in:any_below_in anyBelow-of:any_below_of arc-in:arc_in arc-into:arc_into arc-offer:arc_offer area-local:area_local
area-tested:area_tested arg-part:arg_part arg-past:arg_past args-with:args_with asks-each:asks_each at-blocks:at_blocks atEnd:at_end
atFirst:at_first atMost:at_most atT:at_t back-of:back_of back-small:back_small badCondition:bad_condition badEnds:bad_ends badMove:bad_move
badMoveAt:bad_move_at badSizes:bad_sizes badStates:bad_states badTie:bad_tie badTieAt:bad_tie_at before-asym:before_asym
before-irrefl:before_irrefl begin-law:begin_law best-is:best_is between-high:between_high between-low:between_low between-yes:between_yes
byStatus:by_status c-long:c_long calls-for:calls_for calls-plain:calls_plain clear-new:clear_new come-back:come_back comes-in:comes_in
completes-law:completes_law condN:cond_n condition-law:condition_law conditionOf:condition_of count-is:count_is count-rule:count_rule
cut-none:cut_none demand-1:demand_1 demand-2:demand_2 demand-3:demand_3 digit-has:digit_has digit-of:digit_of digit-one:digit_one
drop-set:drop_set each-end:each_end end-in:end_in end-out:end_out end-said:end_said end-small:end_small end-some:end_some ends-law:ends_law
entry-out:entry_out every-at:every_at every-list:every_list exactly-one:exactly_one exactly-three:exactly_three exactly-two:exactly_two
few-ties:few_ties fillable-as:fillable_as filled-as:filled_as fills-past:fills_past first-law:first_law first-meets:first_meets
first-numbers:first_numbers first-such:first_such first-tests:first_tests firstGiven:first_given fit-past:fit_past fits-law:fits_law
follow-in:follow_in followed-at:followed_at followed-last:followed_last followed-unlisted:followed_unlisted follows-in:follows_in
found-when:found_when fromOf:from_of full-then:full_then given-behind:given_behind goes-drop:goes_drop goes-false:goes_false
goes-law:goes_law goes-true:goes_true going-when:going_when has-digit:has_digit home-past:home_past in-front:in_front in-range:in_range
in-rounds:in_rounds inner-args:inner_args inner-vals:inner_vals into-arc:into_arc into-in:into_in into-of:into_of is-n:is_n isGoing:is_going
joined-no:joined_no joined-vals:joined_vals joined-yes:joined_yes joins-join:joins_join joins-law:joins_law joins-split:joins_split
kind-in:kind_in kind-sets:kind_sets kindEntry:kind_entry kinds-few:kinds_few kinds-in:kinds_in kindsOf:kinds_of last-decides:last_decides
last-said:last_said last-two:last_two lateAt:late_at later-args:later_args later-vals:later_vals leads-in:leads_in leads-no:leads_no
leads-of:leads_of leads-on:leads_on leads-yes:leads_yes leadsInto:leads_into least-law:least_law least-one:least_one
leastTo-bound:least_to_bound leastTo-down:least_to_down leastTo-law:least_to_law leastTo-word:least_to_word leftBy:left_by lends-on:lends_on
lends-out-past:lends_out_past lends-rows:lends_rows lent-args:lent_args lent-tests:lent_tests lent-vals:lent_vals level-back:level_back
level-end:level_end lft-put:lft_put list-tests:list_tests listed-law:listed_law living-and:living_and living-row:living_row
local-law:local_law local-right:local_right lone-counted:lone_counted lone-once:lone_once lone-started:lone_started long-enough:long_enough
look-fails:look_fails look-whole:look_whole looked-more:looked_more looked-none:looked_none lower-down:lower_down lower-not:lower_not
lowered-as:lowered_as lowered-at:lowered_at lowered-then:lowered_then lowest-in:lowest_in lowestAt:lowest_at mark-here:mark_here
mark-in:mark_in markEntry:mark_entry matched-law:matched_law meets-as:meets_as meets-by:meets_by member-law:member_law mir-type:mir_type
mir-types:mir_types most-all:most_all most-from:most_from most-within:most_within move-law:move_law named-number:named_number
near-end:near_end near-more:near_more netN:net_n networkOf:network_of never-unreached:never_unreached next-alike:next_alike
next-law:next_law next-meets:next_meets next-numbers:next_numbers next-tests:next_tests nil-of:nil_of no-and:no_and no-chain:no_chain
noMove:no_move none-lower:none_lower none-one:none_one none-when:none_when not-the-first:not_the_first notListed:not_listed
of-first:of_first of-next:of_next of-round:of_round of-start:of_start offer-arc:offer_arc one-first:one_first one-is:one_is
one-next:one_next one-round:one_round one-run:one_run one-start:one_start onlyBelow:only_below onlyBelow-law:only_below_law
or-digit:or_digit or-in:or_in overTie:over_tie own-args:own_args own-cases:own_cases own-vals:own_vals owned-all:owned_all pair-in:pair_in
pairsAt:pairs_at pairsAt-law:pairs_at_law pass-together:pass_together past-rows:past_rows placeAt:place_at pow-digit:pow_digit pow-in:pow_in
pow-other:pow_other raise-fills:raise_fills raiseAt:raise_at raiseSeen:raise_seen raised-as:raised_as raisedAt:raised_at raisedIn:raised_in
raises-at:raises_at raises-more:raises_more reach-law:reach_law reached-law:reached_law reaches-law:reaches_law readNext:read_next
readPrepared:read_prepared refused-11:refused_11 refused-alike:refused_alike result-first:result_first right-local:right_local
round-alike:round_alike round-numbers:round_numbers round-tests:round_tests row-1:row_1 row-10:row_10 row-11:row_11 row-2:row_2 row-3:row_3
row-4:row_4 row-5:row_5 row-6:row_6 row-7:row_7 row-8:row_8 row-9:row_9 rows-1:rows_1 rows-2:rows_2 rows-3:rows_3 rows-4:rows_4
rows-5:rows_5 rows-6:rows_6 rows-7:rows_7 rows-held:rows_held runs-cons:runs_cons runs-join:runs_join runs-nil:runs_nil
runs-split:runs_split saidFirst:said_first saidNext:said_next saidPrepared:said_prepared same-arc:same_arc seenIn:seen_in set-in:set_in
set-of:set_of set-small:set_small setBelow:set_below setsN:sets_n share-put:share_put shortArea:short_area shortChain:short_chain
shortest-bound:shortest_bound shortest-law:shortest_law sizes-law:sizes_law small-found:small_found smallestOf:smallest_of
sofar-all:sofar_all sofar-living:sofar_living sofar-more:sofar_more sofar-none:sofar_none some-alive:some_alive some-before:some_before
starred-cases:starred_cases start-alike:start_alike start-in:start_in start-numbers:start_numbers start-tests:start_tests
stateEntry:state_entry step-law:step_law stepBack:step_back steps-in:steps_in stops-dead:stops_dead stops-off:stops_off stops-out:stops_out
sumBelow:sum_below surely-is:surely_is surely-there:surely_there takes-in:takes_in tally-in:tally_in tally-of:tally_of tests-pass:tests_pass
three-chains:three_chains tie-in:tie_in tie-law:tie_law tieAt:tie_at tieEntry:tie_entry tieOrder:tie_order ties-in:ties_in to-cut:to_cut
to-lend:to_lend toOf:to_of token-in:token_in token-out:token_out token-take:token_take type-past:type_past unique-first:unique_first
unique-next:unique_next usable-from:usable_from vals-with:vals_with ways-are:ways_are ways-of:ways_of waysFrom:ways_from
word-leastTo:word_least_to wrong-given:wrong_given wrong-passed:wrong_passed wrongArea:wrong_area yes-same:yes_same
"""

NEW = dict(row.split(":") for row in TABLE.split())
NAME = re.compile(r"[A-Za-z_][A-Za-z0-9_'\u2080-\u2089-]*")


def respelled(text):
    return NAME.sub(lambda m: NEW.get(m[0], m[0]), text)


def main():
    for path in sorted(pathlib.Path("crates").glob("*/*/**/*")):
        if path.suffix not in (".antt", ".edit", ".rt") or "out" in path.parts:
            continue
        old = path.read_text()
        new = respelled(old)
        if new != old:
            path.write_text(new)


if __name__ == "__main__":
    main()
