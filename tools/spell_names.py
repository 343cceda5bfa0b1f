#!/usr/bin/env python3
"""Respells this repository's own definitions, lemmas, labels and constructors in snake case, once, after the kit's port.py.

usage: python3 tools/spell_names.py     at the top of the repository; files are rewritten in place, and a second run is refused

Functions of src/, strings, inputs and outputs keep their names, and so do the names that Rattle makes of goals and steps
(`returns-..`, `loop-..`, `in_ok-..`). Where a lemma would get the name of the function that it speaks of, it gets `_lem`.
The table is of the form OLD:NEW; all of it is applied at once, so that a NEW may be another's OLD.
"""
import pathlib
import re

NAMES = """
actionRows:action_rows and-bit:and_bit and-idem:and_idem and-joins:and_joins and-rest:and_rest and-unit:and_unit
andRows:and_rows as-onwards:as_onwards at-column:at_column at-placed:at_placed at-stays:at_stays
becomes-antisym:becomes_antisym becomes-refl:becomes_refl becomes-trans:becomes_trans begins-hit:begins_hit
behind-of:behind_of benchRefusal:bench_refusal boolLetter:bool_letter branchRows:branch_rows by-letter:by_letter
closing-wider:closing_wider conditionAt:condition_at conditionRows:condition_rows connRows:conn_rows
declRows:decl_rows differ-low:differ_low digitAt:digit_at digitRows:digit_rows draftLists:draft_lists
draftOf:draft_of each-b:each_b either-reads:either_reads endSort:end_sort eqb-plus:eqb_plus
everyLetter:every_letter exitRows:exit_rows exprRows:expr_rows fails-via:fails_via filled-all:filled_all
fork-reads:fork_reads fromTokens:from_tokens front-is:front_is gate-dangles:gate_dangles_lem
gate-means:gate_means gateDangles:gate_dangles gateLetter:gate_letter goes-start:goes_start goes-stop:goes_stop
goes-turn:goes_turn goes-via:goes_via grammar-laws:grammar_laws_lem hasFirst:has_first hasSecond:has_second
headAt:head_at hit-next:hit_next hit-second:hit_second hit-sort:hit_sort hit-under:hit_under
inside-begins:inside_begins inside-closes:inside_closes inside-none:inside_none inside-opens:inside_opens
integer-at:integer_at integer-is:integer_is integer-reads:integer_reads integerOf:integer_of
integerSort:integer_sort isLeaf:is_leaf itemRows:item_rows joins-many:joins_many joins-series:joins_series
joins-then:joins_then keyword-at:keyword_at keyword-below:keyword_below keyword-is:keyword_is
keyword-known:keyword_known keyword-of:keyword_of_lem keyword-reads:keyword_reads keywordCode:keyword_code
keywordOf:keyword_of keywordPlace:keyword_place keywordSort:keyword_sort kind-at:kind_at_lem
kind-below:kind_below kind-of:kind_of kindLetter:kind_letter kindSort:kind_sort laneLetter:lane_letter
lastLetter:last_letter layerName:layer_name leaf-begun:leaf_begun leaf-below:leaf_below
leaf-integer:leaf_integer leaf-keyword:leaf_keyword leaf-mark:leaf_mark leaf-name:leaf_name
leaf-reads:leaf_reads leaves-keyword:leaves_keyword leaves-mark:leaves_mark left-got:left_got
left-stop:left_stop left-wider:left_wider letter-laws:letter_laws_lem letters-append:letters_append
letters-length:letters_length letters-push:letters_push letters-stay:letters_stay lettersAfter:letters_after
lettersOf:letters_of levelTold:level_told link-depth:link_depth link-words:link_words literalAt:literal_at
lowest-first:lowest_first many-end:many_end many-reads:many_reads many-step:many_step many-wider:many_wider
mapOut:map_out maps-fails:maps_fails maps-three:maps_three mark-at:mark_at mark-is:mark_is mark-of:mark_of_lem
mark-reads:mark_reads markPlace:mark_place maybe-none:maybe_none maybe-reads:maybe_reads maybe-some:maybe_some
maybe-stop:maybe_stop moreAnds:more_ands moreConns:more_conns moreDecls:more_decls moreDigits:more_digits
moreExits:more_exits moreItems:more_items moreOrs:more_ors morePrefixes:more_prefixes moreSteps:more_steps
moreTargets:more_targets moreXors:more_xors name-at:name_at name-is:name_is name-reads:name_reads
nameSort:name_sort nandDangles:nand_dangles nandL:nand_l nandLetter:nand_letter nandPrice:nand_price
nested-shape:nested_shape newStoreTold:new_store_told next-same:next_same next-sort:next_sort no-a:no_a
no-b:no_b no-dollar:no_dollar no-pair:no_pair nodeAt:node_at none-against:none_against not-bit:not_bit
not-both:not_both not-keeps:not_keeps not-keyword:not_keyword not-mark:not_mark not-or:not_or notL:not_l
ofBit:of_bit ok-inside:ok_inside ok-onward:ok_onward ok-sound:ok_sound ok-unit:ok_unit on-end:on_end
on-more:on_more on-stop:on_stop one-got:one_got one-is:one_is one-stop:one_stop oneL:one_l only-full:only_full
onwards-reads:onwards_reads opens-no-end:opens_no_end operandsOf:operands_of or-bit:or_bit or-idem:or_idem
or-joins:or_joins or-keeps:or_keeps or-unit:or_unit orL:or_l orRows:or_rows other-got:other_got
other-stop:other_stop over-leaves:over_leaves part-deep:part_deep part-got:part_got part-more:part_more
part-reads:part_reads part-stop:part_stop part-wrong:part_wrong partLetter:part_letter parts-of:parts_of
pattern-means:pattern_means pin-below:pin_below pin-letter:pin_letter_lem pinLetter:pin_letter
pinSignal:pin_signal pinWired:pin_wired placeRefusal:place_refusal prefixRows:prefix_rows prefixSign:prefix_sign
primaryRows:primary_rows read-there:read_there readInteger:read_integer readKeyword:read_keyword
readMany:read_many readMark:read_mark readName:read_name readPart:read_part readSeries:read_series
readTold:read_told readWith:read_with refOf:ref_of refusalLine:refusal_line resetRows:reset_rows
right-got:right_got right-stop:right_stop right-wider:right_wider rowLists:row_lists rows-first:rows_first
rows-second:rows_second rule-reads:rule_reads same-integer:same_integer same-keyword:same_keyword_lem
same-keyword-at:same_keyword_at same-mark:same_mark same-tree:same_tree same-wider:same_wider
sameKeyword:same_keyword sameLetter:same_letter sameSign:same_sign second-sort:second_sort seqs-back:seqs_back
seqs-fails:seqs_fails seqs-got:seqs_got series-reads:series_reads series-step:series_step seriesOn:series_on
seriesRows:series_rows settleRefusal:settle_refusal sign-known:sign_known signSort:sign_sort
some-cells:some_cells sort-below:sort_below sort-of:sort_of sound-push:sound_push stage-dangles:stage_dangles
stage-letter:stage_letter_lem stageCell:stage_cell stageLetter:stage_letter stageWired:stage_wired
stages-letters:stages_letters stagesAfter:stages_after starts-hit:starts_hit starts-then:starts_then
statementAt:statement_at stepAt:step_at stepRows:step_rows stmtRows:stmt_rows stop-as:stop_as stop-by:stop_by
stop-first:stop_first stop-map:stop_map stopFault:stop_fault stops-all:stops_all stops-behind:stops_behind
stops-within:stops_within store-laws:store_laws_lem storeRefusal:store_refusal storeTold:store_told
subscriptOf:subscript_of tableMeaning:table_meaning takes-integer:takes_integer takes-keyword:takes_keyword
takes-mark:takes_mark takes-name:takes_name targetAt:target_at targetRows:target_rows targetsPlace:targets_place
termLists:term_lists then-got:then_got then-reads:then_reads then-stop:then_stop
then-stop-second:then_stop_second told-keyword:told_keyword told-mark:told_mark two-bits:two_bits
two-words:two_words unit-hit:unit_hit valueRows:value_rows viable-via:viable_via wired-at:wired_at
wired-from:wired_from withDigit:with_digit withExits:with_exits withItem:with_item withNode:with_node
withResets:with_resets withStatement:with_statement withStep:with_step withTarget:with_target
withTerms:with_terms within-from:within_from within-via:within_via wordTold:word_told xor-bit:xor_bit
xor-keeps:xor_keeps xorL:xor_l xorRows:xor_rows zeroL:zero_l same_sign:same_sign_lem
"""

WORD = re.compile(r"[^\s(){}.,;:«»⌜⌝\[\]|`]+")


def main():
    if any("same_sign_lem" in path.read_text(encoding="utf-8") for path in pathlib.Path("crates").rglob("*.antt")):
        raise SystemExit("spell_names: this repository is respelled already")
    table = dict(pair.split(":") for pair in NAMES.split())

    def respell(text):
        return WORD.sub(lambda word: table.get(word[0], word[0]), text)

    for path in sorted(pathlib.Path("crates").rglob("*")):
        if path.suffix in (".antt", ".rt") and path.is_file():
            old = path.read_text(encoding="utf-8")
            new = respell(old)
            if new != old:
                path.write_text(new, encoding="utf-8")
    for path in [pathlib.Path("README.md"), *sorted(pathlib.Path("docs").glob("*.md"))]:
        old = path.read_text(encoding="utf-8")
        new = re.sub(r"`[^`\n]+`", lambda quoted: respell(quoted[0]), old)
        if new != old:
            path.write_text(new, encoding="utf-8")


if __name__ == "__main__":
    main()
