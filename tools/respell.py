#!/usr/bin/env python3
"""Respells the definitions and lemmas of specs/ and proofs/: facts in camel case, all other words in snake case.

usage: python3 tools/respell.py     at the top of the checkout, once, after the toolchain's own port.py

It goes over the .antt files, the .rt files and the must-fail edits below crates/. Functions of src/, strings,
inputs and outputs have none of these names. Two pairs would fall together (flow-told and flowTold, router-told and
routerTold): the lemma of each takes _lem.
"""
import os
import re

FACTS = """
All-have=AllHave All-stand=AllStand First-fault=FirstFault First-numbered=FirstNumbered
First-other=FirstOther First-router=FirstRouter Has-plan=HasPlan Index-back=IndexBack
Least-bursts=LeastBursts No-bursts=NoBursts None-above=NoneAbove None-before=NoneBefore
None-below=NoneBelow None-meets=NoneMeets On-lines=OnLines Own-file=OwnFile Reads-back=ReadsBack
Router-back=RouterBack Turned-down=TurnedDown Walks-hops=WalksHops Walks-north=WalksNorth
Walks-through=WalksThrough Writes-back=WritesBack
"""

# Definitions whose value is no fact, constructors, and names that an import gives.
DEFINITIONS = """
admittedLine=admitted_line answerText=answer_text backlogOf=backlog_of bodyLength=body_length
boundsAt=bounds_at boundsLine=bounds_line boundsLines=bounds_lines burstAt=burst_at
burstFits=burst_fits burstsOf=bursts_of countLine=count_line delayAt=delay_at depthFits=depth_fits
dimensionsOf=dimensions_of emptyTable=empty_table endRecord=end_record entriesOf=entries_of
faultAt=fault_at faultOf=fault_of fileOf=file_of flowBounds=flow_bounds flowFault=flow_fault
flowFits=flow_fits flowLine=flow_line flowLines=flow_lines flowNumber=flow_number
flowRecord=flow_record flowTold=flow_told frameFits=frame_fits fromNorth=from_north fullFor=full_for
headRecord=head_record isCalm=is_calm isClient=is_client isIn=is_in isNorth=is_north
isOther=is_other isRoomy=is_roomy isStill=is_still isTurn=is_turn isTurning=is_turning
latencyOf=latency_of leastBurst=least_burst linesTo=lines_to noFlow=no_flow northBursts=north_bursts
northRates=north_rates onTorus=on_torus oneLevel=one_level otherSlacks=other_slacks
outletRates=outlet_rates outletUnits=outlet_units packetsOf=packets_of placeWords=place_words
planText=plan_text queueAt=queue_at queueLine=queue_line queueLines=queue_lines queueRow=queue_row
rateFits=rate_fits recordOf=record_of refusedLine=refused_line rivalRates=rival_rates
rivalUnits=rival_units routerAt=router_at routerBounds=router_bounds routerTold=router_told
routerWords=router_words sideFits=side_fits startsAt=starts_at tableText=table_text takenAt=taken_at
torusLine=torus_line turnDelay=turn_delay turnRates=turn_rates turnSlacks=turn_slacks
turningBurst=turning_burst turnsAt=turns_at twoCounter=two_counter unitsOf=units_of waitOf=wait_of
weightOf=weight_of
"""

LEMMAS = """
a-line=a_line admitted-short=admitted_short ahead-ring=ahead_ring all-988=all_988 at-100=at_100
at-101=at_101 at-24=at_24 at-25=at_25 at-33=at_33 at-34=at_34 at-by=at_by at-depth-9=at_depth_9
at-start=at_start backlog-once=backlog_once backlogs-from=backlogs_from begun-end=begun_end
begun-full=begun_full begun-none=begun_none begun-wrong=begun_wrong body-short=body_short
bounds-short=bounds_short broken-is=broken_is broken-more=broken_more burst-turning=burst_turning
clipped-more=clipped_more clipped-part=clipped_part clipped-short=clipped_short cond-mono=cond_mono
count-few=count_few count-short=count_short covers-by=covers_by deep-by=deep_by deep-from=deep_from
delay-straight=delay_straight delay-turning=delay_turning drop-bytes=drop_bytes each-1=each_1
each-3=each_3 each-5=each_5 end-kind=end_kind end-split=end_split five-least=five_least
flow-is=flow_is flow-kind=flow_kind flow-same=flow_same flow-short=flow_short flow-split=flow_split
flow-there=flow_there flow-told=flow_told_lem flow-whole=flow_whole flows-more=flows_more
flows-same=flows_same flows-short=flows_short found-on-lines=found_on_lines full-bucket=full_bucket
good-parsed=good_parsed head-kind=head_kind head-same=head_same head-split=head_split
head-whole=head_whole headed-more=headed_more in-x=in_x index-some=index_some is-empty=is_empty
least-from=least_from least-once=least_once left-gone=left_gone length-encode=length_encode
length-flows=length_flows line-mono=line_mono line-straight=line_straight line-turning=line_turning
lined-more=lined_more lined-none=lined_none lines-mono=lines_mono lowered-here=lowered_here
lowered-there=lowered_there meets-from=meets_from mod-none=mod_none mod-once=mod_once
next-ring=next_ring no-fault=no_fault no-plan=no_plan none-if=none_if none-least=none_least
none-sound=none_sound north-mono=north_mono nth-set-other=nth_set_other off-torus=off_torus
one-hop=one_hop one-plan=one_plan or-false=or_false or-true=or_true over-from=over_from
own-file=own_file parsed-head=parsed_head parsed-same=parsed_same plan-short=plan_short
put-put=put_put queue-short=queue_short raised-gone=raised_gone raised-open=raised_open
reads-back=reads_back refused-more=refused_more refused-short=refused_short roomy-from=roomy_from
router-there=router_there router-told=router_told_lem said-whole=said_whole same-built=same_built
same-content=same_content same-packets=same_packets same-told=same_told side-le=side_le
side-some=side_some slack-of=slack_of some-if=some_if some-none=some_none sound-from=sound_from
sum-none=sum_none sum-term=sum_term table-short=table_short take-least=take_least to-index=to_index
to-router=to_router torus-short=torus_short turn-none=turn_none turn-some=turn_some
two-same=two_same under-solution=under_solution up-mono=up_mono walk-all=walk_all
walks-hops=walks_hops walks-north=walks_north walks-through=walks_through weight-of=weight_in
whole-more=whole_more with-allowance=with_allowance write-by=write_by writes-back=writes_back
wrong-is=wrong_is wrong-more=wrong_more wrong-parsed=wrong_parsed
"""

NAMES = dict(pair.split("=") for pair in (FACTS + DEFINITIONS + LEMMAS).split())
WORD = re.compile(r"(?<![\w'-])[A-Za-z_][\w'-]*")


def respelled(text):
    return WORD.sub(lambda m: NAMES.get(m.group(0), m.group(0)), text)


def files(top):
    for folder, dirs, names in os.walk(top):
        dirs[:] = [d for d in dirs if d != "out"]
        for name in sorted(names):
            if name.endswith((".antt", ".rt", ".edit")):
                yield os.path.join(folder, name)


def main():
    changed = 0
    for path in files("crates"):
        with open(path, encoding="utf-8") as f:
            old = f.read()
        new = respelled(old)
        if new != old:
            changed += 1
            with open(path, "w", encoding="utf-8") as f:
                f.write(new)
    print(f"respelled: {changed} files")


if __name__ == "__main__":
    main()
