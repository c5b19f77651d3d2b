#!/usr/bin/env python3
"""Gives this repository's own definitions and lemmas the spelling of today's Rattle: words in snake case, facts in upper camel case.

usage: python3 tools/respell.py        once, at the top of the repository, right after the kit's port.py

It rewrites the .rt, .antt and .edit files of crates/: whole names only, outside strings and comments. Functions of src/, exported names,
strings, inputs and outputs keep their names. Where a lemma would have gotten the name of the function that it speaks of, it ends in `_lem`.
"""

import os
import re

# OLD=NEW
NAMES = """
Calls-bear-the-law=CallsBearTheLaw Carried-by=CarriedBy Counts-stations=CountsStations Delivers-nothing=DeliversNothing Each-call=EachCall
Eight-others=EightOthers Ended-before=EndedBefore Every-call-is-answered=EveryCallIsAnswered Every-play-is-a-run=EveryPlayIsARun
Every-run-is-lawful=EveryRunIsLawful First-cancelled=FirstCancelled First-fitting=FirstFitting Judged-by=JudgedBy Later-call=LaterCall Let-go=LetGo
Met-by=MetBy Motion-read=MotionRead Motion-written=MotionWritten Nearer-if=NearerIf Old-fate=OldFate One-lower=OneLower One-lower-by=OneLowerBy
One-octet=OneOctet Only-receives-deliver=OnlyReceivesDeliver Only-receives-deliver-by=OnlyReceivesDeliverBy Opening-bears-the-law=OpeningBearsTheLaw
Pretenders-are-caught=PretendersAreCaught Read-written=ReadWritten Rules-agree=RulesAgree Stays-lawful=StaysLawful The-example=TheExample
Goes_on=GoesOn Nearest-ourselves=NearestOurselves best-from=best_from waitFor=wait_for
Upper-read=UpperRead Upper-written=UpperWritten Written-read=WrittenRead accurateIn=accurate_in address-of=address_of again-too-soon=again_too_soon
aged-cancelled=aged_cancelled aged-fate=aged_fate aged-left=aged_left aged-let-go=aged_let_go aged-moved=aged_moved aged-old=aged_old
aged-one=aged_one aged-pair=aged_pair aged-serials=aged_serials aged-taking=aged_taking aged-waiting=aged_waiting all-at=all_at all-below=all_below
all-calls=all_calls all-duplicates=all_duplicates all-front=all_front all-meant=all_meant all-met-kept=all_met_kept all-other=all_other
allBlank=all_blank allNames=all_names among-append=among_append area-header-here=area_header_here area-header-read=area_header_read
area-header-rows=area_header_rows area-here=area_here area-read=area_read area-rows=area_rows areaAt=area_at areaHeaderAt=area_header_at
areaHeaderOctets=area_header_octets areaIn=area_in areaName=area_name areaOctets=area_octets areaWith=area_with asked-for=asked_for
back-waits=back_waits bad-placing=bad_placing bad-time=bad_time beaconAt=beacon_at before-cancelled=before_cancelled before-left=before_left
before-waiting=before_waiting behind-one=behind_one behind-waiting=behind_waiting best-brief=best_brief best-by=best_by best-in=best_in
best-longest=best_longest best-one=best_one blank-all=blank_all blank-more=blank_more body-area=body_area body-destination=body_destination
body-kind=body_kind both-parts=both_parts bothOf=both_of by-contention=by_contention by-greedy=by_greedy by-new=by_new call-new=call_new
call-newest=call_newest call-newly=call_newly calls-bear=calls_bear cancelled-by=cancelled_by check-passed=check_passed check-row=check_row
clean-append=clean_append clear-head=clear_head common-read=common_read commonIn=common_in commonName=common_name commonOctets=common_octets
commonOf=common_of commonWith=common_with cond-add=cond_add cond-zero=cond_zero contentIn=content_in contentOf=content_of
contention-meant=contention_meant contention-sound=contention_sound coordinate-here=coordinate_here coordinate-read=coordinate_read
coordinate-rows=coordinate_rows_lem coordinateAt=coordinate_at coordinateRow=coordinate_row coordinateRows=coordinate_rows count-up=count_up
cut-at=cut_at_lem cut-none=cut_none cut-push=cut_push decoded-dark=decoded_dark decoded-even=decoded_even decoded-high=decoded_high
decoded-line=decoded_line decoded-more=decoded_more decoded-odd=decoded_odd decoded-other=decoded_other decodedFrom=decoded_from deed-for=deed_for
deed-named=deed_named delivery-of=delivery_of destination-address=destination_address destination-of=destination_of
destination-vector=destination_vector destinationIn=destination_in destinationName=destination_name different-drop=different_drop
different-few=different_few different-heard=different_heard different-more=different_more different-one=different_one different-push=different_push
digit-clean=digit_clean digitOf=digit_of digitValue=digit_value digits-all=digits_all digits-clean=digits_clean dispatched-near=dispatched_near
each-taken=each_taken else-none=else_none ends-here=ends_here entered-in-order=entered_in_order entered-none=entered_none err-not-ok=err_not_ok
event-of=event_of every-play=every_play exact-push=exact_push excess-first=excess_first excess-more=excess_more excess-none=excess_none
extended-long=extended_long extended-stands=extended_stands extendedOctets=extended_octets fair-means=fair_means fates-none=fates_none
fates-refused=fates_refused few-numbers=few_numbers field-small=field_small field-split=field_split fieldName=field_name fields-long=fields_long
fieldsWith=fields_with find-address=find_address find-here=find_here find-kept=find_kept find-kept-none=find_kept_none find-none-kept=find_none_kept
find-push=find_push find-there=find_there first-append=first_append first-fault=first_fault first-fitting=first_fitting_lem
first-refusal=first_refusal firstFitting=first_fitting firstOver=first_over fits-64=fits_64 fits-buffer=fits_buffer flag-above=flag_above
flag-read=flag_read flagIn=flag_in flagOf=flag_of follows-all=follows_all follows-more=follows_more four-parts=four_parts frameIn=frame_in
framesOf=frames_of framing-here=framing_here framing-read=framing_read front-all=front_all front-like=front_like front-other=front_other
front-waits=front_waits frontCount=front_count frontOctets=front_octets full-progress=full_progress greedy-meant=greedy_meant
greedy-sound=greedy_sound hasSpace=has_space head-here=head_here head-split=head_split header-as=header_as header-for=header_for
header-here=header_here header-rows=header_rows headerNumber=header_number headerOf=header_of headerPlace=header_place headers-long=headers_long
headersOf=headers_of heard-more=heard_more held-notice=held_notice hold-verdict=hold_verdict hop-same=hop_same hopLimitsFit=hop_limits_fit
hopRow=hop_row hops-kept=hops_kept hops-of=hops_of if-place=if_place in-result=in_result in-time=in_time in-unit=in_unit is-anycast=is_anycast
is-beacon=is_beacon is-it=is_it is-multi=is_multi is-single=is_single isBeacon=is_beacon isNumeral=is_numeral keeps-silent=keeps_silent
kept-addresses=kept_addresses kept-short=kept_short kept-waiting=kept_waiting kind-here=kind_here kind-of=packet_kind kind-read=kind_read
kindIn=kind_in kindName=kind_name kindOctet=kind_octet kindRow=kind_row kindRows=kind_rows known-kind=known_kind largest-push=largest_push
last-behind=last_behind last-both=last_both last-eight=last_eight last-eight-more=last_eight_more last-six=last_six last-time=last_time
lasts-at=lasts_at lasts-it=lasts_it later-kept=later_kept latitudeRow=latitude_row lawful-more=lawful_more lawful-start=lawful_start
lawful-step=lawful_step least-exact=least_exact least-next=least_next least-unique=least_unique left-answer=left_answer length-mid=length_mid
length-octets=length_octets length-same=length_same lengthRow=length_row lengths-here=lengths_here let-go-by=let_go_by let-go-not=let_go_not
let-go-told=let_go_told life-fifty=life_fifty lifetime-is=lifetime_is lifetime-of=packet_lifetime lifetime-same=lifetime_same
lifetimeFits=lifetime_fits lifetimeOf=lifetime_of lifetimeRow=lifetime_row like-other=like_other like-same=like_same limitedTo=limited_to
limits-here=limits_here line-written=line_written lines-push=lines_push link-a=link_a link-b=link_b link-d=link_d link-of=link_of
linkAddress=link_address linkAddresses=link_addresses live-by=live_by live-line=live_line lives-since=lives_since long-here=long_here
long-long=long_long long-read=long_read long-rows=long_rows longVectorAt=long_vector_at longVectorOctets=long_vector_octets longitudeRow=longitude_row
lost-counts=lost_counts lost-in=lost_in lost-one=lost_one made-check=made_check made-passed=made_passed mag-small=mag_small mean-from=mean_from
memory-ms=memory_ms met-kept=met_kept met-serial=met_serial mid-all=mid_all mid-new=mid_new mid-out=mid_out motion-read=motion_read
motion-written=motion_written motionBits=motion_bits motionFrom=motion_from motionName=motion_name motionWith=motion_with move-count=move_count
multiHop=multi_hop multiHopAt=multi_hop_at nameIn=name_in named-nearer=named_nearer named-one=named_one names-frame=names_frame near-is=near_is
near-least=near_least never-refused=never_refused new-table=new_table newcomer-by=newcomer_by newly-between=newly_between newly-by=newly_by
newly-new=newly_new newly-other=newly_other newly-own=newly_own newly-repeated=newly_repeated next-square=next_square nextHeaderRow=next_header_row
nil-not-cons=nil_not_cons nil-not-mid=nil_not_mid nine-and-nine=nine_and_nine no-cancelled=no_cancelled no-left=no_left no-let-go=no_let_go
no-space=no_space no-vector=no_vector noCommon=no_common noFields=no_fields noVector=no_vector none-begins=none_begins none-new=none_new
none-not=none_not none-not-some=none_not_some not-above=not_above not-it=not_it not-longer=not_longer not-read=not_read
not-redirected=not_redirected not-refused=not_refused not-two=not_two noted-addresses=noted_addresses noted-own=noted_own
notice-passed-on=notice_passed_on nth-first=nth_first number-all=number_all number-here=number_here number-kept=number_kept
number-octets=number_octets number-other=number_other number-stands=number_stands numberFrom=number_from numbers-append=numbers_append
numbers-taken=numbers_taken numbersIn=numbers_in octet-best=octet_best octet-for=octet_for octetNumber=octet_number octetPlace=octet_place
octetRefusal=octet_refusal octets-digits=octets_digits octets-number=octets_number octetsIn=octets_in octetsOf=octets_of of-kind=of_kind_lem
ofKind=of_kind on-air=on_air onCourse=on_course onEarth=on_earth once-kept=once_kept once-noted=once_noted once-push=once_push once-renew=once_renew
one-octet=one_octet one-sent=one_sent one-waiting=one_waiting oneHop=one_hop opening-bears=opening_bears or-cond=or_cond our-address=our_address
our-is=our_is our-record=our_record packet-by=packet_by packet-put=packet_put packetIn=packet_in packetOf=packet_of pairs-map=pairs_map
passed-check=passed_check passed-up=passed_up passedOver=passed_over payload-of=payload_of payloadLength=payload_length payloadLimit=payload_limit
pick-here=pick_here place-fault=place_fault placed-address=placed_address placed-before=placed_before placed-later=placed_later placed-mid=placed_mid
placed-none=placed_none placed-push=placed_push played-one=played_one position-long=position_long position-of=position_of position-read=position_read
position-rows=position_rows_lem positionAt=position_at positionIn=position_in positionOctets=position_octets positionRows=position_rows
push-moved=push_moved put-after=put_after put-placed=put_placed range-row=range_row read-header=read_header read-written=read_written readAt=read_at
reader-fault=reader_fault reasonNumber=reason_number receive-deed=receive_deed receive-fault=receive_fault receive-near=receive_near
received-with=received_with receives-new=receives_new receives-same=receives_same redirected-before=redirected_before refusalIn=refusal_in
refused-or-not=refused_or_not remember-last=remember_last renew-addresses=renew_addresses root-le=root_le root-least=root_least root-lt=root_lt
row-clean=row_clean same-call=same_call same-fate=same_fate same-mark=same_mark same-octet=same_octet same-octets=same_octets same-table=same_table
same-tail=same_tail same-through=same_through sameLink=same_link scaled-most=scaled_most second-part=second_part send-fault=send_fault
senderDistance=sender_distance sends-not=sends_not sent-by=sent_by sent-later=sent_later sent-or-taken=sent_or_taken sent-with=sent_with
served-later=served_later served-with=served_with serves-not=serves_not short-here=short_here short-long=short_long short-read=short_read
short-rows=short_rows shortVectorAt=short_vector_at shortVectorOctets=short_vector_octets sides-above=sides_above signed-read=signed_read
signedAt=signed_at signedIn=signed_in silence-before=silence_before silence-now=silence_now silent-send=silent_send silent-serve=silent_serve
since-entry=since_entry singleHop=single_hop singleHopAt=single_hop_at size-most=size_most size-row=size_row_lem sizeRow=size_row some-if=some_if
some-root=some_root some-test=some_test sound-from=sound_from source-kept=source_kept sourceIn=source_in speedIn=speed_in squares-most=squares_most
station-fault=station_fault stationFrom=station_from stationIn=station_in stationsIn=stations_in stays-lawful=stays_lawful still-among=still_among
still-live=still_live still-waiting=still_waiting stops-more=stops_more takes-by=takes_by takes-it=takes_it tally-append=tally_append
target-between=target_between target-kept=target_kept target-of=target_of targetFits=target_fits the-calls=the_calls the-run=the_run
the-start=the_start then-both=then_both then-rows=then_rows three-parts=three_parts to-all=to_all to-everybody=to_everybody to-neighbour=to_neighbour
told-by=told_by told-lately=told_lately told-later=told_later told-some=told_some toldBy=told_by total-most=total_most total-push=total_push
two-parts=two_parts unicastAt=unicast_at unit-positive=unit_positive unless-both=unless_both unless-false=unless_false unsigned-read=unsigned_read
unsignedIn=unsigned_in upper-read=upper_read upper-shift=upper_shift upper-written=upper_written upperNumber=upper_number upperOf=upper_of
vector-of=vector_of vectorName=vector_name vectorWith=vector_with verdict-of=verdict_of versionRow=version_row waiting-append=waiting_append
waiting-in=waiting_in waits-by-time=waits_by_time waits-not=waits_not way-advised=way_advised way-held=way_held way-kind=way_kind way-near=way_near
way-to=way_to way-verdict=way_verdict went-out=went_out went-untouched=went_untouched whole-more=whole_more whole-none=whole_none wire-long=wire_long
with-link=with_link withStation=with_station withoutEnd=without_end words-cut=words_cut words-skip=words_skip wordsFrom=words_from
writeNumber=write_number writePlace=write_place writes-it=writes_it written-more=written_more zero-here=zero_here
"""

NAME = re.compile(r"[A-Za-z_][\w'\u2115\u2124]*(?:-[\w'\u2115\u2124]+)*")
PIECES = {
    ".rt": re.compile(r'"(?:[^"\\\n]|\\.)*"|//[^\n]*'),
    ".antt": re.compile(r"(?m)--(?![>\w])[^\n]*"),
}


def respelled(text, names, skipped):
    """The text with its names replaced, but for the pieces that `skipped` finds."""
    def turn(piece):
        return NAME.sub(lambda m: names.get(m.group(), m.group()), piece)

    parts, at = [], 0
    for m in skipped.finditer(text):
        parts += [turn(text[at:m.start()]), m.group()]
        at = m.end()
    return "".join(parts) + turn(text[at:])


def main():
    names = dict(pair.split("=") for pair in NAMES.split())
    changed = 0
    for folder, dirs, files in os.walk("crates"):
        dirs[:] = [d for d in dirs if d != "out"]
        for file in files:
            end = os.path.splitext(file)[1]
            if end not in (".rt", ".antt", ".edit"):
                continue
            path = os.path.join(folder, file)
            with open(path, encoding="utf-8") as f:
                old = f.read()
            new = respelled(old, names, PIECES.get(end, PIECES[".rt"]))
            if new != old:
                changed += 1
                with open(path, "w", encoding="utf-8") as f:
                    f.write(new)
    print(f"{len(names)} names, {changed} files changed")


if __name__ == "__main__":
    main()
