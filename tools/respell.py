#!/usr/bin/env python3
"""Brings the repository's own names to the spelling that today's Rattle asks for.

usage: python3 tools/respell.py [FOLDER]      once, right after the toolchain's port.py

Definitions, fields of records and lemmas of specs/ and proofs/ are in snake case; a dash stays only where it joins
the names of two functions, as in length-hex. The crate that was named bytes is octets, since the toolchain has a library
of the old name. Names of src/, texts and inputs stay as they are. It proves nothing: rt check decides.
"""
import os
import re
import subprocess
import sys

NAMES = """
    Q-small=Q_small a-line=a_line absent-one=absent_one absent-parts=absent_parts absorb-push=absorb_push
    accepted-held=accepted_held adds-both=adds_both again-is=again_is allVisible=all_visible
    areDigits=are_digits areKeytypeBytes=are_keytype_bytes at-is=at_is behind-four=behind_four
    block-is=block_is block-words-are=block_words_are body-long=body_long body-put-long=body_put_long
    body-short=body_short buffer-is=buffer_is bytes-from=bytes_from climb-more=climb_more
    climb-none=climb_none codedBy=coded_by compress-is=compress_is count-is=count_is count-up=count_up
    cut-after=cut_after cut-four=cut_four cut-front=cut_front cut-more=cut_more digit-big=digit_big
    digit-one=digit_one digit-small=digit_small each-shuffled=each_shuffled eight-words=eight_words
    endTrouble=end_trouble entries-append=entries_append entries-front=entries_front entries-push=entries_push
    entries-text=entries_text entriesIn=entries_in entriesOf=entries_of entry-line=entry_line
    even-above=even_above extend-add=extend_add extend-front=extend_front feed-is=feed_is
    feed-within=feed_within fileAnswer=file_answer fileCode=file_code fileNumber=file_number
    fit-suits=fit_suits formed-bounded=formed_bounded found-shuffled=found_shuffled four-more=four_more
    four-words=four_words front-after=front_after getAnswer=get_answer getCode=get_code getNumber=get_number
    grown-more=grown_more grown-none=grown_none head-found=head_found head-line=head_line
    held-accepted=held_accepted held-exact=held_exact held-lawful=held_lawful hex-cancel=hex_cancel
    hex-fills=hex_fills hex-long=hex_long hex-one=hex_one hex-push=hex_push hex-put=hex_put hexDigit=hex_digit
    hexOf=hex_of hexValue=hex_value id-bytes-are=id_bytes_are is-hex-all=is_hex_all is-hex-hex=is_hex-hex
    is-hex-more=is_hex_more is-hex-not=is_hex_not is-hex-odd=is_hex_odd is-step=is_step
    is-text-entries=is_text_entries is-text-told=is_text_told isBody=is_body isCoded=is_coded isDigit=is_digit
    isEntry=is_entry isFormed=is_formed isHex=is_hex isHexDigit=is_hex_digit isKeytype=is_keytype
    isKeytypeByte=is_keytype_byte isLeft=is_left isName=is_name isText=is_text isVisible=is_visible
    keytype-from=keytype_from keytypeOf=keytype_of kind-known=kind_known kindName=kind_name
    kinds-known=kinds_known lane-listed=lane_listed lane-on=lane_on leavesOf=leaves_of left-all=left_all
    left-none=left_none leftIn=left_in length-after=length_after length-z=length_z line-append=line_append
    line-cancel=line_cancel line-is=line_is line-is-text=line_is_text line-long=line_long line-with=line_with
    line-written=line_written lineSize=line_size lineThen=line_then lines-line=lines_line lines-on=lines_on
    look-append=look_append look-entry=look_entry look-front=look_front look-push=look_push lookUp=look_up
    many-size=many_size meaningOf=meaning_of more-text=more_text name-at-short=name_at_short
    name-bytes=name_bytes name-digits=name_digits name-length=name_length name-long=name_long
    name-part=name_part name-put-long=name_put_long name-short=name_short name-there=name_there
    name-within=name_within next-front=next_front nextWord=next_word no-feed=no_feed no-space=no_space
    number-end=number_end number-on=number_on number-own=number_own number-stops=number_stops
    numberFrom=number_from numberTrouble=number_trouble odd-above=odd_above oneTime=one_time
    openNumber=open_number over-all=over_all over-put=over_put own-formed=own_formed path-long=path_long
    picked-is=picked_is publicKey=public_key publicOf=public_of put-apart=put_apart put-here=put_here
    roomIn=room_in roundOf=round_of rounds-are=rounds_are row-begin=row_begin row-cuts=row_cuts
    row-found=row_found row-none=row_none row-passed=row_passed same-sym=same_sym schedule-is=schedule_is
    secret-formed=secret_formed secret-held=secret_held secret-limited=secret_limited seek-none=seek_none
    seek-on=seek_on signAnswer=sign_answer signNumber=sign_number signatureSize=signature_size
    signed-held=signed_held signedBy=signed_by sixteen-rounds=sixteen_rounds sixteen-words=sixteen_words
    size-more=size_more size-own=size_own size-short=size_short sound-at=sound_at sound-push=sound_push
    soundOf=sound_of space-is=space_is space-put-long=space_put_long space-within=space_within
    space-written=space_written starts-past=starts_past state-bytes-are=state_bytes_are storeCall=store_call
    suits-fit=suits_fit suits-parts=suits_parts sum-none=sum_none take-add=take_add text-append=text_append
    text-grown=text_grown text-one=text_one textCall=text_call textIn=text_in three-parts=three_parts
    told-all=told_all told-is-text=told_is_text told-not=told_not told-twice=told_twice two-first=two_first
    two-on=two_on typeNumber=type_number u32-four=u32_four u64str-is=u64str_is unhex-at=unhex_at
    unhex-fills=unhex_fills unless-full=unless_full unless-trouble=unless_trouble upTo-here=up_to_here
    upTo-hex=up_to-hex upTo-on=up_to_on upTo-split=up_to_split used-is=used_is value-digit=value_digit
    value-small=value_small valueFrom=value_from visible-bytes=visible_bytes visible-not=visible_not
    wellFormed=well_formed whole-more=whole_more wordTrouble=word_trouble write-all=write_all
    write-more=write_more yesOrNo=yes_or_no
"""

CRATE, CRATE_NOW = "bytes", "octets"


def renamed(text, names):
    """The text with each whole word of `names` respelled. A quote and a dash are parts of a word."""
    word = re.compile(r"(?<![\w'-])(?:" + "|".join(sorted(map(re.escape, names), key=len, reverse=True)) + r")(?![\w'-])")
    return word.sub(lambda m: names[m.group(0)], text)


def files(top):
    for folder, dirs, found in os.walk(os.path.join(top, "crates")):
        dirs[:] = sorted(d for d in dirs if d != "out")
        for name in sorted(found):
            if name.endswith((".rt", ".antt")):
                yield os.path.join(folder, name)


def fall_together(top, names):
    """The new names that a file would define twice."""
    told = []
    for path in files(top):
        if path.endswith(".antt"):
            with open(path, encoding="utf-8") as f:
                heads = re.findall(r"(?m)^(?:abbrev |unfoldable )?(?:pub )?(?:record )?([^\s:()]+) :", f.read())
            olds = {}
            for head in heads:
                olds.setdefault(names.get(head, head), set()).add(head)
            told += [f"{path}: {now}" for now in sorted(olds) if len(olds[now]) > 1]
    return told


def rename_crate(top):
    """The folder, the line in crates.txt, and the paths that name the crate."""
    old = os.path.join(top, "crates", CRATE)
    if os.path.isdir(old):
        os.rename(old, os.path.join(top, "crates", CRATE_NOW))
    with open(os.path.join(top, "crates.txt"), encoding="utf-8") as f:
        lines = f.read().splitlines()
    lines = [l if l.startswith("#") else re.sub(rf"\b{CRATE}\b", CRATE_NOW, l) for l in lines]
    with open(os.path.join(top, "crates.txt"), "w", encoding="utf-8") as f:
        f.write("\n".join(lines) + "\n")


def main(argv):
    top = argv[0] if argv else "."
    names = dict(pair.split("=") for pair in NAMES.split())
    for line in fall_together(top, names):
        print("falls together: " + line)
    for path in files(top):
        with open(path, encoding="utf-8") as f:
            old = f.read()
        new = renamed(old, names)
        new = re.sub(rf"\bRattle\.{CRATE}\.", f"Rattle.{CRATE_NOW}.", new)
        if path.endswith(".rt"):
            new = re.sub(rf"(?<![\w:]){CRATE}::", f"{CRATE_NOW}::", new)
        if new != old:
            with open(path, "w", encoding="utf-8") as f:
                f.write(new)
    rename_crate(top)
    for crate in sorted(os.listdir(os.path.join(top, "crates"))):
        subprocess.run(["rt", "fmt"], cwd=os.path.join(top, "crates", crate), check=False, capture_output=True)
    return 0


if __name__ == "__main__":
    raise SystemExit(main(sys.argv[1:]))
