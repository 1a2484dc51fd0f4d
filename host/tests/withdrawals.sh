# Withdrawals that come before their ballot: the mark is out, the ballot that comes then is passed over and told of, and the count goes on.
# The office of officers.sh is used.

# A ballot that was made on another device, for Jackdaw, reaches the office: its file, and its line.
arrives() { # MARK
    [ -e "$room/tablet/ballots/$1.ballot" ] || expect 0 "Mark     $1" "$program" vote "$room/tablet" "$1" Jackdaw
    cp "$room/tablet/ballots/$1.ballot" "$room/office/ballots"
    echo "admit $1" >>"$room/office/log.txt"
}

# An office and another device with its sheet. The mark 1 is for Rook.
office_and_tablet() {
    office
    rm -rf "$room/tablet"
    cp -r "$room/office" "$room/tablet"
}

# The last command that was expected told these lines, one behind the other, and nothing between.
told_lines() { # LINE..
    printf '%s\n' "$@" >"$room/lines"
    succeed "it tells: $*" cmp "$room/lines" <(grep -xF -A $(($# - 1)) -- "$1" "$room/said")
}

# `withdraw` takes a mark that is not there yet, and says so: it may be mistyped.
early() {
    office_and_tablet
    expect 0 "no ballot with the mark 5 is admitted yet. The mark is withdrawn all the same: one that comes later will not be counted" \
        "$program" withdraw "$room/office" 5
    said "take the line \`withdraw 5\` out of $room/office/log.txt before the log is gathered; it cannot be undone after that"
    succeed "its line" test "$(tail -n 1 "$room/office/log.txt")" = "withdraw 5"
    refused_with_reason "a withdrawal of the mark 5: refused 33: this mark was withdrawn" withdraw "$room/office" 5
    refused_with_reason "a vote with the mark 5: refused 33: this mark was withdrawn" vote "$room/office" 5 Rook
    succeed "no ballot" test ! -e "$room/office/ballots/5.ballot"
    # a ballot with that mark that is there, and in no line, is not admitted either
    expect 0 "Mark     5" "$program" vote "$room/tablet" 5 Jackdaw
    cp "$room/tablet/ballots/5.ballot" "$room/office/ballots"
    refused_with_reason "a vote with the mark 5: refused 33: this mark was withdrawn" vote "$room/office" 5 Rook
    expect 0 "office/ballots/5.ballot is admitted by no line of log.txt, and is not counted" "$program" gather "$room/office"
    told_lines "Ballots standing    1" "Ballots withdrawn   0" "Withdrawn marks with which no ballot came: 1" "  5"
    # what was gathered stays
    sed -i '/withdraw 5/d' "$room/office/log.txt"
    expect 1 "log.txt was changed in the lines that are taken already" "$program" gather "$room/office"
    expect 0 "Ballots standing    1" "$program" status "$room/office"
    said "log.txt was changed in the lines that are taken already"
    # a ballot that is there is withdrawn as ever
    expect 0 "" "$program" withdraw "$room/tablet" 1
    succeed "nothing is said of it" test ! -s "$room/said"
}

# The marks of an election with every kind: 1 and 2 are counted, 3 is withdrawn, 4 is withdrawn and comes again, 5 and 4294967295 come
# after their withdrawal, 5 twice, and 0 is withdrawn and never comes.
every_kind() {
    local mark
    office_and_tablet
    for mark in 5 0 4294967295; do
        expect 0 "no ballot with the mark $mark is admitted yet" "$program" withdraw "$room/office" $mark
    done
    for mark in 2 3 4; do expect 0 "Mark     $mark" "$program" vote "$room/office" $mark Jackdaw; done
    arrives 4294967295
    expect 0 "" "$program" withdraw "$room/office" 4
    arrives 5
    expect 0 "" "$program" withdraw "$room/office" 3
    cp "$room/office/ballots/4.ballot" "$room/tablet/ballots"
    arrives 4
    arrives 5
}
late=("Ballots that came after their withdrawal, not counted: 3" "  4294967295, 5, 4")
none=("Withdrawn marks with which no ballot came: 1" "  0")

# All commands tell the same, before the count and after it; and so does a check of what is published.
told_everywhere() {
    local said=("${late[@]}" "${none[@]}")
    every_kind
    expect 0 "Lines of the log    13 more than were gathered" "$program" status "$room/office"
    told_lines "Ballots standing    2" "Ballots withdrawn   2" "${said[@]}"
    expect 0 "" "$program" gather "$room/office"
    told_lines "Ballots standing    2" "Ballots withdrawn   2" "${said[@]}"
    succeed "and nothing else" cmp "$room/lines" "$room/said"
    expect 0 "Commitment" "$program" commit "$room/office"
    said "${late[0]}. \`election status $room/office\` tells which"
    said "${none[0]}. \`election status $room/office\` tells which"
    expect 0 "" "$program" run "$room/office" --draw-here
    told_lines "Ballots counted     2" "Ballots withdrawn   2" "${said[@]}" "Turnout             250 per thousand"
    succeed "the same in the result" cmp "$room/office/result.txt" <(sed -n '/^jackdawnail result/,$p' "$room/said")
    told_lines "      1  Jackdaw" "      1  Rook"
    expect 0 "Phase               ended, accepted" "$program" status "$room/office"
    told_lines "${said[@]}"
    publish "$room/office" "$room/other"
    expect 0 "accepted" "$program" check "$room/other"
    told_lines "Ballots counted     2" "Ballots withdrawn   2" "${said[@]}" "Turnout             250 per thousand"
    succeed "no ballot is named as one without a line" test "$(grep -c 'admitted by no line' "$room/said")" -eq 0
}

# The page has the numbers, and the marks.
on_the_page() {
    local page=$room/other/result.html
    succeed "the number on the page" grep -qxF "<tr><th scope=\"row\">${late[0]%:*}</th><td class=\"number\">3</td></tr>" "$page"
    succeed "the number on the page" grep -qxF "<tr><th scope=\"row\">${none[0]%:*}</th><td class=\"number\">1</td></tr>" "$page"
    succeed "the number withdrawn" grep -qxF '<tr><th scope="row">Ballots withdrawn</th><td class="number">2</td></tr>' "$page"
    cp "$page" "$room/said"
    told_lines "<tr><th scope=\"row\">${late[0]%:*}</th><td>" "${late[1]}" "</td></tr>" \
        "<tr><th scope=\"row\">${none[0]%:*}</th><td>" "${none[1]}" "</td></tr>"
}

# A voter finds out what became of a ballot, and no digest of zeros is shown.
by_mark() {
    local mark
    expect 0 "It is counted. It marks: Rook" "$program" check "$room/other" --mark 1
    expect 1 "It was withdrawn, and is NOT COUNTED." "$program" check "$room/other" --mark 3
    succeed "nothing came later" test "$(grep -c 'came with this mark later' "$room/said")" -eq 0
    expect 1 "It was withdrawn, and is NOT COUNTED. Nor is the one that came with this mark later." \
        "$program" check "$room/other" --mark 4
    said "$(grouped "$(sha <"$room/office/ballots/4.ballot")")"
    for mark in 5 4294967295; do
        expect 1 "The ballot with the mark $mark came after its withdrawal, and is NOT COUNTED." \
            "$program" check "$room/other" --mark $mark
        succeed "no digest" test "$(grep -c 'has the digest' "$room/said")" -eq 0
    done
    expect 1 "The mark 0 was withdrawn, and no ballot came with it: NOT COUNTED." "$program" check "$room/other" --mark 0
    succeed "no digest" test "$(grep -c 'has the digest\|0000-0000-0000' "$room/said")" -eq 0
    expect 1 "The ballot with the mark 6 is in no line of the log, and is NOT COUNTED" "$program" check "$room/other" --mark 6
}

# However much of the log a state had taken, the same is told.
from_any_line() {
    local lines k
    every_kind
    expect 0 "" "$program" gather "$room/office"
    cp "$room/said" "$room/whole"
    lines=$(grep -c "" "$room/office/log.txt")
    cp "$room/office/log.txt" "$room/log.txt"
    for ((k = 1; k < lines; k++)); do
        rm "$room/office/state.bin"
        head -n $k "$room/log.txt" >"$room/office/log.txt"
        "$program" gather "$room/office" >"$room/answer" 2>&1
        tally $? "gathering $k lines: $(cat "$room/answer")"
        cp "$room/log.txt" "$room/office/log.txt"
        expect 0 "" "$program" gather "$room/office"
        succeed "what is told after $k lines" cmp "$room/said" "$room/whole"
    done
}

# A ballot without a line is named, though its mark has an entry by a withdrawal; one that is passed over has a line.
without_a_line() {
    every_kind
    expect 0 "Mark     0" "$program" vote "$room/tablet" 0 Rook
    cp "$room/tablet/ballots/0.ballot" "$room/office/ballots"
    expect 0 "office/ballots/0.ballot is admitted by no line of log.txt, and is not counted" "$program" gather "$room/office"
    succeed "no other is named" test "$(grep -c 'admitted by no line' "$room/said")" -eq 1
    cat "$room/office/ballots"/*.ballot >"$room/office/ballots.bin"
    rm -r "$room/office/ballots"
    expect 0 "ballots.bin: the ballot with the mark 0 is admitted by no line of log.txt, and is not counted" \
        "$program" gather "$room/office"
    succeed "no other is named" test "$(grep -c 'admitted by no line' "$room/said")" -eq 1
    expect 0 "${late[0]}" "$program" run --draw-here "$room/office"
}

# A ballot that is passed over has to be there and in range, and other wrong lines stop the count as ever: they alone are named.
still_refused() {
    every_kind
    poke "$room/office/ballots/5.ballot" $((4 + 7)) 255
    printf 'withdraw 5\nadmit 2\nadmit 4294967295\nwithdraw 0\n' >>"$room/office/log.txt"
    expect 1 "log.txt, line 10, admit 5: refused 5: a number is out of range" "$program" gather "$room/office"
    said "log.txt, line 13, admit 5: refused 5"
    said "log.txt, line 14, withdraw 5: refused 33: this mark was withdrawn"
    said "log.txt, line 15, admit 2: refused 32"
    said "log.txt, line 17, withdraw 0: refused 33"
    succeed "nothing else is named" test "$(grep -c "" "$room/said")" -eq 5
    rm "$room/office/ballots/5.ballot"
    expect 3 "office/ballots/5.ballot is missing" "$program" gather "$room/office"
}

# Withdrawals alone give nothing to count, nor does a ballot that comes after its own.
nothing_stands() {
    local folder=$room/first
    rm -rf "$folder"
    expect 0 "" "$program" keygen "$folder" --ring 4 --rounds 1
    cp "$room/office"/{lists,enrolled}.txt "$folder"
    # the first that comes to an election
    expect 0 "no ballot with the mark 9 is admitted yet" "$program" withdraw "$folder" 9
    expect 0 "Ballots standing    0" "$program" gather "$folder"
    expect 1 "closing the ballots: refused 36: no ballot stands" "$program" commit "$folder"
    expect 0 "Mark     8" "$program" vote "$folder" 8 Rook
    expect 0 "Ballots counted     1" "$program" run --draw-here "$folder"
    office_and_tablet
    expect 0 "Mark     7" "$program" vote "$room/tablet" 7 Rook
    printf 'withdraw 7\nwithdraw 8\n' >"$room/office/log.txt"
    expect 1 "closing the ballots: refused 36: no ballot stands" "$program" commit "$room/office"
    arrives 7
    expect 1 "closing the ballots: refused 36: no ballot stands" "$program" run --draw-here "$room/office"
    succeed "nothing is closed" test "$(byte_at "$room/office/state.bin" 16)" -eq 0
    expect 0 "Ballots standing    0" "$program" gather "$room/office"
    told_lines "Ballots withdrawn   0" "Ballots that came after their withdrawal, not counted: 1" "  7" \
        "Withdrawn marks with which no ballot came: 1" "  8"
}

# A long list of marks is told whole, in lines that can be read; and where it fills the register, what is there is still withdrawn.
long_list() {
    local folder=$room/office
    office_and_tablet
    expect 0 "Mark     2" "$program" vote "$folder" 2 Rook
    seq -f 'withdraw %.0f' 4294963202 4294967295 >>"$folder/log.txt"
    refused_with_reason "a withdrawal of the mark 6: refused 35: the register is full" withdraw "$folder" 6
    expect 0 "" "$program" withdraw "$folder" 2
    # the register is full, and a ballot whose mark it has is passed over all the same
    arrives 4294967295
    expect 0 "Withdrawn marks with which no ballot came: 4093" "$program" run --draw-here "$folder"
    succeed "no line is longer than 78" test "$(grep -c '^  4.\{76\}' "$folder/result.txt")" -eq 0
    succeed "every mark" cmp <(seq 4294963202 4294967294) \
        <(sed -n '/^Withdrawn marks/,/^Turnout/s/^  //p' "$folder/result.txt" | tr -d ' ' | tr ',' '\n' | sed '/^$/d')
    publish "$folder" "$room/other"
    expect 0 "accepted" "$program" check "$room/other" --mark 1
}

withdrawals() {
    early
    told_everywhere
    on_the_page
    by_mark
    from_any_line
    without_a_line
    still_refused
    nothing_stands
    long_list
}
