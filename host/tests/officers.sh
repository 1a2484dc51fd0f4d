# The officer's commands: votes that are not lost, lines that would block an election, what is kept, what is published, where an election
# stands.

# A small election of one vote.
office() {
    rm -rf "$room/office"
    "$program" keygen "$room/office" --ring 4 --rounds 1 >"$room/said" 2>&1 || tally 1 "keygen: $(cat "$room/said")"
    printf 'Jackdaw\nRook\n' >"$room/office/lists.txt"
    echo 8 >"$room/office/enrolled.txt"
    expect 0 "Mark     1" "$program" vote "$room/office" 1 Rook
}

# A vote whose ballot was written and whose line was not: a retry completes it, and until then it is named.
half_a_vote() {
    local digest
    office
    expect 0 "" "$program" vote "$room/office" 7 Jackdaw
    digest=$(grouped "$(sha <"$room/office/ballots/7.ballot")")
    sed -i '/admit 7/d' "$room/office/log.txt"
    expect 0 "office/ballots/7.ballot is admitted by no line of log.txt, and is not counted" "$program" gather "$room/office"
    cp "$room/office/ballots/7.ballot" "$room/ballot"
    expect 0 "a ballot with the mark 7 was there and was in no line of the log. It is admitted as it was made then" \
        "$program" vote "$room/office" 7 Rook
    said "Ballot   $digest"
    succeed "the ballot as it was" cmp "$room/office/ballots/7.ballot" "$room/ballot"
    succeed "its line" test "$(tail -n 1 "$room/office/log.txt")" = "admit 7"
    expect 1 "a vote with the mark 7: refused 32" "$program" vote "$room/office" 7 Jackdaw
    # one that is damaged is no ballot to complete
    truncate -s 5 "$room/office/ballots/7.ballot"
    mv "$room/office/ballots/7.ballot" "$room/office/ballots/8.ballot"
    cp "$room/ballot" "$room/office/ballots/7.ballot"
    expect 1 "ballots/8.ballot: refused 1: it has 5 bytes where 68 are due" "$program" vote "$room/office" 8 Rook
    expect 0 "ballots/8.ballot is admitted by no line of log.txt" "$program" run --draw-here "$room/office"
    succeed "it is counted" grep -qx '      1  Jackdaw' "$room/office/result.txt"
    publish "$room/office" "$room/other"
    expect 0 "other/ballots/8.ballot is admitted by no line of log.txt, and is not counted" "$program" check "$room/other"
    # also one under the name of no mark; and no name of a file speaks to the terminal
    cp "$room/ballot" "$room/other/ballots/07.ballot"
    cp "$room/ballot" "$room/other/ballots/$(printf '\33[2J').ballot"
    expect 0 "other/ballots/07.ballot is admitted by no line of log.txt" "$program" check "$room/other"
    said "other/ballots/?[2J.ballot is admitted by no line of log.txt"
    cat "$room/office/ballots"/{1,7}.ballot "$room/ballot" >"$room/other/ballots.bin"
    poke "$room/other/ballots.bin" $((2 * 68)) 9
    rm -r "$room/other/ballots"
    expect 0 "ballots.bin: the ballot with the mark 9 is admitted by no line of log.txt" "$program" check "$room/other"
}

# The disk takes the ballot and not the log: nothing is lost, and the retry completes it.
disk_full_at_the_log() {
    office
    # a limit of one block of 1,024 bytes, which the log is above, and a ballot is below
    seq -f 'admit %.0f' 1000 1100 >"$room/lines"
    (cd "$room/office" && while read -r _ mark; do { number "$mark" 4; head -c 64 /dev/zero; } >"ballots/$mark.ballot"; done \
        <"$room/lines")
    cat "$room/lines" >>"$room/office/log.txt"
    (trap '' XFSZ && ulimit -f 1 && "$program" vote "$room/office" 5 Rook) >"$room/said" 2>&1
    succeed "status 3 where the log cannot be written" test $? -eq 3
    said "log.txt.new: File too large"
    succeed "the ballot is there" test "$(size "$room/office/ballots/5.ballot")" -eq 68
    expect 0 "It is admitted as it was made then" "$program" vote "$room/office" 5 Rook
    expect 0 "Ballots standing    103" "$program" gather "$room/office"
}

# What vote and withdraw refuse, with the log as it was.
refused_with_reason() { # TEXT COMMAND..
    local text=$1
    shift
    cp "$room/office/log.txt" "$room/log_before"
    expect 1 "$text" "$program" "$@"
    succeed "the log as it was" cmp "$room/office/log.txt" "$room/log_before"
}

blocking_lines() {
    local i
    office
    expect 0 "" "$program" vote "$room/office" 2 Rook
    expect 0 "" "$program" withdraw "$room/office" 2
    refused_with_reason "a withdrawal of the mark 2: refused 33: this mark was withdrawn" withdraw "$room/office" 2
    refused_with_reason "a vote with the mark 2: refused 33" vote "$room/office" 2 Rook
    # a line that the log has already and that blocks the election is named
    echo "withdraw 2" >>"$room/office/log.txt"
    refused_with_reason "log.txt, line 4, withdraw 2: refused 33" vote "$room/office" 3 Rook
    succeed "no ballot" test ! -e "$room/office/ballots/3.ballot"
    sed -i '$d' "$room/office/log.txt"
    printf 'admit 1' >>"$room/office/log.txt"
    refused_with_reason "log.txt, line 4 has no line end" withdraw "$room/office" 1
    sed -i '$d' "$room/office/log.txt"
    # the 4,097th
    for ((i = 1000; i < 5094; i++)); do echo "admit $i"; done >>"$room/office/log.txt"
    refused_with_reason "a vote with the mark 3: refused 35: the register is full" vote "$room/office" 3 Rook
    succeed "no ballot" test ! -e "$room/office/ballots/3.ballot"
    refused_with_reason "a withdrawal of the mark 3: refused 35: the register is full" withdraw "$room/office" 3
    # a mark that has its entry needs no other one
    expect 0 "" "$program" withdraw "$room/office" 5093
    succeed "its line" test "$(tail -n 1 "$room/office/log.txt")" = "withdraw 5093"
    office
    expect 0 "Commitment" "$program" commit "$room/office"
    refused_with_reason "the ballots are closed: no ballot is taken and none is withdrawn any more" vote "$room/office" 3 Rook
    refused_with_reason "the ballots are closed" withdraw "$room/office" 1
    succeed "no ballot" test ! -e "$room/office/ballots/3.ballot"
}

two_at_once() {
    local i
    office
    for i in 21 22 23 24; do "$program" vote "$room/office" $i Rook >"$room/office_$i" 2>&1 & done
    wait
    for i in 21 22 23 24; do succeed "vote $i of some at once" grep -qx "admit $i" "$room/office/log.txt"; done
    expect 0 "Ballots standing    5" "$program" gather "$room/office"
}

# Lists are kept from the first ballot on, enrolment from the closing on.
kept() {
    office
    printf 'Rook\nJackdaw\n' >"$room/office/lists.txt"
    expect 1 "lists.txt was changed after the first ballot" "$program" vote "$room/office" 2 Rook
    succeed "no ballot" test ! -e "$room/office/ballots/2.ballot"
    expect 1 "lists.txt was changed after the first ballot" "$program" gather "$room/office"
    expect 1 "lists.txt was changed after the first ballot" "$program" run --draw-here "$room/office"
    printf 'Jackdaw\nRook\n' >"$room/office/lists.txt"
    # enrolment is read and judged before the closing, and may change until then
    echo 0 >"$room/office/enrolled.txt"
    expect 1 "enrolled.txt: 0 is outside its range: a whole number from 1 to 1000000" "$program" commit "$room/office"
    expect 0 "Phase               gathering ballots" "$program" status "$room/office"
    said "put right what is said above; then take votes and withdrawals"
    rm "$room/office/enrolled.txt"
    expect 3 "enrolled.txt is missing" "$program" commit "$room/office"
    echo 9 >"$room/office/enrolled.txt"
    expect 0 "" "$program" gather "$room/office"
    echo 10 >"$room/office/enrolled.txt"
    expect 0 "Commitment" "$program" commit "$room/office"
    echo 9 >"$room/office/enrolled.txt"
    expect 1 "enrolled.txt was changed after the ballots were closed: put it back as it was then" "$program" run --draw-here "$room/office"
    expect 0 "put right what is said above; then publish the commitment" "$program" status "$room/office"
    said "enrolled.txt was changed after the ballots were closed"
    echo 10 >"$room/office/enrolled.txt"
    echo Jay >>"$room/office/lists.txt"
    expect 1 "lists.txt was changed after the first ballot" "$program" run --draw-here "$room/office"
    sed -i '$d' "$room/office/lists.txt"
    expect 0 "Turnout             100 per thousand" "$program" run --draw-here "$room/office"
}

# Exactly what a member may have, at each point of an election.
published() {
    local files="ballots/1.ballot enrolled.txt lists.txt log.txt sheet.txt"
    office
    mkdir "$room/office/notes"
    touch "$room/office/ballots"/{2.ballot.new,notes.txt,07.ballot,.ballot} "$room/office/rounds"
    holds "gathering" $files
    rm "$room/office/rounds"
    "$program" commit "$room/office" >"$room/said" 2>&1
    files+=" claims.bin rounds/000/head.bin rounds/000/shares0.bin rounds/000/shares1.bin"
    # what an earlier count left is no part of this one
    touch "$room/office"/{result.txt,result.html,seed.bin,rounds/000/opening.bin}
    holds "committed" $files
    said "There is no result among them yet"
    rm "$room/office"/{result.txt,result.html,seed.bin,rounds/000/opening.bin}
    "$program" run --draw-here "$room/office" >"$room/said" 2>&1
    files+=" seed.bin rounds/000/opening.bin rounds/000/answers.bin result.txt result.html"
    holds "counted" $files
    expect 0 "accepted" "$program" check "$room/out"
    succeed "no warning of what is not there" test "$(grep -c WARNING "$room/said")" -eq 0
    # once more over the same folder, and from what is published
    expect 0 "14 files are published" "$program" publish "$room/office" "$room/out/"
    expect 0 "14 files are published" "$program" publish "$room/out" "$room/again"
    succeed "the same" diff -r "$room/out" "$room/again"
    rm -r "$room/again"
    # never over anything else
    expect 1 "is no part of this publication" "$program" publish "$room/office" "$room/office"
    touch "$room/out/ballots/9.ballot"
    expect 1 "out/ballots/9.ballot is no part of this publication" "$program" publish "$room/office" "$room/out"
    # the counting side's own folder is accepted, and the secrets in it are named
    expect 0 "WARNING: $room/office/key is here. It is never given away" "$program" check "$room/office"
    said "WARNING: $room/office/state.bin is here"
}

holds() { # POINT FILE..
    local point=$1
    shift
    rm -rf "$room/out"
    expect 0 "files are published in $room/out" "$program" publish "$room/office" "$room/out"
    succeed "what is published while $point" diff <(cd "$room/out" && find . -type f | sort) <(printf './%s\n' "$@" | sort)
}

# A member looks for a ballot.
found() {
    office
    expect 0 "" "$program" vote "$room/office" 2 Jackdaw Rook
    cp "$room/said" "$room/receipt"
    expect 0 "" "$program" vote "$room/office" 3
    expect 0 "" "$program" withdraw "$room/office" 1
    "$program" run --draw-here "$room/office" >"$room/said" 2>&1
    publish "$room/office" "$room/other"
    expect 0 "It is counted. It marks: Jackdaw, Rook" "$program" check "$room/other" --mark 2
    said "$(sed -n 's/^Ballot   //p' "$room/receipt")"
    expect 0 "It is counted. It marks no list." "$program" check "$room/other" --mark 3
    expect 1 "It was withdrawn, and is NOT COUNTED" "$program" check "$room/other" --mark 1
    said "$(grouped "$(sha <"$room/office/ballots/1.ballot")")"
    expect 1 "The ballot with the mark 4 is in no line of the log, and is NOT COUNTED" "$program" check "$room/other" --mark 4
}

# Where an election stands, from its first day to its last.
standing() {
    rm -rf "$room/office"
    "$program" keygen "$room/office" --ring 4 --rounds 2 >"$room/said" 2>&1
    expect 0 "put right what is said above" "$program" status "$room/office"
    said "office/lists.txt is missing"
    office
    expect 0 "" "$program" vote "$room/office" 2 Rook
    expect 0 "" "$program" withdraw "$room/office" 1
    expect 0 "Phase               gathering ballots" "$program" status "$room/office"
    said "Ballots standing    1"
    said "Ballots withdrawn   1"
    said "Lines of the log    3 more than were gathered"
    said "when the poll ends, \`election commit FOLDER\`"
    expect 0 "" "$program" commit "$room/office"
    expect 0 "Phase               committed" "$program" status "$room/office"
    said "Rounds committed    1 of 1"
    said "draw the seed in public"
    "$program" run --draw-here "$room/office" >"$room/said" 2>&1
    expect 0 "Phase               ended, accepted" "$program" status "$room/office"
    said "Rounds checked      1 of 1"
    said "election publish FOLDER OUT"
    rm "$room/office/result.txt"
    expect 0 "writes the result" "$program" status "$room/office"
    publish "$room/office" "$room/other"
    expect 0 "Phase               a published election" "$program" status "$room/other"
    # to count anew, the counting side removes its state
    rm "$room/office/state.bin"
    expect 0 "Phase               gathering ballots" "$program" status "$room/office"
}

officers() {
    half_a_vote
    disk_full_at_the_log
    blocking_lines
    two_at_once
    kept
    published
    found
    standing
}
