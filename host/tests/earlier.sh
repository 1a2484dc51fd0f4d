# Folders that earlier releases stored, at several points of an election, are gone on with; and what they published is checked. They were
# made by those releases (host/tests/earlier): a folder is `base` with the files of its point over it. Those of 0.9, 0.10 and the release
# before, 0.11, stand in folders of their names. Of a state.bin the zeros of the empty register are left out. They made the random numbers
# of a round by SHA3-256: what they committed is answered with that stream, and what is committed now is of another.

# The folder as it was stored.
stored() { # POINT
    local from=host/tests/earlier
    rm -rf "$room/stored"
    cp -r "$from/$(dirname "$1")/base" "$room/stored"
    cp -r "$from/$1/." "$room/stored"
    [ -e "$room/stored/state.head" ] || return
    # title, image and the entries that are used; the rest of the register; then what stands behind it
    truncate -s $((16 + 4297 + 163840)) "$room/stored/state.head"
    cat "$room/stored"/state.{head,tail} >"$room/stored/state.bin"
    rm "$room/stored"/state.{head,tail}
}

# The same without the key, as it is published.
as_published() { # POINT
    stored "$1"
    rm -r "$room/stored/key"
}

# The votes as an earlier release told them, and as a result of today tells them.
told() { # FILE
    sed -n '/^Enrolled/,/^Rounds/p' "$1"
}

gone_on() { # POINT OPTION..
    local point=$1
    shift
    stored "$point"
    cp -r "$room/stored" "$room/stored_before"
    expect 0 "All rounds accepted yes" "$program" run "$@" "$room/stored"
    case $point in
    gathered | */*) ;;
    *) said "an earlier release closed the ballots, and kept neither lists nor enrolment then: they are kept from now on" ;;
    esac
    succeed "the votes of $point" \
        diff <(told "$room/stored/result.txt") <(told "host/tests/earlier/$(dirname "$point")/counted/result.txt")
    succeed "its state is of the form of today" test "$(head -n 1 "$room/stored/state.bin" | tr -d '\0')" = "jackdawnail 3"
    publish "$room/stored" "$room/other"
    expect 0 "accepted" "$program" check "$room/other"
}

# What was committed or answered stands: no first message is made again, and no second one for another draw.
as_it_was() { # FILE..
    local file
    for file in "$@"; do succeed "$file as it was" cmp "$room/stored/$file" "$room/stored_before/$file"; done
    rm -rf "$room/stored_before"
}

# Of a release whose state.bin is of form 1, and whose results name no form.
earlier_form() {
    gone_on gathered --draw-here
    as_it_was log.txt ballots/1001.ballot
    gone_on half_committed --draw-here
    as_it_was claims.bin rounds/000/{head,shares0,shares1}.bin
    gone_on committed --seed "$seed"
    as_it_was claims.bin rounds/00{0,1}/{head,shares0,shares1}.bin
    gone_on half_answered
    as_it_was seed.bin rounds/000/{head,shares0,shares1,opening,answers}.bin rounds/001/{head,shares0,shares1}.bin
    # from then on they are kept
    echo 41 >"$room/stored/enrolled.txt"
    expect 1 "enrolled.txt was changed after the ballots were closed" "$program" run "$room/stored"
    # a vote comes too late for a closed one, and is taken by an open one
    stored committed
    expect 1 "the ballots are closed" "$program" vote "$room/stored" 5 Rook
    expect 0 "Rounds committed    2 of 2" "$program" status "$room/stored"
    stored gathered
    expect 0 "Mark     5" "$program" vote "$room/stored" 5 Rook
    expect 0 "Ballots standing    3" "$program" gather "$room/stored"
    # what it published is accepted; its result is of another form, and is not compared
    as_published counted
    expect 0 "stored/result.txt is of another form than \`jackdawnail result 2\`, and was NOT COMPARED" "$program" check "$room/stored"
    said "stored/result.html is of another form than \`jackdawnail result 2\`, and was NOT COMPARED"
    said "accepted"
}

# Files are those that the release itself made of this point when it went on.
as_counted() { # RELEASE FILE..
    local release=$1 file
    shift
    for file in "$@"; do succeed "$file of $release" cmp "$room/stored/$file" "host/tests/earlier/$release/counted/$file"; done
}

# Of a release whose state.bin is of form 2, and whose results are of the form of today. It was gathering, with a line of the log not taken
# yet; or it had committed; or it had counted and published.
second_form() { # RELEASE ROUND..
    local release=$1 rounds
    shift
    rounds=("${@/#/rounds/}")
    gone_on "$release/gathered" --draw-here
    as_it_was log.txt ballots/1001.ballot
    gone_on "$release/committed" --seed "$seed"
    as_it_was claims.bin "${rounds[@]/%//head.bin}" "${rounds[@]/%//shares0.bin}" "${rounds[@]/%//shares1.bin}"
    # the same draw gives the same count, and it is told in the same words
    as_counted "$release" result.txt result.html "${rounds[@]/%//opening.bin}" "${rounds[@]/%//answers.bin}"
    published_by "$release"
}

# What it published is accepted, and its result is compared.
published_by() { # RELEASE
    local counted=host/tests/earlier/$1/counted
    as_published "$1/counted"
    expect 0 "accepted" "$program" check "$room/stored" --seed "$seed" --mark 1001
    succeed "no warning" test "$(grep -c WARNING "$room/said")" -eq 0
    succeed "a check tells the result of $1" cmp "$counted/result.txt" <(sed -n '/^jackdawnail result/,$p' "$room/said")
    sed -i 's/>Rook</>Crow</' "$room/stored/result.html"
    expect 1 "result.html is not the result of this transcript" "$program" check "$room/stored"
    sed -i 's/  Rook/  Crow/' "$room/stored/result.txt"
    expect 1 "result.txt is not the result of this transcript" "$program" check "$room/stored"
}

# A withdrawal that comes before its ballot reaches an election that 0.9, which refused such, had begun.
begun_then_early() {
    stored 0.9/gathered
    rm -rf "$room/tablet"
    cp -r "$room/stored" "$room/tablet"
    expect 0 "Mark     7" "$program" vote "$room/tablet" 7 Rook
    expect 0 "no ballot with the mark 7 is admitted yet" "$program" withdraw "$room/stored" 7
    expect 0 "Mark     8" "$program" vote "$room/stored" 8 Rook
    cp "$room/tablet/ballots/7.ballot" "$room/stored/ballots"
    echo "admit 7" >>"$room/stored/log.txt"
    expect 0 "Ballots that came after their withdrawal, not counted: 1" "$program" gather "$room/stored"
    expect 0 "Ballots counted     3" "$program" run --draw-here "$room/stored"
    said "Ballots withdrawn   1"
    said "Ballots that came after their withdrawal, not counted: 1"
    publish "$room/stored" "$room/other"
    expect 1 "The ballot with the mark 7 came after its withdrawal, and is NOT COUNTED" "$program" check "$room/other" --mark 7
}

# In the election of 0.10 three withdrawals came before their ballots: it had passed the ballot 1002 over; 1004 comes with the line that it
# had not taken; 1005 never comes.
early_then_gone_on() {
    local mark
    stored 0.10/gathered
    expect 0 "Lines of the log    1 more than were gathered" "$program" status "$room/stored"
    expect 0 "Ballots standing    2" "$program" gather "$room/stored"
    said "  1002, 1004"
    said "  1005"
    as_published 0.10/counted
    for mark in 1002 1004; do
        expect 1 "The ballot with the mark $mark came after its withdrawal, and is NOT COUNTED" "$program" check "$room/stored" --mark $mark
    done
    expect 1 "The mark 1005 was withdrawn, and no ballot came with it: NOT COUNTED" "$program" check "$room/stored" --mark 1005
    # a late mark that is left out of its result is missed
    sed -i 's/^  1002, 1004$/  1004/' "$room/stored/result.txt"
    expect 1 "result.txt is not the result of this transcript" "$program" check "$room/stored"
}

# The streams of the rounds as state.bin names them: they stand before its digest.
streams_of() { # ROUND..
    local round
    for round in "$@"; do byte_at "$room/stored/state.bin" $(($(size "$room/stored/state.bin") - 32 - 128 + round)); done | xargs
}

# The points between: it had answered the first of three rounds; or had committed two of them, and this release commits the third. What it
# had committed is answered as it answered it, whether by the command that commits the third round or by another one.
between() { # RELEASE
    gone_on "$1/half_answered"
    as_it_was seed.bin rounds/000/{head,shares0,shares1,opening,answers}.bin rounds/00{1,2}/{head,shares0,shares1}.bin
    as_counted "$1" result.txt result.html rounds/00{1,2}/{opening,answers}.bin
    stored "$1/half_committed"
    cp -r "$room/stored" "$room/stored_before"
    expect 0 "Commitment" "$program" commit "$room/stored"
    as_it_was claims.bin rounds/00{0,1}/{head,shares0,shares1}.bin
    succeed "the streams of the rounds" test "$(streams_of 0 1 2 3)" = "1 1 2 0"
    cp -r "$room/stored" "$room/stored_before"
    expect 0 "All rounds accepted yes" "$program" run --seed "$seed" "$room/stored"
    as_it_was claims.bin rounds/00{0,1,2}/{head,shares0,shares1}.bin
    as_counted "$1" rounds/00{0,1}/{opening,answers}.bin
    succeed "no stream is needed any more" test "$(streams_of 0 1 2 3)" = "0 0 0 0"
    stored "$1/half_committed"
    bytes "$seed" >"$room/stored/seed.bin"
    expect 0 "All rounds accepted yes" "$program" run --jobs 3 "$room/stored"
    as_counted "$1" rounds/00{0,1}/{opening,answers}.bin
    publish "$room/stored" "$room/other"
    expect 0 "accepted" "$program" check "$room/other"
}

earlier() {
    earlier_form
    second_form 0.9 000 001
    begun_then_early
    second_form 0.10 000 001
    early_then_gone_on
    second_form 0.11 000 001 002
    between 0.11
}
