# What "accepted" means: the fingerprint and the commitment, worked out here from the published files by the words of docs/ELECTIONS.md;
# results of other forms; the chance of a false result; and two forgeries.

# An election by the officer's walk, with a public draw: $room/walk, and what is published of it, $room/walked.
draw=5eed000000000000000000000000000000000000000000000000000000005eed
walk() {
    rm -rf "$room/walk" "$room/walked"
    expect 0 "" "$program" keygen "$room/walk" --ring 4 --rounds 4
    printf 'Jackdaw\nRook\nJay\n' >"$room/walk/lists.txt"
    echo 16 >"$room/walk/enrolled.txt"
    expect 0 "" "$program" vote "$room/walk" 11 Jackdaw
    expect 0 "" "$program" vote "$room/walk" 12 Rook
    expect 0 "" "$program" vote "$room/walk" 13 Rook Jay
    expect 0 "" "$program" vote "$room/walk" 14 Jackdaw
    expect 0 "" "$program" withdraw "$room/walk" 14
    # a seed that is known before the first messages are made shows nothing
    expect 1 "a seed that is known before shows nothing" "$program" run "$room/walk" --seed "$draw"
    expect 0 "Publish this commitment now" "$program" commit "$room/walk"
    commitment=$(sed -n 's/^Commitment  //p' "$room/said")
    expect 3 "the seed is not drawn yet" "$program" run "$room/walk"
    succeed "no seed is drawn" test ! -e "$room/walk/seed.bin"
    bytes "${draw/5/6}" >"$room/walk/seed.bin"
    expect 1 "walk/seed.bin holds another seed" "$program" run "$room/walk" --seed "$draw"
    rm "$room/walk/seed.bin"
    expect 0 "All rounds accepted yes" "$program" run "$room/walk" --seed "$(grouped "$draw" | tr a-f A-F)"
    succeed "the seed" cmp "$room/walk/seed.bin" <(bytes "$draw")
    expect 1 "was drawn with another seed" "$program" run "$room/walk" --seed "${draw/5/6}"
    publish "$room/walk" "$room/walked"
}

# Commitment and fingerprint of a published folder: document 01 has the digests of the session, docs/ELECTIONS.md what is hashed from them.
work_out() { # FOLDER MARK..
    local folder=$1 sheet closing claims round rounds mark
    shift
    sheet=$(sha <"$folder/sheet.txt")
    closing=$({ bytes "$sheet"; for mark in "$@"; do bytes "$(sha <"$folder/ballots/$mark.ballot")"; done; } | sha)
    claims=$({ bytes "$closing"; cat "$folder/claims.bin"; } | sha)
    rounds=$(ls "$folder/rounds" | wc -l)
    worked_commitment=$({
        printf 'jackdawnail commitment 1\n'
        bytes "$sheet$(sha <"$folder/lists.txt")$(sha <"$folder/enrolled.txt")$(sha <"$folder/log.txt")$closing$claims"
        number "$rounds" 8
        for ((round = 0; round < rounds; round++)); do
            bytes "$({ bytes "$claims"; number "$round" 2; cat "$folder/rounds/00$round"/{head,shares0,shares1}.bin; } | sha)"
        done
    } | sha)
    worked_fingerprint=$({ printf 'jackdawnail fingerprint 1\n'; bytes "$worked_commitment"; cat "$folder/seed.bin"; } | sha)
}

fingerprints() {
    local print
    work_out "$room/walked" 11 12 13
    print=$(grouped "$worked_fingerprint")
    succeed "the commitment" test "$commitment" = "$(grouped "$worked_commitment")"
    succeed "the commitment in the result" test "$(named "$room/walked" Commitment)" = "$commitment"
    succeed "the fingerprint in the result" test "$(named "$room/walked" Fingerprint)" = "$print"
    succeed "the fingerprint on the page" grep -qF "<th scope=\"row\">Fingerprint</th><td><code>$print</code>" "$room/walked/result.html"
    succeed "the commitment on the page" grep -qF "<th scope=\"row\">Commitment</th><td><code>$commitment</code>" \
        "$room/walked/result.html"
    expect 0 "Fingerprint $print" "$program" check "$room/walked"
    expect 0 "accepted" "$program" check "$room/walked" --fingerprint "$print"
    expect 0 "accepted" "$program" check "$room/walked" --fingerprint "${print^^}"
    expect 0 "accepted" "$program" check "$room/walked" --fingerprint "$worked_fingerprint"
    expect 0 "accepted" "$program" check "$room/walked" --fingerprint "${print//-/ }"
    expect 1 "the fingerprint of the election is $print, and not the one that you named" \
        "$program" check "$room/walked" --fingerprint "$draw"
    said "walked is not accepted"
}

# What is said with the commitment and the seed as they were published, and without them.
conditions() {
    local condition="acceptance holds only if this seed was drawn after this commitment was public"
    expect 0 "accepted: commitment and seed are the ones that you named" \
        "$program" check "$room/walked" --committed "$commitment" --seed "$draw"
    said "It holds if that commitment was public before that seed was drawn"
    expect 0 "accepted, on one condition" "$program" check "$room/walked"
    said "$condition"
    said "Whoever knew the seed before that could have made any result pass"
    expect 0 "accepted, on one condition" "$program" check "$room/walked" --committed "$commitment"
    expect 0 "accepted, on one condition" "$program" check "$room/walked" --seed "$draw"
    expect 1 "the seed is $(grouped "$draw"), and not the one that you named" "$program" check "$room/walked" --seed "${draw/5/6}"
    expect 1 "the commitment is $commitment, and not the one that you named" \
        "$program" check "$room/walked" --committed "$draw" --seed "$draw"
    succeed "the condition in the result" grep -qF "$condition" "$room/walked/result.txt"
    succeed "the condition on the page" grep -qF "$condition" "$room/walked/result.html"
}

# Makes the result of a published folder anew, as a forger does who writes what a check prints.
tell_anew() { # FOLDER
    rm -f "$1/result.html"
    echo "jackdawnail result 0" >"$1/result.txt"
    "$program" check "$1" 2>"$room/warned" | sed -n '/^jackdawnail result/,$p' >"$room/told"
    mv "$room/told" "$1/result.txt"
}

# A result of another form is not compared, and that is said; one that names no form at all is no result.
forms() {
    local folder=$room/forms
    rm -rf "$folder"
    cp -r "$room/walked" "$folder"
    succeed "the form" test "$(head -n 1 "$folder/result.txt")" = "jackdawnail result 2"
    succeed "the form of the page" test "$(sed -n 2p "$folder/result.html")" = "<!-- jackdawnail result 2 -->"
    sed -i '1s/2/3/; s/  Rook/  Crow/' "$folder/result.txt"
    expect 0 "forms/result.txt is of another form than \`jackdawnail result 2\`, and was NOT COMPARED" "$program" check "$folder"
    said "      2  Rook"
    sed -i '1s/3/x2/' "$folder/result.txt"
    expect 0 "forms/result.txt is of another form" "$program" check "$folder"
    sed -i '1s/jackdawnail/Jackdawnail/' "$folder/result.txt"
    expect 1 "forms/result.txt is not the result of this transcript" "$program" check "$folder"
    cp "$room/walked/result.txt" "$folder"
    sed -i '2s/2/1/; s/Rook/Crow/' "$folder/result.html"
    expect 0 "forms/result.html is of another form than \`jackdawnail result 2\`, and was NOT COMPARED" "$program" check "$folder"
    sed -i 2d "$folder/result.html"
    expect 0 "forms/result.html is of another form" "$program" check "$folder"
    sed -i 1d "$folder/result.html"
    expect 1 "forms/result.html is not the result of this transcript" "$program" check "$folder"
    tell_anew "$folder"
    succeed "a result as it is told" cmp "$folder/result.txt" "$room/walked/result.txt"
}

# The first forgery: the same transcript under other names, or with another enrolment. The fingerprint shows it.
names_exchanged() {
    local folder=$room/renamed
    rm -rf "$folder"
    cp -r "$room/walked" "$folder"
    sed -i '1h; 1d; 2G' "$folder/lists.txt"
    succeed "two lines are exchanged" cmp "$folder/lists.txt" <(printf 'Rook\nJackdaw\nJay\n')
    tell_anew "$folder"
    expect 0 "      2  Jackdaw" "$program" check "$folder"
    work_out "$folder" 11 12 13
    said "Fingerprint $(grouped "$worked_fingerprint")"
    succeed "another fingerprint" test "$(named "$folder" Fingerprint)" != "$(named "$room/walked" Fingerprint)"
    expect 1 "the fingerprint of the election is" "$program" check "$folder" --fingerprint "$(named "$room/walked" Fingerprint)"
    expect 1 "the commitment is" "$program" check "$folder" --committed "$commitment" --seed "$draw"
    cp "$room/walked/lists.txt" "$folder"
    echo 4 >"$folder/enrolled.txt"
    tell_anew "$folder"
    expect 0 "Turnout             750 per thousand" "$program" check "$folder"
    expect 1 "the fingerprint of the election is" "$program" check "$folder" --fingerprint "$(named "$room/walked" Fingerprint)"
    expect 1 "the commitment is" "$program" check "$folder" --committed "$commitment" --seed "$draw"
}

# A log with a ballot more that was withdrawn, or with a withdrawal more, counts the same, and tells of other withdrawals: that is another
# election too.
withdrawal_added() {
    local folder=$room/relogged
    rm -rf "$folder"
    cp -r "$room/walked" "$folder"
    { number 15 4; head -c 64 /dev/zero; } >"$folder/ballots/15.ballot"
    printf 'admit 15\nwithdraw 15\n' >>"$folder/log.txt"
    tell_anew "$folder"
    expect 0 "Ballots withdrawn   2" "$program" check "$folder"
    expect 1 "the fingerprint of the election is" "$program" check "$folder" --fingerprint "$(named "$room/walked" Fingerprint)"
    expect 1 "the commitment is" "$program" check "$folder" --committed "$commitment" --seed "$draw"
    cp "$room/walked/log.txt" "$folder"
    echo "withdraw 15" >>"$folder/log.txt"
    tell_anew "$folder"
    expect 0 "Withdrawn marks with which no ballot came: 1" "$program" check "$folder"
    said "relogged/ballots/15.ballot is admitted by no line of log.txt"
    expect 1 "the fingerprint of the election is" "$program" check "$folder" --fingerprint "$(named "$room/walked" Fingerprint)"
    expect 1 "the commitment is" "$program" check "$folder" --committed "$commitment" --seed "$draw"
}

# The side that a round opens follows from the seed alone (document 01): the lowest bit of SHA3-256 of seed, round, 0.
side_of() { # FOLDER ROUND
    echo $((0x$({ cat "$1/seed.bin"; number "$2" 2; number 0 2; } | sha | cut -c1-2) & 1))
}

# Adds one to a coefficient of a file of shares, or takes one away where that would pass the modulus.
move_share() { # FILE PLACE MODULUS
    local value
    value=$(od -An -tu8 -j $((8 * $2)) -N 8 "$1" | tr -d ' ')
    number $((value + 1 < $3 ? value + 1 : value - 1)) 8 | dd of="$1" bs=8 seek="$2" conv=notrunc status=none
}

# Claims another vote: flips a coefficient of a claim, and in each round moves that coefficient of the share that is not opened, so that
# the sum is odd where it was even. No answer changes: an answer is about the key, and the share that is opened is left alone.
forge_vote() { # FOLDER PLACE
    local modulus round
    modulus=$(sed -n 's/^modulus=//p' "$1/sheet.txt")
    flip "$1/claims.bin" "$2"
    for ((round = 0; round < $(ls "$1/rounds" | wc -l); round++)); do
        move_share "$1/rounds/00$round/shares$((1 - $(side_of "$1" "$round"))).bin" "$2" "$modulus"
    done
}

# The second forgery: who knows the seed beforehand makes any result pass. It cannot be seen in the transcript; so it is said, and it is
# refused where the commitment is the one that was public.
seed_known() {
    local folder=$room/forged
    rm -rf "$folder"
    cp -r "$room/walked" "$folder"
    # ballot 12, the second of the batch, votes for Rook, the second list: now for Jackdaw and Jay
    forge_vote "$folder" $((4 * 1 + 0))
    forge_vote "$folder" $((4 * 1 + 1))
    forge_vote "$folder" $((4 * 1 + 2))
    tell_anew "$folder"
    expect 0 "accepted, on one condition" "$program" check "$folder"
    said "acceptance holds only if this seed was drawn after this commitment was public"
    said "      2  Jackdaw"
    said "      1  Rook"
    said "      2  Jay"
    expect 0 "on one condition" "$program" check "$folder" --seed "$draw"
    expect 1 "the commitment is $(named "$folder" Commitment), and not the one that you named, $commitment" \
        "$program" check "$folder" --committed "$commitment" --seed "$draw"
    said "forged is not accepted"
    expect 1 "the fingerprint of the election is" "$program" check "$folder" --fingerprint "$(named "$room/walked" Fingerprint)"
    # the honest one beside it
    expect 0 "accepted: commitment and seed" "$program" check "$room/walked" --committed "$commitment" --seed "$draw"
    said "      2  Rook"
    # with another draw the same forgery is found in the rounds: the sides are others in at least one of them
    bytes "${draw/5/6}" >"$folder/seed.bin"
    expect 1 "forged is not accepted" "$program" check "$folder"
}

# 2^-rounds + (2/3)^repeats, by hand: 1/2 + 2/3 is above 1; 1/4 + 8/27 = 0.546..; and for 40 and 68, 0.909.. + 1.061.. in 10^12, which is
# 1 in 5.07 10^11.
chances() {
    local words
    for words in "1 100 in 100" "2 55 in 100" "40 1 in 500,000,000,000."; do
        rm -rf "$room/chance"
        expect 0 "" "$program" sample "$room/chance" --ring 4 --rounds "${words%% *}" --ballots 1
        expect 0 "The chance that a false result passes is at most ${words#* }" "$program" run "$room/chance" --draw-here
        said "FOR TRYING ONLY: its ring is 4, below 1,024"
        succeed "the chance on the page" grep -qF "at most <strong>$(sed 's/\.$//' <<<"${words#* }")</strong>" "$room/chance/result.html"
        succeed "the warning on the page" grep -qF "<strong>For trying only:</strong> its ring is 4, below 1,024" \
            "$room/chance/result.html"
        if [ "${words%% *}" -lt 40 ]; then
            said "and its rounds are ${words%% *}, fewer than 40"
        else
            succeed "rounds enough" test "$(grep -c 'fewer than 40' "$room/said")" -eq 0
        fi
    done
}

# The floor: a key for trying only says so.
floors() {
    rm -rf "$room/floor"*
    expect 0 "this sheet is for trying only: its ring is 512, below 1,024" "$program" keygen "$room/floor1" --ring 512
    expect 0 "this sheet is for trying only: its rounds are 39, fewer than 40" "$program" keygen "$room/floor2" --ring 1024 --rounds 39
    expect 0 "" "$program" keygen "$room/floor3" --ring 1024
    succeed "nothing is said of a sheet at the floor" test ! -s "$room/said"
    expect 0 "" "$program" keygen "$room/floor4"
    succeed "nothing is said of a sheet above it" test ! -s "$room/said"
}

trust() {
    walk
    fingerprints
    conditions
    forms
    names_exchanged
    withdrawal_added
    seed_known
    chances
    floors
}
