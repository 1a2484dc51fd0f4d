# Whole elections: every way to give the files, and the numbers that come out.

# An election whose votes are known, by the commands of a voter.
by_hand() {
    local folder=$room/by_hand
    expect 0 "" "$program" keygen --ring 16 --rounds 2 "$folder"
    printf 'Red\nGreen & <Gold>\nBlue\n' >"$folder/lists.txt"
    echo 16 >"$folder/enrolled.txt"
    expect 0 "Mark     7" "$program" vote "$folder" 7 Red
    said "Ballot   $(grouped "$(sha <"$folder/ballots/7.ballot")")"
    expect 0 "" "$program" vote "$folder" 4294967295 Red Blue
    expect 0 "" "$program" vote "$folder" 0 Red
    expect 0 "" "$program" withdraw "$folder" 7
    expect 0 "" "$program" vote "$folder" 12 'Green & <Gold>'
    expect 0 "" "$program" vote "$folder" 13
    expect 1 "a vote with the mark 7: refused 33: this mark was withdrawn" "$program" vote "$folder" 7 Red
    expect 1 "a vote with the mark 12: refused 32: a ballot with this mark stands already" "$program" vote "$folder" 12 Red
    expect 1 "has no list with the name Purple" "$program" vote "$folder" 14 Purple
    expect 0 "Turnout             250 per thousand" "$program" run --draw-here "$folder"
    succeed "votes" grep -qx '      2  Red' "$folder/result.txt"
    succeed "votes" grep -qx '      1  Green & <Gold>' "$folder/result.txt"
    succeed "votes" grep -qx '      1  Blue' "$folder/result.txt"
    succeed "counted" grep -qx 'Ballots counted     4' "$folder/result.txt"
    succeed "withdrawn" grep -qx 'Ballots withdrawn   1' "$folder/result.txt"
    succeed "names in the page" grep -qF '<th scope="row">Green &amp; &lt;Gold&gt;</th><td class="number">1</td>' "$folder/result.html"
    expect 1 "" grep -qiE 'https?:|src=|url\(|<script' "$folder/result.html"
    accepted "$folder"
}

# What is published is accepted on another case, with no key, and nothing is written there.
accepted() { # FOLDER
    publish "$1" "$room/other"
    find "$room/other" -type f | sort | xargs sha256sum >"$room/before"
    expect 0 "accepted" "$program" check "$room/other"
    find "$room/other" -type f | sort | xargs sha256sum >"$room/after"
    succeed "a check writes nothing" cmp "$room/before" "$room/after"
}

sizes() {
    local folder=$room/sized words
    for words in "--ring 4 --rounds 1 --ballots 1" "--ring 8 --rounds 3 --drown 0" "--ring 64 --rounds 2" \
        "--ring 256 --rounds 1 --ballots 3 --repeats 5" "--ring 4 --modulus 193 --drown 0 --rounds 10 --ballots 2" \
        "--ring 4 --rounds 128 --ballots 1"; do
        rm -rf "$folder"
        # the words of the options are meant to part
        # shellcheck disable=SC2086
        expect 0 "" "$program" sample $words "$folder"
        expect 0 "All rounds accepted yes" "$program" run --draw-here "$folder"
        accepted "$folder"
        # 2^-10 + (2/3)^17 is 1 in 502, 2^-128 + (2/3)^218 is 1 in 1.42 10^38
        case $words in
        *"--rounds 10 "*) said "passes is at most 1 in 500." ;;
        *"--rounds 128 "*) said "passes is at most 1 in 140,000,000,000,000,000,000,000,000,000,000,000,000." ;;
        esac
    done
}

# One file of ballots, in another order than they are admitted in, gives the same transcript.
one_file() {
    local folder=$room/one_file
    cp -r "$room/ready" "$folder"
    cat $(ls -r "$folder"/ballots/*.ballot) >"$folder/ballots.bin"
    rm -r "$folder/ballots"
    expect 0 "" "$program" run --draw-here "${unsafe[@]}" "$folder"
    succeed "the result with one file of ballots" cmp "$folder/result.txt" "$room/done/result.txt"
    accepted "$folder"
    expect 1 "the ballots are closed" "$program" vote "$folder" 5 Rook
    rm "$folder/state.bin"
    expect 1 "takes no single one" "$program" vote "$folder" 5 Rook
}

# The log comes in parts; the society draws the seed after the first messages.
in_parts() {
    local folder=$room/in_parts
    cp -r "$room/ready" "$folder"
    cp "$folder/log.txt" "$room/log.txt"
    head -n 3 "$room/log.txt" >"$folder/log.txt"
    expect 0 "" "$program" gather "$folder"
    head -n 6 "$room/log.txt" >"$folder/log.txt"
    expect 0 "" "$program" gather "$folder"
    cp "$room/log.txt" "$folder/log.txt"
    expect 0 "Commitment" "$program" commit "$folder"
    succeed "no seed yet" test ! -e "$folder/seed.bin"
    cp "$room/said" "$room/commitment"
    expect 0 "Publish this commitment now" "$program" commit "$folder"
    succeed "the same commitment again" cmp "$room/commitment" "$room/said"
    head -c 32 /dev/zero | tr '\0' 's' >"$folder/seed.bin"
    expect 0 "Seed        7373-7373-7373-7373-7373-7373-7373-7373-7373-7373-7373-7373-7373-7373-7373-7373" "$program" run "$folder"
    expect 0 "Seed        7373" "$program" run "$folder"
    succeed "the commitment in the result" grep -qxF "$(grep '^Commitment' "$room/commitment")" "$folder/result.txt"
    accepted "$folder"
    expect 3 "ready is not accepted" "$program" check "$room/ready"
}

# Fresh random numbers give another transcript of the same votes.
fresh() {
    local folder=$room/fresh
    cp -r "$room/ready" "$folder"
    expect 0 "" "$program" run --draw-here "$folder"
    succeed "the same votes" diff <(votes "$folder") <(votes "$room/done")
    expect 1 "" cmp -s "$folder/rounds/000/head.bin" "$room/done/rounds/000/head.bin"
    accepted "$folder"
}

# A register that is full: every entry is used, and one more is refused.
full() {
    local folder=$room/full i mark zeros
    expect 0 "" "$program" sample --ring 4 --rounds 1 --ballots 1 "$folder"
    rm -r "$folder/ballots"
    mkdir "$folder/ballots"
    # u = v = 0 is a ballot with no noise and no vote; the mark stands before 64 zeros
    zeros=$(printf '\\0%.0s' {1..64})
    for ((i = 1; i <= 4097; i++)); do
        printf -v mark '\\x%02x\\x%02x\\0\\0' $((i & 255)) $((i >> 8))
        printf "$mark$zeros" >"$folder/ballots/$i.ballot"
    done
    seq -f 'admit %.0f' 4097 >"$folder/log.txt"
    expect 1 "log.txt, line 4097, admit 4097: refused 35: the register is full" "$program" gather "$folder"
    seq -f 'admit %.0f' 4096 >"$folder/log.txt"
    expect 0 "Ballots counted     4096" "$program" run --draw-here "$folder"
    accepted "$folder"
}

# Progress is shown to a person, and to nobody else.
watched() {
    local folder=$room/watched_run what
    cp -r "$room/ready" "$folder"
    expect 0 "" "$program" run --draw-here "$folder"
    succeed "no progress in a file" test "$(grep -c 'First messages' "$room/said")" -eq 0
    rm "$folder/state.bin"
    command -v script >"$room/answer" || return
    expect 0 "First messages: 2 of 2" script -qec "'$program' run --draw-here '$folder'" /dev/null
    for what in "First messages" "Second messages and checks"; do
        succeed "the time left" grep -qE "$what: 1 of 2, about [1-9][0-9]* (second|minute)s? left" "$room/said"
    done
    succeed "no time left before a round is done" test "$(grep -c '0 of 2,' "$room/said")" -eq 0
    succeed "no time left at the end" test "$(grep -c '2 of 2,' "$room/said")" -eq 0
}

elections() {
    expect 0 "UNSAFE" "$program" sample "${unsafe[@]}" --ring 16 "$room/ready"
    cp -r "$room/ready" "$room/done"
    expect 0 "All rounds accepted yes" "$program" run --draw-here "${unsafe[@]}" "$room/done"
    accepted "$room/done"
    by_hand
    sizes
    one_file
    in_parts
    fresh
    watched
    full
}
