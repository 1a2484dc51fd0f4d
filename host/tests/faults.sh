# Faults on the counting side: its key, its state, and files that change while an election is under way. The base of damage.sh is used.

# Readies a folder: a copy of a base, after a command where one is named.
readied() { # FROM COMMAND
    rm -rf "$room/fault"
    cp -r "$room/$1" "$room/fault"
    [ -z "$2" ] || "$program" "$2" "${unsafe[@]}" "$room/fault" >"$room/said" 2>&1 || tally 1 "$2: $(cat "$room/said")"
}

# Damages a folder that stands after a command, and runs the election on.
fault() { # STATUS TEXT AFTER COMMAND..
    local due=$1 text=$2 after=$3
    shift 3
    readied base_ready "$after"
    (cd "$room/fault" && "$@")
    expect "$due" "$text" "$program" run --draw-here "${unsafe[@]}" "$room/fault"
}

keys() {
    fault 3 "fault/key/s is missing" "" rm key/s
    fault 3 "fault/key/e is missing" "" rm key/e
    fault 1 "key/s: refused 1: it has 17 bytes where 16 are due" "" longer key/s
    fault 1 "fault/key: refused 5" "" poke key/e 3 3
    fault 1 "fault/key: refused 14: the secret key does not match" "" turn key/s 0
    succeed "nothing is closed without the key" test "$(byte_at "$room/fault/state.bin" 16)" -eq 0
    fault 1 "fault/key: refused 14: the secret key does not match" commit turn key/e 15
}

# Ballots that decrypt to noise are named before the ballots close, all of them at once; once they are withdrawn the election goes on.
noisy() {
    fault 1 "the ballot with the mark 1005: refused 15: its noise is larger than that of any honestly made ballot" "" \
        eval "poke ballots/1005.ballot $((4 + polynomial + 5)) 77; poke ballots/1009.ballot $((4 + 2 * polynomial - 3)) 77"
    said "the ballot with the mark 1009: refused 15"
    succeed "no other is named" test "$(grep -c 'refused 15' "$room/said")" -eq 2
    succeed "nothing is closed" test "$(byte_at "$room/fault/state.bin" 16)" -eq 0
    # they are named again for as long as they stand
    expect 1 "the ballot with the mark 1005: refused 15" "$program" gather "$room/fault"
    expect 0 "" "$program" withdraw "$room/fault" 1005
    expect 1 "the ballot with the mark 1009: refused 15" "$program" gather "$room/fault"
    succeed "the one that is withdrawn is not named" test "$(grep -c 'mark 1005' "$room/said")" -eq 0
    expect 0 "" "$program" withdraw "$room/fault" 1009
    expect 0 "Ballots standing    10" "$program" gather "$room/fault"
    expect 0 "Ballots counted     10" "$program" run --draw-here "$room/fault"
    expect 0 "accepted" "$program" check "$room/fault"
}

# The largest noise that the sheet allows is taken, and one more is not: u = 0, so that v is the noise, and its bound is
# 2 (2 16 + 1) + 1 = 67 (document 01).
noise_bound() {
    local noise
    for noise in 67 68 36028797018820542 36028797018820541; do
        readied base_ready ""
        { number 7 4; head -c $((polynomial + 8)) /dev/zero; number $noise 8; head -c $((polynomial - 16)) /dev/zero; } \
            >"$room/fault/ballots/7.ballot"
        echo "admit 7" >>"$room/fault/log.txt"
        # q is 36028797018820609: q - 67 is as far from 0 as 67 is
        case $noise in
        67 | 36028797018820542) expect 0 "Ballots standing    13" "$program" gather "$room/fault" ;;
        *) expect 1 "the ballot with the mark 7: refused 15" "$program" gather "$room/fault" ;;
        esac
    done
}

# What needs no key is found without it, all at once: lengths, marks and ranges. What needs it waits, and that is said.
without_key() {
    readied base_ready ""
    rm -r "$room/fault/key"
    expect 0 "key/ is not here: the noise of the ballots is looked at where it is, before they are closed" "$program" gather "$room/fault"
    readied base_ready ""
    rm -r "$room/fault/key"
    poke "$room/fault/ballots/1004.ballot" $((4 + 7)) 255
    longer "$room/fault/ballots/1006.ballot"
    rm "$room/fault/ballots/1008.ballot"
    flip "$room/fault/ballots/1010.ballot" 0
    # a withdrawal of one of them is no fault of its own
    echo "withdraw 1004" >>"$room/fault/log.txt"
    expect 1 "log.txt, line 6, admit 1004: refused 5: a number is out of range" "$program" gather "$room/fault"
    said "ballots/1006.ballot: refused 1: it has 261 bytes where 260 are due"
    said "ballots/1008.ballot is missing"
    said "ballots/1010.ballot has the mark 1011 inside"
    said "key/ is not here"
    succeed "nothing else is named" test "$(grep -c "" "$room/said")" -eq 5
    # three ballots, and the withdrawal that comes before its ballot
    succeed "the lines before are taken" test "$(byte_at "$room/fault/state.bin" $((16 + 73)))" -eq 4
    # with the key, the noise of the lines before is found too
    readied base_ready ""
    poke "$room/fault/ballots/1001.ballot" $((4 + polynomial + 5)) 77
    rm "$room/fault/ballots/1008.ballot"
    expect 3 "ballots/1008.ballot is missing" "$program" gather "$room/fault"
    said "the ballot with the mark 1001: refused 15"
}

states() {
    fault 1 "state.bin is damaged" gather flip state.bin 0
    fault 1 "state.bin is damaged" gather flip state.bin 5000
    fault 1 "state.bin: refused 1" commit truncate -s 100 state.bin
    fault 1 "state.bin belongs to another sheet than sheet.txt" commit swap sheet.txt '^k1=[0-9]*' k1=1
    fault 1 "log.txt was changed in the lines that are taken already" gather drop_line log.txt "withdraw 1002"
    fault 1 "log.txt was changed in the lines that are taken already" gather truncate -s 0 log.txt
    fault 1 "log.txt has grown since the ballots were closed" commit add_line log.txt "withdraw 1001"
    fault 3 "log.txt is missing" commit rm log.txt
}

# Puts a byte into a state, and the digest at its end right, so that only what the byte says can be wrong.
set_state() { # PLACE BYTE
    poke state.bin "$1" "$2"
    local kept=$(($(size state.bin) - 32)) digest
    digest=$(head -c "$kept" state.bin | sha)
    truncate -s "$kept" state.bin
    bytes "$digest" >>state.bin
}

# The phase of the session, which stands behind the title: only the library can tell.
set_phase() { # PHASE
    set_state 16 "$1"
}

# The stream of a round: 128 of them stand before the digest.
set_stream() { # ROUND STREAM
    set_state $(($(size state.bin) - 32 - 128 + $1)) "$2"
}

# A round is answered with the stream that its state names. One that this release does not have is not guessed; a wrong one would answer
# with other numbers than were committed, and lose the election.
streams() {
    fault 1 "state.bin: round 1 is committed with random numbers of stream 3, which this release does not have" commit set_stream 1 3
    succeed "nothing is drawn" test ! -e "$room/fault/seed.bin"
    expect 1 "round 1 is committed with random numbers of stream 3" "$program" status "$room/fault"
    (cd "$room/fault" && set_stream 1 2)
    expect 0 "All rounds accepted yes" "$program" run --draw-here "${unsafe[@]}" "$room/fault"
    fault 1 "round 0 is committed with random numbers of stream 0" commit set_stream 0 0
    fault 1 "round 0: refused 7: the opened half of the key does not give its half of the public key" commit set_stream 0 1
    # nothing is asked of rounds that are answered, or not committed
    fault 0 "All rounds accepted yes" run set_stream 0 9
    fault 0 "All rounds accepted yes" gather set_stream 0 9
}

phases() {
    fault 0 "All rounds accepted yes" commit set_phase 2
    fault 1 "state.bin: refused 31: this step is not due now, or the session is damaged" commit set_phase 6
    fault 1 "the session did not end accepted, and has no result" commit set_phase 4
    # a state that says accepted, with no round answered, gives no result: not with no seed, and not with one
    fault 3 "seed.bin is missing" commit set_phase 5
    said "no result is written"
    succeed "no result" test ! -e "$room/fault/result.txt" -a ! -e "$room/fault/result.html"
    fault 3 "rounds/000/opening.bin is missing" commit eval 'set_phase 5; head -c 32 /dev/zero >seed.bin'
    succeed "no result" test ! -e "$room/fault/result.txt" -a ! -e "$room/fault/result.html"
    # and one that is not the session of the files, neither
    fault 1 "state.bin is of another transcript than the files" run eval 'poke state.bin $((16 + 161)) 1; set_phase 5'
}

# An old state is not drawn again: not after all first messages, and not after some of them.
rolled_back() {
    readied base_ready commit
    cp "$room/fault/state.bin" "$room/old_state.bin"
    expect 0 "All rounds accepted yes" "$program" run --draw-here "$room/fault"
    cp "$room/old_state.bin" "$room/fault/state.bin"
    expect 1 "round 0 was answered before it is drawn" "$program" run --draw-here "$room/fault"
    rm "$room/fault/seed.bin"
    expect 1 "An old state.bin is never put back: that can give the key away" "$program" run --draw-here "$room/fault"
    succeed "nothing is drawn" test ! -e "$room/fault/seed.bin"
    rm "$room/fault/state.bin"
    expect 0 "All rounds accepted yes" "$program" run --draw-here "$room/fault"
    expect 0 "accepted" "$program" check "$room/fault"
}

# Files that the session holds by their digests.
held() {
    fault 1 "the ballot with the mark 1004 is not the one that was admitted" gather flip ballots/1004.ballot 4
    fault 1 "the ballot with the mark 1004 is not the one that was admitted" commit flip ballots/1004.ballot 200
    fault 3 "ballots/1004.ballot is missing" commit rm ballots/1004.ballot
    fault 1 "round 0: refused 16: the sheet, the ballots, the claims or the first message are not those that the session holds" \
        commit flip claims.bin 0
    fault 1 "round 1: refused 16" commit flip rounds/001/shares0.bin 0
    fault 3 "rounds/001/shares0.bin is missing" commit rm rounds/001/shares0.bin
    fault 1 "seed.bin: refused 1: it has 31 bytes where 32 are due" commit eval 'head -c 31 /dev/zero > seed.bin'
    fault 1 "round 0: refused 13" run flip claims.bin 0
    said "no result is written"
    fault 3 "rounds/001/answers.bin is missing" run rm rounds/001/answers.bin
    fault 3 "lists.txt is missing" run rm lists.txt
    # what is damaged can be put right, and the election goes on
    cp "$room/base/lists.txt" "$room/fault"
    expect 0 "All rounds accepted yes" "$program" run --draw-here "$room/fault"
}

# A refused line of the log stops there; once it is put right the run goes on from the line before.
refused_lines() {
    fault 1 "log.txt, line 17, admit 1001: refused 32" "" add_line log.txt "admit 1001"
    succeed "nothing is closed" test "$(byte_at "$room/fault/state.bin" 16)" -eq 0
    sed -i '$d' "$room/fault/log.txt"
    expect 0 "Ballots counted     12" "$program" run --draw-here "$room/fault"
    fault 1 "closing the ballots: refused 36: no ballot stands" "" truncate -s 0 log.txt
}

# The disk takes no more: what is there stays.
disk() {
    readied base_ready gather
    cp "$room/fault/state.bin" "$room/state.bin"
    # a limit of 100 blocks of 1,024 bytes, less than a state; the signal that would end the program is ignored
    (trap '' XFSZ && ulimit -f 100 && "$program" run --draw-here "$room/fault") >"$room/said" 2>&1
    succeed "status 3 where a file cannot be written" test $? -eq 3
    said "state.bin.new: File too large"
    succeed "the state as it was" cmp "$room/fault/state.bin" "$room/state.bin"
    expect 0 "All rounds accepted yes" "$program" run --draw-here "$room/fault"
}

locks() {
    readied base_ready ""
    exec 9<"$room/fault"
    succeed "the folder can be locked" flock -n 9
    expect 3 "is in use by another command" "$program" run --draw-here "$room/fault"
    # a command waits some seconds for another one
    (sleep 1 && exec 9<&-) &
    exec 9<&-
    expect 1 "" flock -n "$room/fault" true
    expect 0 "Mark     5" "$program" vote "$room/fault" 5 Rook
    wait
}

faults() {
    [ -d "$room/base" ] || damage_base
    keys
    noisy
    noise_bound
    without_key
    states
    phases
    streams
    rolled_back
    held
    refused_lines
    disk
    locks
}
