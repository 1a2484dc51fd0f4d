# A published transcript, damaged in each file in turn: the check says what is wrong, in words, and its exit status is not 0.
# N = 16, 2 rounds of 3 repetitions; the batch has the marks 1001, 1003, 1004, .. 1013. 1002 is withdrawn, and 1014 comes after its
# withdrawal, in the last line of the log. The seed is 32 times B, which draws
#   for round 0 side 1 and the challenges 1, 2, 3; for round 1 side 0 and the challenges 3, 1, 2.
coefficient=8 polynomial=128
# where parts of a head begin: b0, the pairs of s0 and s1, the digests
pair0=$((2 * polynomial)) pair1=$((4 * polynomial)) digests=$((10 * polynomial))
# where the answers of round 0 begin, and the vector in that to challenge 2 or 3
answer2=$((378 * 16 + 64)) answer3=$((378 * 16 + 64 + 504 * 16 + 64)) vector=$((168 * 16))

# An accepted election and what is published of it.
damage_base() {
    rm -rf "$room/base" "$room/base_ready"
    expect 0 "" "$program" sample "${unsafe[@]}" --ring 16 "$room/base_ready"
    cp -r "$room/base_ready" "$room/base_run"
    head -c 32 /dev/zero | tr '\0' 'B' >"$room/base_run/seed.bin"
    expect 0 "it convinces only those" "$program" run "${unsafe[@]}" "$room/base_run"
    publish "$room/base_run" "$room/base"
    expect 0 "accepted" "$program" check "$room/base"
}

# Damages a copy of what is published, by a command that runs in it, and checks it.
damaged() { # STATUS TEXT COMMAND..
    local due=$1 text=$2
    shift 2
    rm -rf "$room/damaged"
    cp -r "$room/base" "$room/damaged"
    (cd "$room/damaged" && "$@")
    expect "$due" "$text" "$program" check "$room/damaged"
    [ "$due" -eq 0 ] || said "damaged is not accepted"
}

# Puts a text in the place of another.
swap() { # FILE OLD NEW
    sed -i "s/$2/$3/" "$1"
}

# Changes a ternary byte to another one.
turn() { # FILE PLACE
    poke "$1" "$2" $((($(byte_at "$1" "$2") + 1) % 3))
}

longer() { # FILE
    printf x >>"$1"
}

# A line more, or the lines but one, or none.
add_line() { # FILE LINE
    echo "$2" >>"$1"
}
drop_line() { # FILE LINE
    sed -i "/^$2\$/d" "$1"
}

missing_and_lengths() {
    local name
    for name in sheet.txt log.txt lists.txt enrolled.txt claims.bin seed.bin result.txt ballots/1005.ballot ballots/1014.ballot \
        rounds/000/head.bin rounds/000/shares0.bin rounds/001/shares1.bin rounds/000/opening.bin rounds/001/answers.bin; do
        damaged 3 "damaged/$name is missing" rm "$name"
    done
    for name in claims.bin seed.bin ballots/1005.ballot ballots/1014.ballot rounds/000/head.bin rounds/000/shares0.bin \
        rounds/001/shares1.bin rounds/000/opening.bin rounds/001/answers.bin; do
        damaged 1 "damaged/$name: refused 1: it has $(($(size "$room/base/$name") + 1)) bytes where $(size "$room/base/$name") are due" \
            longer "$name"
        damaged 1 "damaged/$name: refused 1: it has 7 bytes" truncate -s 7 "$name"
    done
    damaged 3 "seed.bin is no file" eval 'rm seed.bin; mkdir seed.bin'
    damaged 3 "seed.bin is no file" eval 'rm seed.bin; mkfifo seed.bin'
    damaged 3 "the folder" eval 'rm -r ../damaged'
}

sheets() {
    damaged 1 "sheet.txt: refused 1: something has the wrong length" truncate -s 0 sheet.txt
    damaged 1 "sheet.txt: refused 1: it has 262145 bytes" truncate -s 262145 sheet.txt
    damaged 1 "sheet.txt: refused 2: the sheet does not have the form" swap sheet.txt '^drown' drawn
    damaged 1 "sheet.txt: refused 3: a number is outside its range" swap sheet.txt '^repeats=.*' repeats=1
    said "sheet.txt: repeats 1 is outside its range: for so many rounds, a whole number from 3 to 256"
    damaged 1 "sheet.txt: ring 4096 is outside its range: a power of two from 4 to 2048" swap sheet.txt '^ring=.*' ring=4096
    damaged 1 "sheet.txt: ring 12 is no power of two" swap sheet.txt '^ring=.*' ring=12
    damaged 1 "sheet.txt: modulus 2 is outside its range: a whole number from 3 to 72057594037927935" \
        swap sheet.txt '^modulus=.*' modulus=2
    damaged 1 "sheet.txt: drown 41 is outside its range: a whole number from 0 to 40" swap sheet.txt '^drown=.*' drown=41
    damaged 1 "sheet.txt: rounds 129 is outside its range: a whole number from 1 to 128" swap sheet.txt '^rounds=.*' rounds=129
    damaged 1 "sheet.txt: modulus 97 leaves no room for noise and masks with ring 16 and drown 40" swap sheet.txt '^modulus=.*' modulus=97
    damaged 1 "sheet.txt: refused 4: the modulus does not fit" swap sheet.txt '^modulus=.*' modulus=36028797018820611
    said "sheet.txt: modulus 36028797018820611 does not fit ring 16: twice the ring, 32, has to divide the modulus less one"
    damaged 1 "sheet.txt: refused 5: a number is out of range" swap sheet.txt '^k3=' k3=1,
    damaged 1 "round 0: refused 6: the halves of the public key" swap sheet.txt '^b=[0-9]*' b=1
    damaged 1 "refused 1: it has" swap sheet.txt '^repeats=.*' repeats=4
}

logs() {
    damaged 1 "log.txt, line 17 is not \`admit MARK\` or \`withdraw MARK\`" add_line log.txt "readmit 1002"
    damaged 1 "log.txt, line 1 has a mark that is no whole number from 0 to 4294967295" swap log.txt '^admit 1001' 'admit  1001'
    damaged 1 "log.txt, line 1 has a mark that is no whole number from 0 to 4294967295" swap log.txt '^admit 1001' 'admit 01001'
    damaged 1 "log.txt, line 1 has a mark that is no whole number from 0 to 4294967295" swap log.txt '^admit 1001' 'admit 4294967296'
    damaged 1 "log.txt, line 16 has no line end" truncate -s -1 log.txt
    damaged 1 "log.txt, line 1 has a mark that is no whole number" swap log.txt '$' '\r'
    damaged 1 "log.txt, line 17, admit 1004: refused 32: a ballot with this mark stands already" add_line log.txt "admit 1004"
    damaged 1 "log.txt, line 17, withdraw 1002: refused 33: this mark was withdrawn" add_line log.txt "withdraw 1002"
    damaged 1 "log.txt, line 17, withdraw 1014: refused 33: this mark was withdrawn" add_line log.txt "withdraw 1014"
    damaged 1 "claims.bin: refused 1: it has 192 bytes where 208 are due" drop_line log.txt "withdraw 1002"
    damaged 1 "claims.bin: refused 1: it has 192 bytes where 208 are due" drop_line log.txt "withdraw 1014"
    damaged 1 "claims.bin: refused 1: it has 192 bytes where 176 are due" add_line log.txt "withdraw 1009"
    damaged 1 "closing the ballots: refused 36: no ballot stands" truncate -s 0 log.txt
}

# The same ballots are counted, but the log tells of other withdrawals, or in another order: that is another election.
other_withdrawals() {
    damaged 1 "result.txt is not the result of this transcript" add_line log.txt "admit 1002"
    damaged 1 "result.txt is not the result of this transcript" add_line log.txt "admit 1014"
    damaged 1 "result.txt is not the result of this transcript" add_line log.txt "withdraw 77"
    damaged 1 "result.txt is not the result of this transcript" drop_line log.txt "admit 1014"
    damaged 1 "result.txt is not the result of this transcript" eval 'sed -i /withdraw.1014/d log.txt; echo withdraw 1014 >>log.txt'
    damaged 1 "result.txt is not the result of this transcript" eval 'sed -i "/^Ballots that came/d; /^  1014$/d" result.txt'
    damaged 1 "result.txt is not the result of this transcript" swap result.txt '^  1014$' '  1013'
    damaged 1 "result.html is not the result of this transcript" swap result.html '^  1014$' '  1013'
}

single_ballots() {
    local file=ballots/1004.ballot
    damaged 1 "$file has the mark 1005 inside" flip $file 0
    damaged 1 "log.txt, line 6, admit 1004: refused 5: a number is out of range" poke $file $((4 + 7)) 255
    damaged 1 "round 0: refused 12: a mask is larger than the sheet allows (ballot 2 of the batch)" flip $file 4
    damaged 1 "ballot 2 of the batch has the mark 1004" flip $file 4
    damaged 1 "round 0: refused 13: the claimed vote is not what the shares decrypt to (ballot 2 of the batch)" \
        flip $file $((4 + polynomial))
}

one_file_of_ballots() {
    local together='cat ballots/*.ballot > ballots.bin; rm -r ballots'
    damaged 0 "accepted" eval "$together"
    damaged 1 "ballots.bin: refused 1: it is no whole number of ballots of 260 bytes" eval "$together; printf x >> ballots.bin"
    damaged 1 "ballots.bin has two ballots with the mark 1001" eval "$together; head -c 260 ballots.bin > one; cat one >> ballots.bin"
    damaged 3 "ballots.bin has no ballot with the mark 1014" eval "$together; truncate -s -260 ballots.bin"
    damaged 1 "ballots.bin: refused 1: it has 0 bytes" eval "$together; truncate -s 0 ballots.bin"
    damaged 1 "ballots.bin: refused 1: it has 1065220 bytes where 260 to 1064960 are due" eval "$together; truncate -s 1065220 ballots.bin"
    damaged 3 "has both ballots/ and ballots.bin" eval 'cat ballots/*.ballot > ballots.bin'
    damaged 3 "has neither ballots/ nor ballots.bin" rm -r ballots
}

claimed() {
    damaged 1 "claims.bin: refused 5: a number is out of range" poke claims.bin 3 2
    damaged 1 "round 0: refused 13: the claimed vote is not what the shares decrypt to (ballot 1 of the batch)" flip claims.bin 16
    damaged 1 "is not accepted" flip seed.bin 0
}

messages() {
    local first=rounds/000/head.bin opening=rounds/000/opening.bin answers=rounds/000/answers.bin
    damaged 1 "round 0: refused 5" poke $first 7 255
    damaged 1 "round 0: refused 6: the halves of the public key do not add up" flip $first 0
    damaged 1 "round 0: refused 7: the opened half of the key" flip $opening 0
    damaged 1 "round 0: refused 8: an opened commitment" turn $opening $((2 * polynomial))
    damaged 1 "round 0: refused 5" poke $opening $((2 * polynomial)) 3
    damaged 1 "round 0: refused 8: an opened commitment" flip $first $pair1
    damaged 1 "round 0: refused 11: the answer does not give the digests of the first message (repetition 1)" flip $first $pair0
    damaged 1 "round 0: refused 11: the answer does not give the digests of the first message (repetition 0)" flip $first $((digests + 32))
    damaged 1 "round 0: refused 11: the answer does not give the digests of the first message (repetition 2)" \
        flip $first $((digests + 2 * 96))
    # the digest that no answer opens: the round is accepted, but it is another transcript than the result names
    damaged 1 "result.txt is not the result of this transcript" flip $first $digests
    damaged 1 "round 0: refused 10: the answer does not hold as many of each of -1, 0 and 1 (repetition 0)" turn $answers 0
    damaged 1 "round 0: refused 11: the answer does not give the digests of the first message (repetition 0)" flip $answers $((42 * 16))
    damaged 1 "round 0: refused 9: the answer's permutation is no permutation (repetition 1)" flip $answers $answer2
    damaged 1 "round 0: refused 11: the answer does not give the digests of the first message (repetition 1)" \
        flip $answers $((answer2 + vector))
    damaged 1 "round 0: refused 9: the answer's permutation is no permutation (repetition 2)" poke $answers $((answer3 + 3)) 1
    damaged 1 "round 0: refused 11: the answer does not give the digests of the first message (repetition 2)" \
        flip $answers $((answer3 + vector))
    damaged 1 "round 0: refused 5" poke $answers $((answer3 + vector + coefficient - 1)) 255
    damaged 1 "round 0: refused 12: a mask is larger than the sheet allows (ballot 1 of the batch)" flip rounds/000/shares1.bin $polynomial
    damaged 1 "round 0: refused 13: the claimed vote is not what the shares decrypt to (ballot 3 of the batch)" \
        flip rounds/000/shares0.bin $((3 * polynomial))
    # later rounds are worked through as the first is
    damaged 1 "round 1: refused 6" flip rounds/001/head.bin 0
    damaged 1 "round 1: refused 7" flip rounds/001/opening.bin 0
    damaged 1 "round 1: refused 9: the answer's permutation is no permutation (repetition 0)" flip rounds/001/answers.bin 0
    damaged 1 "round 1: refused 12: a mask is larger than the sheet allows (ballot 1 of the batch)" flip rounds/001/shares0.bin $polynomial
    damaged 1 "round 0: refused" eval 'mv rounds/000 rounds/x; mv rounds/001 rounds/000; mv rounds/x rounds/001'
}

results() {
    damaged 1 "result.txt is not the result of this transcript" swap result.txt 'Ballots counted     12' 'Ballots counted     13'
    damaged 1 "result.txt is not the result of this transcript" longer result.txt
    damaged 1 "result.html is not the result of this transcript" swap result.html 'Rook' 'Crow'
    damaged 0 "accepted" rm result.html
    damaged 1 "result.txt is not the result of this transcript" swap lists.txt Rook Crow
    damaged 1 "enrolled.txt: refused 3: a number is outside its range" swap enrolled.txt 40 0
    said "enrolled.txt: 0 is outside its range: a whole number from 1 to 1000000"
    damaged 1 "enrolled.txt: 1000001 is outside its range: a whole number from 1 to 1000000" swap enrolled.txt 40 1000001
    damaged 1 "enrolled.txt, line 1 has no line end" truncate -s -1 enrolled.txt
    damaged 1 "enrolled.txt is not one decimal number on a line" swap enrolled.txt 40 forty
    damaged 1 "enrolled.txt is not one decimal number on a line" add_line enrolled.txt 1
    damaged 1 "lists.txt, line 5 is blank" add_line lists.txt ""
    damaged 1 "lists.txt, line 5 looks like line 3" add_line lists.txt Rook
    damaged 1 "lists.txt, line 4 has no line end" truncate -s -1 lists.txt
    damaged 1 "lists.txt, line 17 is one more than the ring has coefficients" eval 'seq 1 17 > lists.txt'
    damaged 1 "lists.txt: refused 1" truncate -s 0 lists.txt
}

damage() {
    [ -d "$room/base" ] || damage_base
    missing_and_lengths
    sheets
    logs
    other_withdrawals
    single_ballots
    one_file_of_ballots
    claimed
    messages
    results
}
