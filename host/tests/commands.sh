# The command line: what is wrong is said, by its name; help and version are for whoever asks for them.

# A wrong command line says this, and ends with status 2.
wrong() { # TEXT WORD..
    local text=$1
    shift
    expect 2 "$text" "$program" "$@"
}

wrong_words() {
    wrong "usage: election COMMAND"
    wrong "count is no command" count x
    wrong "run needs FOLDER, and too few words are here" run
    wrong "run needs FOLDER, and too many words are here" run a b
    wrong "check needs FOLDER, and too few words are here" check
    wrong "publish needs FOLDER OUT, and too few words are here" publish a
    wrong "vote needs FOLDER MARK LIST.., and too few words are here" vote x
    wrong "4294967296 is no mark: a mark is a whole number from 0 to 4294967295" vote x 4294967296
    wrong "-1 is no mark" vote x -1
    wrong "07 is no mark" withdraw x 07
    wrong "withdraw needs FOLDER MARK, and too many words are here" withdraw x 1 2
    wrong "4294967296 is no mark" check x --mark 4294967296
    said "\`election help check\` says more"
}

wrong_options() {
    wrong "--ring has no value behind it" sample --ring
    wrong "--ring x: that is no whole number" sample --ring x y
    wrong "--size is no option" sample --size 4 y
    wrong "--ballots 4095: a whole number from 1 to 4094 is due" sample --ballots 4095 y
    wrong "--ballots 0: a whole number from 1 to 4094 is due" sample y --ballots 0
    wrong "--unsafe-test-seed: 64 hexadecimal digits are due" run --unsafe-test-seed 00 y
    wrong "--seed 00: 64 hexadecimal digits are due" run --seed 00 y
    wrong "--seed ${seed}0: 64 hexadecimal digits are due" run --seed "${seed}0" y
    wrong "--fingerprint ${seed/0/g}: 64 hexadecimal digits are due" check --fingerprint "${seed/0/g}" y
    wrong "--ring is no option of this command" check --ring 4 y
    wrong "--jobs 0: a whole number from 1 to 128 is due" run --jobs 0 y
    wrong "--jobs 129: a whole number from 1 to 128 is due" commit y --jobs 129
    wrong "--jobs two: a whole number from 1 to 128 is due" check --jobs two y
    wrong "--jobs -1: a whole number from 1 to 128 is due" run y --jobs -1
    wrong "--jobs 4294967297: a whole number from 1 to 128 is due" run y --jobs 4294967297
    wrong "--jobs is no option of this command" gather --jobs 2 y
    wrong "--seed is no option of this command" commit y --seed "$seed"
    wrong "--ring 4096 is outside its range: a power of two from 4 to 2048" keygen --ring 4096 "$room/none"
    wrong "--ring 12 is no power of two" keygen --ring 12 "$room/none"
    wrong "--rounds 129 is outside its range: a whole number from 1 to 128" keygen "$room/none" --rounds 129
    wrong "--drown 41 is outside its range: a whole number from 0 to 40" keygen "$room/none" --drown 41
    # table 1 of document 000: 10 rounds need 17 repetitions
    wrong "--repeats 16 is outside its range: for so many rounds, a whole number from 17 to 256" \
        keygen "$room/none" --rounds 10 --repeats 16
    wrong "--modulus 101 does not fit ring 4: twice the ring, 8, has to divide the modulus less one" \
        keygen --ring 4 --modulus 101 "$room/none"
    expect 1 "--modulus 97 leaves no room for noise and masks with ring 4 and drown 40" "$program" keygen --ring 4 --modulus 97 "$room/none"
    succeed "no folder is made" test ! -e "$room/none"
}

helped() {
    local name
    expect 0 "usage: election COMMAND" eval '"$program" --help 2>/dev/null'
    expect 0 "usage: election COMMAND" eval '"$program" help 2>/dev/null'
    expect 0 "election (Jackdawnail) $version" eval '"$program" --version 2>/dev/null'
    for name in keygen vote withdraw gather commit run publish check status sample; do
        expect 0 "usage: election $name " eval '"$program" help '$name' 2>/dev/null'
        expect 0 "usage: election $name " eval '"$program" '$name' --help 2>/dev/null'
    done
    wrong "count is no command" help count
}

# Options stand before or after the folder; behind -- a word is no option.
places() {
    local folder=$room/places
    expect 0 "" "$program" keygen "$folder" --ring 4 --rounds 1
    printf -- '--Red\nBlue\n' >"$folder/lists.txt"
    echo 2 >"$folder/enrolled.txt"
    expect 0 "Mark     1" "$program" vote "$folder" 1 -- --Red
    wrong "--Red is no option" vote "$folder" 2 --Red
    expect 0 "      1  --Red" "$program" run "$folder" --draw-here
    expect 0 "accepted" "$program" check "$folder" --mark 1
    expect 0 "accepted" "$program" check --mark 1 "$folder"
}

not_written_over() {
    expect 1 "key/s is there already and is not written over" "$program" keygen "$room/places"
    rm -r "$room/places/key"
    expect 1 "sheet.txt is there already and is not written over" "$program" keygen "$room/places"
    expect 3 "the folder" "$program" run "$room/none"
    expect 3 "the folder" "$program" status "$room/none"
    succeed "no folder is made" test ! -e "$room/none"
}

# The papers lead through the commands that there are, and say the sizes that there are.
papers() {
    local name
    for name in keygen vote withdraw gather commit run publish check status help; do
        succeed "$name in docs/ELECTIONS.md" grep -qF "\`election $name" docs/ELECTIONS.md
    done
    succeed "README.md leads there" grep -qF '(docs/ELECTIONS.md)' README.md
    succeed "the length of state.bin" grep -qF "| $(size "$room/places/state.bin" | sed 's/...$/,&/') |" docs/ELECTIONS.md
}

commands() {
    rm -rf "$room/places"
    wrong_words
    wrong_options
    helped
    places
    papers
    not_written_over
}
