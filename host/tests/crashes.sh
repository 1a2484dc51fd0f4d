# Crashes: the power is cut before each operation on files in turn (power_cut.c), and the next run goes on from what is on disk.

# The program with the power cut before operation K, or with what was not on disk lost at its end.
cut_at() { # K COMMAND..
    local k=$1
    shift
    # in a shell of its own, whose remark on the kill is not wanted
    (
        POWER_CUT=$k LD_PRELOAD=$room/power_cut.so "$program" "$@" >"$room/said" 2>&1
        exit $?
    ) 2>/dev/null
}

# The program with no cut, and no waiting for the real disk.
unwaited() { # COMMAND..
    LD_PRELOAD=$room/power_cut.so "$program" "$@"
}

# How many operations a command has.
operations() { # COMMAND..
    POWER_COUNT=$room/count LD_PRELOAD=$room/power_cut.so "$program" "$@" >"$room/said" 2>&1 || return 1
    cat "$room/count"
}

# A folder as it has to be in the end: with no half-written files, and none of what the cut took away.
clean() { # FOLDER
    [ ! -d "$1" ] || find "$1" -depth \( -name '*.new' -o -name '*.kept' \) -exec rm -r {} +
}

# With all rounds made side by side; the run that goes on has one at a time.
every_cut_of_a_run() {
    local folder=$room/cut count k
    expect 0 "" unwaited sample "${unsafe[@]}" --ring 4 --ballots 2 --rounds 3 "$room/cut_ready"
    cp -r "$room/cut_ready" "$room/cut_done"
    count=$(operations run --jobs 1 "${unsafe[@]}" "$room/cut_done")
    succeed "a run has operations" test "$count" -gt 50
    cp -r "$room/cut_ready" "$folder"
    succeed "as many with rounds side by side" test "$(operations run --jobs 3 "${unsafe[@]}" "$folder")" -eq "$count"
    succeed "with a ballot that came after its withdrawal" grep -qx '  1004' "$room/cut_done/result.txt"
    for ((k = 1; k <= count; k++)); do
        rm -rf "$folder"
        cp -r "$room/cut_ready" "$folder"
        cut_at "$k" run --jobs 3 "${unsafe[@]}" "$folder"
        succeed "cut $k cuts" test $? -eq 137
        expect 0 "All rounds accepted yes" unwaited run --jobs 1 --draw-here "${unsafe[@]}" "$folder"
        clean "$folder"
        succeed "cut $k of $count" diff -r "$folder" "$room/cut_done"
    done
    echo "power cut before each of the $count operations of a run"
}

# With fresh random numbers after the cut: what an unfinished round left is written over, and no half of it is used.
cuts_with_fresh_numbers() {
    local folder=$room/cut count=$(($(cat "$room/count"))) k
    for ((k = 1; k <= count; k += 3)); do
        rm -rf "$folder"
        cp -r "$room/cut_ready" "$folder"
        cut_at "$k" run --jobs 2 --draw-here "$folder"
        expect 0 "All rounds accepted yes" unwaited run --jobs 3 --draw-here "$folder"
        succeed "the votes after cut $k" diff <(votes "$folder") <(votes "$room/cut_done")
        rm -rf "$room/other"
        expect 0 "files are published" unwaited publish "$folder" "$room/other"
        expect 0 "accepted" unwaited check "$room/other"
    done
}

# A second cut while the run goes on after the first.
two_cuts() {
    local folder=$room/cut count=$(($(cat "$room/count"))) k
    for ((k = 1; k <= count; k += 7)); do
        rm -rf "$folder"
        cp -r "$room/cut_ready" "$folder"
        cut_at "$k" run --jobs 2 "${unsafe[@]}" "$folder"
        cut_at $((1 + RANDOM % (count - k + 1))) run --jobs 3 "${unsafe[@]}" "$folder"
        expect 0 "All rounds accepted yes" unwaited run --draw-here "${unsafe[@]}" "$folder"
        clean "$folder"
        succeed "cuts at $k and later" diff -r "$folder" "$room/cut_done"
    done
}

# Where the system gives fewer threads than are asked for, or none, fewer rounds are made side by side.
few_threads() {
    local count folder=$room/cut
    gcc -std=c11 -O2 -Wall -Wextra -shared -fPIC -o "$room/few_threads.so" host/tests/few_threads.c || {
        tally 1 "building few_threads.c"
        return
    }
    for count in 0 1 2; do
        rm -rf "$folder"
        cp -r "$room/cut_ready" "$folder"
        expect 0 "All rounds accepted yes" \
            env THREADS=$count LD_PRELOAD="$room/few_threads.so" "$program" run --jobs 3 "${unsafe[@]}" "$folder"
        succeed "the same bytes with $count threads" diff -r "$folder" "$room/cut_done"
    done
}

# What a command called done is on disk: all that is not is lost at its end.
done_is_on_disk() {
    local folder=$room/cut
    rm -rf "$folder"
    cp -r "$room/cut_ready" "$folder"
    cut_at 0 vote "$folder" 77 Rook
    succeed "a vote" test $? -eq 0
    succeed "its ballot" test "$(size "$folder/ballots/77.ballot")" -eq 68
    succeed "its line" test "$(tail -n 1 "$folder/log.txt")" = "admit 77"
    cut_at 0 withdraw "$folder" 77
    succeed "its withdrawal" test "$(tail -n 1 "$folder/log.txt")" = "withdraw 77"
    cut_at 0 gather "$folder"
    succeed "a gathering" test $? -eq 0
    # the register stands behind the title and the image; entry 4 is 77's, and its state byte is 2, withdrawn
    succeed "its mark" test "$(byte_at "$folder/state.bin" $((16 + 4297 + 4 * 40)))" -eq 77
    succeed "its withdrawal in the register" test "$(byte_at "$folder/state.bin" $((16 + 4297 + 4 * 40 + 4)))" -eq 2
    cut_at 0 run "${unsafe[@]}" "$folder"
    expect 0 "accepted" unwaited check "$folder"
}

# A cut vote leaves no half of a ballot, and a retry always completes it: the vote is counted once, whenever the cut came. Also the first
# vote of an election, which has the lists kept.
every_cut_of_a_vote() {
    local folder=$room/cut count k
    rm -rf "$folder"
    cp -r "$room/cut_ready" "$folder"
    count=$(operations vote "$folder" 77 Rook)
    succeed "a first vote has operations" test "$count" -gt 10
    for ((k = 1; k <= count; k++)); do
        rm -rf "$folder"
        cp -r "$room/cut_ready" "$folder"
        cut_at "$k" vote "$folder" 77 Rook
        succeed "cut $k of a vote cuts" test $? -eq 137
        [ ! -e "$folder/ballots/77.ballot" ] || succeed "cut $k leaves a whole ballot" test "$(size "$folder/ballots/77.ballot")" -eq 68
        grep -qx "admit 77" "$folder/log.txt" || expect 0 "Mark     77" unwaited vote "$folder" 77 Rook
        succeed "one line after cut $k" test "$(grep -cx "admit 77" "$folder/log.txt")" -eq 1
        expect 0 "Ballots counted     3" unwaited run --draw-here "$folder"
    done
}

# A cut withdrawal has its line, whole, or none, and a retry says which: also one that comes before its ballot.
every_cut_of_a_withdrawal() {
    local folder=$room/cut count k
    rm -rf "$folder"
    cp -r "$room/cut_ready" "$folder"
    count=$(operations withdraw "$folder" 77)
    succeed "a withdrawal has operations" test "$count" -gt 2
    for ((k = 1; k <= count; k++)); do
        rm -rf "$folder"
        cp -r "$room/cut_ready" "$folder"
        cut_at "$k" withdraw "$folder" 77
        succeed "cut $k of a withdrawal cuts" test $? -eq 137
        if grep -qx "withdraw 77" "$folder/log.txt"; then
            expect 1 "a withdrawal of the mark 77: refused 33" unwaited withdraw "$folder" 77
        else
            expect 0 "no ballot with the mark 77 is admitted yet" unwaited withdraw "$folder" 77
        fi
        succeed "one line after cut $k" test "$(grep -cx "withdraw 77" "$folder/log.txt")" -eq 1
        expect 0 "Withdrawn marks with which no ballot came: 1" unwaited run --draw-here "$folder"
    done
}

# What is kept of lists and enrolment is kept with the closing: after a cut either both hold, or neither does and the ballots are not
# closed.
every_cut_of_a_commit() {
    local folder=$room/cut count k
    rm -rf "$folder"
    cp -r "$room/cut_ready" "$folder"
    count=$(operations commit "$folder")
    for ((k = 1; k <= count; k += 3)); do
        rm -rf "$folder"
        cp -r "$room/cut_ready" "$folder"
        cut_at "$k" commit "$folder"
        echo 41 >"$folder/enrolled.txt"
        if [ -e "$folder/state.bin" ] && [ "$(byte_at "$folder/state.bin" 16)" -ne 0 ]; then
            expect 1 "enrolled.txt was changed after the ballots were closed" unwaited commit "$folder"
        else
            expect 0 "Commitment" unwaited commit "$folder"
        fi
    done
}

# A cut publication holds no half of a file under its name and nothing that is not published, and the next one completes it.
every_cut_of_a_publication() {
    local folder=$room/cut_out count k
    rm -rf "$folder"
    count=$(operations publish "$room/cut_done" "$folder")
    mv "$folder" "$room/cut_whole"
    for ((k = 1; k <= count; k += 2)); do
        rm -rf "$folder"
        cut_at "$k" publish "$room/cut_done" "$folder"
        succeed "cut $k of a publication cuts" test $? -eq 137
        clean "$folder"
        diff -r "$folder" "$room/cut_whole" 2>&1 | grep -v "^Only in $room/cut_whole\|No such file" >"$room/differences"
        succeed "cut $k leaves whole files alone" test ! -s "$room/differences"
        expect 0 "files are published" unwaited publish "$room/cut_done" "$folder"
        succeed "cut $k of $count of a publication" diff -r "$folder" "$room/cut_whole"
    done
    rm -rf "$folder"
    cut_at 0 publish "$room/cut_done" "$folder"
    succeed "what is called published is on disk" diff -r "$folder" "$room/cut_whole"
    echo "power cut in the $count operations of a publication"
}

crashes() {
    gcc -std=c11 -D_GNU_SOURCE -O2 -Wall -Wextra -shared -fPIC -o "$room/power_cut.so" host/tests/power_cut.c || {
        tally 1 "building power_cut.c"
        return
    }
    every_cut_of_a_run
    cuts_with_fresh_numbers
    two_cuts
    few_threads
    done_is_on_disk
    every_cut_of_a_vote
    every_cut_of_a_withdrawal
    every_cut_of_a_commit
    every_cut_of_a_publication
}
