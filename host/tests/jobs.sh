# Rounds side by side: any number of them at a time leaves the same bytes, and says the same words where something is wrong.

# Every file of an election is the same, in one go or by commit and run, which makes the random numbers of a round again from its seed.
same_bytes() {
    local jobs
    rm -rf "$room"/jobs_*
    expect 0 "" "$program" sample "${unsafe[@]}" --ring 16 --rounds 7 --ballots 5 "$room/jobs_ready"
    for jobs in 1 2 5 128; do
        cp -r "$room/jobs_ready" "$room/jobs_$jobs"
        expect 0 "All rounds accepted yes" "$program" run --jobs $jobs "${unsafe[@]}" "$room/jobs_$jobs"
        succeed "the same bytes with $jobs at a time" diff -r "$room/jobs_$jobs" "$room/jobs_1"
    done
    cp -r "$room/jobs_ready" "$room/jobs_committed"
    expect 0 "Commitment" "$program" commit --jobs 3 "${unsafe[@]}" "$room/jobs_committed"
    cp -r "$room/jobs_committed" "$room/jobs_parts"
    expect 0 "All rounds accepted yes" "$program" run "${unsafe[@]}" "$room/jobs_parts"
    succeed "the same bytes by commit and run" diff -r "$room/jobs_parts" "$room/jobs_1"
}

# Damages a committed election and runs it on: the rounds before the first that fails are answered, none behind it is, and only that one is
# spoken of. Put right, it goes on to the same end.
same_fault() { # STATUS TEXT COMMAND..
    local due=$1 text=$2 jobs
    shift 2
    for jobs in 1 2 5; do
        rm -rf "$room/jobs_fault" "$room/jobs_fault_$jobs"
        cp -r "$room/jobs_committed" "$room/jobs_fault"
        (cd "$room/jobs_fault" && "$@")
        expect "$due" "$text" "$program" run --jobs $jobs "${unsafe[@]}" "$room/jobs_fault"
        cp "$room/said" "$room/jobs_said_$jobs"
        cp -r "$room/jobs_fault" "$room/jobs_fault_$jobs"
        succeed "the same words with $jobs at a time" cmp "$room/jobs_said_$jobs" "$room/jobs_said_1"
        succeed "the same files with $jobs at a time" diff -r "$room/jobs_fault_$jobs" "$room/jobs_fault_1"
    done
    cp -r "$room/jobs_committed/rounds" "$room/jobs_fault"
    expect 0 "All rounds accepted yes" "$program" run --jobs 2 "${unsafe[@]}" "$room/jobs_fault"
    succeed "the same end" diff -r "$room/jobs_fault" "$room/jobs_1"
}

# The same of a check, which reads a round while another one is checked.
same_refusal() { # STATUS TEXT COMMAND..
    local due=$1 text=$2 jobs
    shift 2
    publish "$room/jobs_1" "$room/jobs_out"
    (cd "$room/jobs_out" && "$@")
    for jobs in 1 2 5; do
        expect "$due" "$text" "$program" check --jobs $jobs "$room/jobs_out"
        cp "$room/said" "$room/jobs_said_$jobs"
        succeed "the same words with $jobs at a time" cmp "$room/jobs_said_$jobs" "$room/jobs_said_1"
    done
}

side_by_side() {
    same_bytes
    same_fault 3 "rounds/003/head.bin is missing" rm rounds/003/head.bin rounds/004/head.bin
    same_fault 1 "round 2: refused 16" eval 'flip rounds/002/shares0.bin 5; rm rounds/003/shares1.bin'
    same_fault 3 "rounds/000/shares1.bin is missing" rm rounds/000/shares1.bin
    same_fault 3 "rounds/006/head.bin is missing" rm rounds/006/head.bin
    same_refusal 0 "accepted" true
    same_refusal 3 "rounds/002/shares1.bin is missing" rm rounds/002/shares1.bin rounds/003/shares1.bin
    same_refusal 1 "round 1: refused 8" eval 'turn rounds/001/opening.bin 300; rm rounds/002/answers.bin'
    same_refusal 3 "rounds/006/answers.bin is missing" rm rounds/006/answers.bin
}
