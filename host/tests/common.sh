# What the tests of the host share. The caller has set `program`, the election program, and `room`, a folder to work in.
passed=0 failed=0
# for runs that have to come out the same twice
seed=000102030405060708090a0b0c0d0e0f101112131415161718191a1b1c1d1e1f
unsafe=(--unsafe-test-seed "$seed")

# One test more: STATUS 0 is passed.
tally() { # STATUS NAME
    if [ "$1" -eq 0 ]; then
        passed=$((passed + 1))
    else
        failed=$((failed + 1))
        echo "FAILED: $2"
    fi
}

# The command ends with this status, and a sentence of it has this text in it.
expect() { # STATUS TEXT COMMAND..
    local due=$1 text=$2 status
    shift 2
    "$@" >"$room/said" 2>&1
    status=$?
    if [ "$status" -eq "$due" ] && { [ -z "$text" ] || grep -qF -- "$text" "$room/said"; }; then
        tally 0 "$*"
    else
        tally 1 "$* (status $status where $due is due; '$text' is due, and it said:)"
        sed 's/^/    /' "$room/said"
    fi
}

# The command does what it should.
succeed() { # NAME COMMAND..
    local name=$1
    shift
    "$@" >"$room/answer" 2>&1
    tally $? "$name: $(cat "$room/answer")"
}

# The last command that was expected said this too.
said() { # TEXT
    succeed "it says '$1'" grep -qF -- "$1" "$room/said"
}

# What is published of an election, in a folder of its own.
publish() { # FROM TO
    rm -rf "$2"
    "$program" publish "$1" "$2" >"$room/answer" 2>&1 || tally 1 "publishing $1: $(cat "$room/answer")"
}

# A result without the digests, which differ from one transcript to the next.
votes() { # FOLDER
    sed '/^What names/,$d' "$1/result.txt"
}

# The byte at a place of a file.
byte_at() { # FILE PLACE
    od -An -tu1 -j "$2" -N 1 "$1" | tr -d ' '
}

# Puts a byte at a place of a file.
poke() { # FILE PLACE BYTE
    printf "\\x$(printf %02x "$3")" | dd of="$1" bs=1 seek="$2" conv=notrunc status=none
}

# Changes the lowest bit of a byte.
flip() { # FILE PLACE
    poke "$1" "$2" $(($(byte_at "$1" "$2") ^ 1))
}

# A number as bytes, the lowest first.
number() { # VALUE WIDTH
    local i
    for ((i = 0; i < $2; i++)); do printf "\\x$(printf %02x $((($1 >> (8 * i)) & 255)))"; done
}

size() { # FILE
    stat -c %s "$1"
}

# SHA3-256 of standard input, in hexadecimal digits, by the program of digest.c.
sha() {
    "$room/digest" - | cut -d' ' -f1
}

# The bytes that hexadecimal digits name.
bytes() { # DIGITS
    # shellcheck disable=SC2059
    printf "$(printf %s "$1" | sed 's/../\\x&/g')"
}

# Digits in groups of four, as they are read aloud.
grouped() { # DIGITS
    printf %s "$1" | sed 's/..../&-/g; s/-$//'
}

# A named line of a result: Fingerprint, Commitment or Seed.
named() { # FOLDER NAME
    sed -n "s/^$2 *\([0-9a-f-]*\)\$/\1/p" "$1/result.txt"
}
