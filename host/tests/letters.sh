# The names of lists: what people cannot read, or cannot tell apart, is refused, and what is wrong is said.

# A lists.txt of these bytes, as printf writes them.
listed() { # STATUS TEXT BYTES
    printf "$3" >"$room/letters/lists.txt"
    rm -f "$room/letters/state.bin"
    expect "$1" "$2" "$program" gather "$room/letters"
}

unreadable() {
    listed 1 "lists.txt, line 2 is no valid UTF-8 (byte 3)" 'Rook\nJa\xff\n'
    listed 1 "lists.txt, line 1 is no valid UTF-8 (byte 1)" '\xc0\xaf\n'
    listed 1 "lists.txt, line 1 is no valid UTF-8 (byte 2)" 'a\xed\xa0\x80\n'
    listed 1 "lists.txt, line 1 is no valid UTF-8 (byte 1)" '\xf4\x90\x80\x80\n'
    listed 1 "lists.txt, line 1 is no valid UTF-8 (byte 3)" 'ab\xe2\x82\n'
    listed 1 "lists.txt, line 1 has U+0009, a control character" 'a\tb\n'
    listed 1 "lists.txt, line 1 has U+0000, a control character" 'a\0b\n'
    listed 1 "lists.txt, line 1 has U+007F, a control character" 'a\x7f\n'
    listed 1 "lists.txt, line 1 has U+0085, a control character" 'a\xc2\x85\n'
    listed 1 "lists.txt, line 2 has U+000D, a carriage return: a line ends with a line feed alone" 'Jay\nRook\r\n'
    listed 1 "lists.txt, line 1 has U+200B, a character that cannot be seen" 'Ro\xe2\x80\x8bok\n'
    listed 1 "lists.txt, line 1 has U+200D, a character that cannot be seen" 'Ro\xe2\x80\x8dok\n'
    listed 1 "lists.txt, line 1 has U+FEFF, a character that cannot be seen" '\xef\xbb\xbfRook\n'
    listed 1 "lists.txt, line 1 has U+202E, a character that turns the direction of writing" 'Ro\xe2\x80\xaeok\n'
    listed 1 "lists.txt, line 1 has U+2066, a character that turns the direction of writing" '\xe2\x81\xa6Rook\n'
    listed 1 "lists.txt, line 1 has U+200F, a character that turns the direction of writing" 'Rook\xe2\x80\x8f\n'
    listed 1 "lists.txt, line 1 has U+0301, an accent that stands apart from its letter" 'Jose\xcc\x81\n'
    listed 1 "lists.txt, line 1 has U+E000, a character that has no agreed look" '\xee\x80\x80\n'
}

blank_or_alike() {
    listed 1 "lists.txt, line 2 is blank" 'Rook\n\n'
    listed 1 "lists.txt, line 2 is blank" 'Rook\n   \n'
    listed 1 "lists.txt, line 1 is blank" '\xc2\xa0\xe3\x80\x80\n'
    listed 1 "lists.txt, line 2 looks like line 1" 'Rook\nRook\n'
    listed 1 "lists.txt, line 2 looks like line 1" 'Rook\nRook \n'
    listed 1 "lists.txt, line 3 looks like line 1" ' Rook\nJay\nRook\xc2\xa0\n'
    listed 1 "lists.txt, line 2 looks like line 1" 'Grey  Jay\nGrey Jay\n'
    listed 1 "lists.txt, line 2 looks like line 1" 'Grey Jay\nGrey\xe2\x80\x83Jay\n'
    # a Cyrillic o; a Greek capital; a wide letter; one and l
    listed 1 "lists.txt, line 2 looks like line 1" 'Rook\nR\xd0\xbeok\n'
    listed 1 "lists.txt, line 2 looks like line 1" 'Amsel\n\xce\x91msel\n'
    listed 1 "lists.txt, line 2 looks like line 1" 'Rook\n\xef\xbc\xb2ook\n'
    listed 1 "lists.txt, line 2 looks like line 1" 'List 1\nList l\n'
}

readable() {
    listed 0 "Ballots standing    1" \
        'Jos\xc3\xa9 & S\xc3\xb6hne\n\xd0\x93\xd0\xb0\xd0\xbb\xd0\xba\xd0\xb0\n\xe9\xb4\x89\n\xf0\x9f\x90\xa6 Jay\n'
    listed 0 "Ballots standing    1" 'Grey Jay\nGreyJay\nGrey Ja\nrook\n'
    listed 0 "Ballots standing    1" ' Rook \n'
    listed 0 "Ballots standing    1" 'List 1\nList 10\nList 11\nList 2\n'
}

letters() {
    rm -rf "$room/letters"
    expect 0 "" "$program" sample --ring 4 --rounds 1 --ballots 1 "$room/letters"
    unreadable
    blank_or_alike
    readable
}
