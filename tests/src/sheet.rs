//! The sheet's calls against the independent reader.
use crate::random::Random;
use crate::sheets::{changed, damaged, least_repeats, read, right, Sheet};
use crate::tally::{Comparison, Tally};

extern "C" {
    fn jdn_sheet(text: *const u8, text_length: usize, out: *mut u8, out_length: usize) -> u64;
    fn sheet_polynomials(text: *const u8, text_length: usize, out: *mut u8, out_length: usize) -> u64;
}

type Call = unsafe extern "C" fn(*const u8, usize, *mut u8, usize) -> u64;

fn call(call: Call, text: &[u8], out: &mut [u8]) -> u64 {
    // Both slices are live and apart for the call.
    unsafe { call(text.as_ptr(), text.len(), out.as_mut_ptr(), out.len()) }
}

/// How often each verdict was reached.
#[derive(Default)]
struct Seen([usize; 6]);

fn compare(c: &mut Comparison, seen: &mut Seen, random: &mut Random, text: &[u8]) {
    let what = || format!("{:?}", String::from_utf8_lossy(&text[..text.len().min(400)]));
    let verdict = read(text);
    seen.0[verdict.as_ref().err().map_or(0, |n| *n as usize)] += 1;

    let kept = random.bytes(32);
    let mut out = kept.clone();
    let reply = call(jdn_sheet, text, &mut out);
    let theirs = match &verdict {
        Ok((_, numbers)) => (0, numbers.iter().flat_map(|x| x.to_le_bytes()).collect()),
        Err(n) => (*n, kept),
    };
    c.same(what, (reply, out), theirs);

    let length = verdict.as_ref().map_or(160, |(s, _)| 40 * s.numbers[0] as usize);
    let kept = random.bytes(length);
    let mut out = kept.clone();
    let reply = call(sheet_polynomials, text, &mut out);
    let theirs = match &verdict {
        Ok((s, _)) => (0, s.lists.iter().flatten().flat_map(|x| x.to_le_bytes()).collect()),
        Err(n) => (*n, kept),
    };
    c.same(what, (reply, out), theirs);
}

/// Document 01's sheet.
pub fn document() -> Sheet {
    Sheet {
        numbers: [4, 97, 0, 1, 1],
        lists: [vec![3, 5, 0, 0], vec![3, 7, 94, 92], vec![10, 0, 0, 0], vec![0, 20, 0, 0], vec![0, 0, 30, 0]],
    }
}

fn reader(tally: &mut Tally) {
    let mut c = Comparison::default();
    c.same(|| "document 01's sheet".into(), read(document().text().as_bytes()).map(|r| r.1), Ok([4, 19, 4, 56]));
    c.same(|| "10 and 128 rounds".into(), [10, 128].map(least_repeats), [17, 218]);
    c.claim(tally, "the independent reader has document 01's numbers");
}

fn taken(tally: &mut Tally, seen: &mut Seen, random: &mut Random) {
    let mut c = Comparison::default();
    for n in [4, 8, 16, 32, 64, 2048] {
        for _ in 0..if n > 64 { 2 } else { 60 } {
            let text = right(random, n).text();
            compare(&mut c, seen, random, text.as_bytes());
        }
    }
    c.claim(tally, "sheet: sheets that are taken, N from 4 to 2048");
}

fn other(tally: &mut Tally, seen: &mut Seen, random: &mut Random) {
    let mut c = Comparison::default();
    for i in 0..6_000 {
        let s = right(random, [4, 4, 8, 16][i % 4]);
        let text = changed(random, &s);
        compare(&mut c, seen, random, &text);
    }
    c.claim(tally, "sheet: one number or one list other than it was");

    let mut c = Comparison::default();
    for i in 0..6_000 {
        let s = right(random, [4, 4, 8, 16][i % 4]);
        let text = if i % 3 == 0 { changed(random, &s) } else { s.text().into_bytes() };
        let text = damaged(random, &text);
        compare(&mut c, seen, random, &text);
    }
    c.claim(tally, "sheet: a byte, a line or an end other than it was");
}

fn every_byte(tally: &mut Tally, seen: &mut Seen, random: &mut Random) {
    let mut c = Comparison::default();
    let text = document().text().into_bytes();
    for at in 0..text.len() {
        for byte in 0..=255 {
            let mut t = text.clone();
            t[at] = byte;
            compare(&mut c, seen, random, &t);
        }
        compare(&mut c, seen, random, &text[..at]);
    }
    c.claim(tally, "sheet: document 01's sheet with every byte at every place, and every part of it");
}

fn long(tally: &mut Tally, seen: &mut Seen, random: &mut Random) {
    let mut c = Comparison::default();
    for length in [1, 262_143, 262_144, 262_145, 300_000] {
        compare(&mut c, seen, random, &vec![b'0'; length]);
        let mut t = right(random, 4).text().into_bytes();
        t.resize(length.max(t.len()), b'\n');
        compare(&mut c, seen, random, &t);
    }
    c.claim(tally, "sheet: lengths at the limit");
}

fn outputs(tally: &mut Tally, random: &mut Random) {
    let mut c = Comparison::default();
    let text = document().text().into_bytes();
    for length in (0..200).filter(|l| *l != 32) {
        let kept = random.bytes(length);
        let mut out = kept.clone();
        c.same(|| format!("{length} bytes for N, D, B, L"), (call(jdn_sheet, &text, &mut out), out), (1, kept));
    }
    for length in (0..200).filter(|l| *l != 160) {
        let kept = random.bytes(length);
        let mut out = kept.clone();
        c.same(|| format!("{length} bytes for polynomials"), (call(sheet_polynomials, &text, &mut out), out), (1, kept));
    }
    c.same(|| "text of another form and no output".into(), call(jdn_sheet, b"x", &mut []), 1);
    c.same(|| "text of another form and no room for polynomials".into(), call(sheet_polynomials, b"x", &mut []), 2);
    // A null pointer with the length 0 is an empty slice.
    let reply = unsafe { jdn_sheet(std::ptr::null(), 0, std::ptr::null_mut(), 0) };
    c.same(|| "null".into(), reply, 1);
    c.claim(tally, "sheet: an output of another length is refused 1, before the text is read, and left as it was");
}

pub fn run(tally: &mut Tally) {
    let mut random = Random(3);
    let mut seen = Seen::default();
    reader(tally);
    taken(tally, &mut seen, &mut random);
    other(tally, &mut seen, &mut random);
    every_byte(tally, &mut seen, &mut random);
    long(tally, &mut seen, &mut random);
    outputs(tally, &mut random);
    let mut c = Comparison::default();
    for (number, times) in seen.0.iter().enumerate() {
        c.same(|| format!("verdict {number} was reached {times} times"), *times > 0, true);
    }
    c.claim(tally, "sheet: every verdict from 0 to 5 was reached");
}
