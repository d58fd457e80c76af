//! Papers damaged in one place: a byte, a piece, a line or a count.

use std::ops::Range;

use crate::generate::random::Random;

const BYTES: &[u8] = b"\n\r\0\t =+-?()<>!.,_@`{/:aezAZ019\x7f\x80\xc3\xff";

const PIECES: [&str; 30] = [
    " and ",
    " or ",
    "not ",
    "not",
    "(",
    ")",
    " ",
    "  ",
    " on ",
    " if ",
    "=",
    "?",
    "+",
    "-",
    "<",
    ">",
    "\n",
    "\r",
    "\0",
    "\u{e9}",
    "end=",
    "0",
    "9",
    "x",
    " xor ",
    "((((((((",
    "not not not not not not not not ",
    " on",
    " if",
    "end=0\n",
];

const WORDS: [&str; 26] = [
    "on",
    "if",
    "or",
    "and",
    "not",
    "end",
    "",
    "abcdefghijkl",
    "abcdefghijklm",
    "abcdefghijklmnopqrstuvwxyz",
    "1a",
    "0",
    "Abc",
    "aBc",
    "a_b",
    "yes",
    "no",
    "yess",
    "n",
    "ye",
    "nosuch",
    "model",
    "x",
    "?",
    "end=0",
    "caf\u{e9}",
];

const NUMBERS: [&str; 28] = [
    "0",
    "-0",
    "00",
    "01",
    "-01",
    "+1",
    "",
    "-",
    "--1",
    "?",
    "-?",
    "??",
    "1000000000",
    "-1000000000",
    "1000000001",
    "-1000000001",
    "999999999",
    "9999999999",
    "4294967296",
    "4294967299",
    "18446744073709551616",
    "18446744073709551617",
    "340282366920938463463374607431768211457",
    "1e5",
    "ERR",
    "1.0",
    "0x1",
    "10000000000000000000000000000000000000000",
];

const MARKS: [&str; 14] = ["==", "=<", "=>", "<>", "!=", "", ">>", "<<", " < ", "<=", ">=", "=", "~", "<=="];

const LINES: [&str; 20] = [
    "",
    "model=m",
    "field=zz",
    "field=",
    "event=zz",
    "event=zz ",
    "stage=zz",
    "stage=zz zz",
    "mile=zz",
    "mile=zz zz",
    "rule=",
    "rule=+",
    "rule=+zz on zz",
    "rule=zz",
    "end=0",
    "end=1",
    "end=",
    "case=m",
    "zz=yes",
    "zz=?",
];

/// Damages a paper once. `words` are names that stand in the papers.
pub fn damage(random: &mut Random, paper: &mut Vec<u8>, words: &[Vec<u8>]) {
    match random.below(25) {
        0 => change_byte(random, paper),
        1 => insert(random, paper, |random| vec![random.pick(BYTES)]),
        2 => remove_byte(random, paper),
        3 => lines(random, paper, |random, lines| drop(lines.remove(random.below(lines.len())))),
        4 => lines(random, paper, |random, lines| {
            let index = random.below(lines.len());
            lines.insert(index, lines[index].clone());
        }),
        5 => lines(random, paper, |random, lines| {
            let first = random.below(lines.len());
            let second = if random.chance(2) { (first + 1) % lines.len() } else { random.below(lines.len()) };
            lines.swap(first, second);
        }),
        6 => lines(random, paper, |random, lines| {
            let line = lines.remove(random.below(lines.len()));
            lines.insert(random.below(lines.len() + 1), line);
        }),
        7 => paper.truncate(random.below(paper.len() + 1)),
        8 => {
            let piece = random.pick(&["\n", "x", "\n\n", "end=0\n", " ", "\0"]);
            paper.extend_from_slice(piece.as_bytes());
        }
        9 | 10 if !words.is_empty() => replace(random, paper, words_of, |random| random.pick(words)),
        11 => replace(random, paper, words_of, |random| random.pick(&WORDS).into()),
        12 | 13 => replace(random, paper, numbers_of, |random| random.pick(&NUMBERS).into()),
        14 => replace(random, paper, marks_of, |random| random.pick(&MARKS).into()),
        15 => insert(random, paper, |random| random.pick(&PIECES).into()),
        16 => insert_beside_word(random, paper),
        17 => wrong_count(random, paper),
        18 => lines(random, paper, |random, lines| {
            let index = random.below(lines.len());
            let line = random.pick(&LINES).as_bytes().to_vec();
            if random.chance(2) {
                lines[index] = line;
            } else {
                lines.insert(index, line);
            }
        }),
        19 => lines(random, paper, |random, lines| {
            let index = random.below(lines.len());
            let keep = random.below(lines[index].len() + 1);
            lines[index].truncate(keep);
        }),
        20 => end_behind_word(random, paper),
        21 => other_last_byte(random, paper),
        22 => other_second_name(random, paper, words, true),
        23 => other_second_name(random, paper, words, false),
        _ => {
            if paper.last() == Some(&b'\n') {
                paper.pop();
            }
        }
    }
}

fn change_byte(random: &mut Random, paper: &mut [u8]) {
    if !paper.is_empty() {
        let at = random.below(paper.len());
        paper[at] = if random.chance(4) { random.below(256) as u8 } else { random.pick(BYTES) };
    }
}

fn remove_byte(random: &mut Random, paper: &mut Vec<u8>) {
    if !paper.is_empty() {
        paper.remove(random.below(paper.len()));
    }
}

fn insert(random: &mut Random, paper: &mut Vec<u8>, piece: impl Fn(&mut Random) -> Vec<u8>) {
    let at = random.below(paper.len() + 1);
    paper.splice(at..at, piece(random));
}

/// Changes the list of lines and puts the paper together again.
fn lines(random: &mut Random, paper: &mut Vec<u8>, change: impl Fn(&mut Random, &mut Vec<Vec<u8>>)) {
    let mut list: Vec<Vec<u8>> = paper.split(|byte| *byte == b'\n').map(<[u8]>::to_vec).collect();
    let behind = list.pop().unwrap_or_default();
    if list.is_empty() {
        return;
    }
    change(random, &mut list);
    paper.clear();
    for line in list {
        paper.extend(line);
        paper.push(b'\n');
    }
    paper.extend(behind);
}

fn runs(paper: &[u8], belongs: impl Fn(u8) -> bool) -> Vec<Range<usize>> {
    let mut runs = vec![];
    let mut start = None;
    for (at, &byte) in paper.iter().enumerate() {
        match (start, belongs(byte)) {
            (None, true) => start = Some(at),
            (Some(from), false) => {
                runs.push(from..at);
                start = None;
            }
            _ => {}
        }
    }
    runs.extend(start.map(|from| from..paper.len()));
    runs
}

pub fn words_of(paper: &[u8]) -> Vec<Range<usize>> {
    runs(paper, |byte| byte.is_ascii_lowercase() || byte.is_ascii_digit())
}

fn numbers_of(paper: &[u8]) -> Vec<Range<usize>> {
    let mut found = runs(paper, |byte| byte.is_ascii_digit() || byte == b'-' || byte == b'?');
    found.retain(|run| run.start > 0 && b"<=>".contains(&paper[run.start - 1]));
    found
}

fn marks_of(paper: &[u8]) -> Vec<Range<usize>> {
    runs(paper, |byte| b"<=>".contains(&byte))
}

fn replace(
    random: &mut Random,
    paper: &mut Vec<u8>,
    places: impl Fn(&[u8]) -> Vec<Range<usize>>,
    piece: impl Fn(&mut Random) -> Vec<u8>,
) {
    let places = places(paper);
    if !places.is_empty() {
        let place = random.pick(&places);
        paper.splice(place, piece(random));
    }
}

fn insert_beside_word(random: &mut Random, paper: &mut Vec<u8>) {
    let places = words_of(paper);
    if !places.is_empty() {
        let place = random.pick(&places);
        let at = if random.chance(2) { place.start } else { place.end };
        paper.splice(at..at, random.pick(&PIECES).bytes());
    }
}

fn other_last_byte(random: &mut Random, paper: &mut [u8]) {
    let places = words_of(paper);
    if !places.is_empty() {
        let place = random.pick(&places);
        paper[place.end - 1] = random.pick(b"0189abyz");
    }
}

/// In a line of the sheet that has a space, the name behind it becomes another one, or stands there twice.
fn other_second_name(random: &mut Random, paper: &mut Vec<u8>, words: &[Vec<u8>], other: bool) {
    lines(random, paper, |random, lines| {
        let keys: [&[u8]; 3] = [b"stage=", b"mile=", b"event="];
        let heads: Vec<usize> = (0..lines.len())
            .filter(|&index| keys.iter().any(|key| lines[index].starts_with(key)) && lines[index].contains(&b' '))
            .collect();
        if heads.is_empty() || words.is_empty() {
            return;
        }
        let line = &mut lines[random.pick(&heads)];
        // The key is a word too.
        let behind: Vec<Range<usize>> = words_of(line).into_iter().skip(2).collect();
        if behind.is_empty() {
            return;
        }
        let place = random.pick(&behind);
        let mut name = if other { random.pick(words) } else { line[place.clone()].to_vec() };
        if !other {
            name.push(b' ');
            name.extend_from_within(..name.len() - 1);
        }
        line.splice(place, name);
    });
}

/// Damages a word of one line, most often one of the last.
pub fn damage_line(random: &mut Random, paper: &mut Vec<u8>, number: usize, words: &[Vec<u8>]) {
    lines(random, paper, |random, lines| {
        let Some(line) = lines.get_mut(number - 1) else { return };
        let places = words_of(line);
        if places.is_empty() {
            return;
        }
        let back = random.below(places.len().min(3));
        let place = places[places.len() - 1 - back].clone();
        let word = if random.chance(2) { random.pick(&WORDS).into() } else { random.pick(words) };
        line.splice(place.clone(), word);
        if random.chance(4) {
            line.truncate(place.start + random.below(4));
        }
    });
}

/// The paper ends behind a word, or one byte later.
fn end_behind_word(random: &mut Random, paper: &mut Vec<u8>) {
    let places = words_of(paper);
    if !places.is_empty() {
        let end = random.pick(&places).end + random.below(3);
        paper.truncate(end);
    }
}

fn wrong_count(random: &mut Random, paper: &mut Vec<u8>) {
    let Some(at) = paper.windows(4).rposition(|window| window == b"end=") else { return };
    let count: i64 = String::from_utf8_lossy(&paper[at + 4..]).trim().parse().unwrap_or(0);
    let text = match random.below(5) {
        0 => (count + 1).to_string(),
        1 => (count - 1).to_string(),
        2 => format!("0{count}"),
        3 => format!("{}", count + 256),
        _ => random.pick(&NUMBERS).to_string(),
    };
    paper.truncate(at);
    paper.extend_from_slice(format!("end={text}\n").as_bytes());
}
