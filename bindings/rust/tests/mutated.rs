//! Random states as text, and texts that were changed at random: each is refused and leaves everything, or is
//! another state's own text, written again to the same bytes.
//! MUTATED sets how many texts are changed (default 100000; below that the other tests try less too), MUTATED_SEED
//! where they start. MUTATED_DUMP names a file for at most 20000 of them and their answers, for another reader
//! to judge: of each six words of 8 bytes, low byte first (the answer; the lengths of counters, norms, entries
//! and counts; the text's length), and the text.
use std::fs::File;
use std::io::{BufWriter, Write};

use random::Random;
use slices::Slices;
use univmon::{Fidelity, Owned, Refused, Shape};

#[path = "../../random.rs"]
mod random;
mod slices;

const ENOUGH: u64 = 100_000;
const DUMPED: u64 = 20_000;

fn number(name: &str, or: u64) -> u64 {
    std::env::var(name).map_or(or, |v| v.parse().unwrap())
}

fn mutated() -> u64 {
    number("MUTATED", ENOUGH)
}

impl Random {
    fn pick<'a, T>(&mut self, from: &'a [T]) -> &'a T {
        &from[self.below(from.len())]
    }

    fn mostly(&mut self, n: usize, m: usize) -> usize {
        let most = if self.one_in(12) { m } else { n };
        self.below(most)
    }

    /// Small, anything, or near what a counter can hold.
    fn weight(&mut self) -> i64 {
        match self.below(8) {
            0 => (1 << 52) - self.below(3) as i64,
            1 => (self.next() >> 12) as i64,
            _ => self.below(9) as i64,
        }
    }
}

fn record(key: u64, layers: usize) -> Vec<u64> {
    let mut hash = Random(key);
    let mut words: Vec<u64> = (0..2 + 2 * layers).map(|_| hash.next()).collect();
    words[0] = key;
    words
}

/// One call of any kind; a refused one changes nothing, so that its number does not matter here.
fn step(r: &mut Random, s: &mut Owned, other: &mut Owned, terminal: bool) {
    let Shape { rows, cols, layers, .. } = s.header().shape;
    let key = if r.one_in(9) { r.next() } else { r.below(12) as u64 };
    let words = record(key, layers);
    let weight = r.weight();
    let mut list = vec![0; s.header().shape.lengths().unwrap().merge_list];
    let _ = match r.below(20) {
        0 => s.merge(other, &mut list),
        1 | 2 => {
            let fidelity = if r.one_in(4) { Fidelity::PromotedOnly } else { Fidelity::EveryInsert };
            let (layer, row, col) = (r.below(layers), r.below(rows), r.below(cols));
            s.with(|s| s.apply_delta(&words, layer, row, col, weight as i32 - 4, fidelity, &mut list))
        }
        3 if r.one_in(3) => s.with(|s| s.mark_candidates_incomplete()),
        3 => s.with(|s| s.mark_layer_candidates_incomplete(r.below(layers))),
        4 if r.one_in(3) => s.with(|s| s.set_total_weight(weight as u64)),
        5 if r.one_in(20) => s.with(|s| s.clear()),
        _ if terminal => s.with(|s| s.update_weighted_terminal(&words, weight, &mut list)),
        _ => s.with(|s| s.update_weighted(&words, weight, &mut list)),
    };
}

fn shape(r: &mut Random) -> Shape {
    let shape = Shape {
        heap_size: 1 + r.mostly(4, 40),
        rows: 1 + r.mostly(4, 14),
        cols: 1 + r.mostly(7, 200),
        layers: 1 + r.mostly(3, 19),
    };
    if shape.lengths().is_ok() { shape } else { self::shape(r) }
}

fn state(r: &mut Random) -> Owned {
    let shape = shape(r);
    let mut s = Owned::new(shape).unwrap();
    let mut other = s.clone();
    let terminal = r.one_in(2);
    for _ in 0..r.mostly(12, 200) {
        step(r, &mut s, &mut other, terminal);
        if r.one_in(6) {
            std::mem::swap(&mut s, &mut other);
        }
    }
    s
}

/// A state's text, written plainly.
fn plain(s: &mut Owned) -> Vec<u8> {
    s.with(|s| {
        let h = s.header();
        let Shape { heap_size, rows, cols, layers } = h.shape;
        let mut text = format!("(univmon {heap_size} {rows} {cols} {layers})\n");
        text += &format!("(weight {})\n(updates {})\n(mode {})\n", h.weight, h.updates, h.mode);
        for l in 0..layers {
            text += &format!("(flag {l} {})\n", h.flags[l] as u8);
            for (r, row) in s.counters()[l * rows * cols..].chunks(cols).take(rows).enumerate() {
                let cells: String = row.iter().enumerate().filter(|c| *c.1 != 0).map(|(c, v)| format!(" ({c} {v})")).collect();
                if !cells.is_empty() {
                    text += &format!("(row {l} {r}{cells})\n");
                }
            }
            for i in l * heap_size..l * heap_size + h.lens[l] {
                let e = &s.entries()[4 * i..];
                text += &format!("(key {l} {} {} {} {} {})\n", e[0], e[1], e[2], e[3], s.counts()[i]);
            }
        }
        text.into_bytes()
    })
}

#[test]
fn random_states() {
    let mut r = Random(number("MUTATED_SEED", 1));
    let (mut longest, mut modes) = (0, [0; 3]);
    let states = mutated() / 20;
    for _ in 0..states {
        let mut s = state(&mut r);
        let text = s.to_text().unwrap();
        assert_eq!(text, plain(&mut s));
        assert!(text.len() <= s.header().shape.lengths().unwrap().text);
        assert_eq!(Owned::from_text(&text).unwrap(), s, "not restored");
        let mut out = vec![0; text.len()];
        assert_eq!(s.with(|s| s.write_text(&mut out[1..])), Err(Refused(16)));
        assert_eq!(s.with(|s| s.write_text(&mut out)), Ok(text.len()));
        assert_eq!(Slices::of(s.header().shape).judge(&text), 0);
        longest = longest.max(text.len());
        modes[s.header().mode as usize] += 1;
    }
    println!("{states} states restored, by mode: {modes:?}; the longest text has {longest} bytes");
    assert!(states < ENOUGH / 20 || modes.iter().all(|&n| n > 0));
}

/// Where the boxes get their lengths from: `from_text` answers what the reader does.
#[test]
fn first_lines_of_boxes() {
    let numbers = ["0", "1", "2", "19", "20", "32", "33", "1025", "4097", "18446744073709551615", "18446744073709551616", "-1", "+1", "01", "", "x"];
    let mut r = Random(3);
    for _ in 0..mutated() / 10 {
        let mut n = || *r.pick(&numbers);
        let line = format!("(univmon {} {} {} {})\n", n(), n(), n(), n());
        let end = *r.pick(&[")\n", ")\n", ")\n", ")\n", "", ")", ")\r\n", " 1)\n", "\n"]);
        let line = line.replace(")\n", end);
        let number = match Slices::marked([0; 4]).judge(line.as_bytes()) {
            // the shape is taken, and there are no lines behind it
            16 => 15,
            number => number,
        };
        assert_eq!(Owned::from_text(line.as_bytes()), Err(Refused(number)), "{line}");
    }
    assert_eq!(Owned::from_text(b""), Err(Refused(15)));
    assert_eq!(Owned::from_text(b"(univmon \xFF 1 1 1)\n"), Err(Refused(15)));
}

/// Every other byte at every place of short texts, and every byte left out or doubled.
#[test]
fn one_byte_changed() {
    let mut r = Random(2);
    let mut texts = vec![Owned::new(Shape { heap_size: 1, rows: 1, cols: 1, layers: 1 }).unwrap().to_text().unwrap()];
    while texts.len() < 12 {
        let text = state(&mut r).to_text().unwrap();
        if (100..400).contains(&text.len()) {
            texts.push(text);
        }
    }
    let (few, every) = if mutated() < ENOUGH { (2, 16) } else { (12, 1) };
    let (mut tried, mut own) = (0, 0);
    for text in &texts[..few] {
        let mut slices = Slices::of(Owned::from_text(text).unwrap().header().shape);
        let mut judge = |changed: &[u8]| {
            tried += 1;
            own += (slices.judge(changed) == 0) as u64;
        };
        for at in 0..text.len() {
            let mut changed = text.clone();
            for byte in (0..=255).filter(|&b| b != text[at]).step_by(every) {
                changed[at] = byte;
                judge(&changed);
            }
            let (before, after) = text.split_at(at);
            judge(&[before, &after[1..]].concat());
            judge(&[before, &after[..1], after].concat());
        }
    }
    println!("{tried} texts with one byte changed, left out or doubled: {own} are other states' texts");
    assert!(own > 0 && own < tried / 4);
}

const BOUNDS: [&str; 32] = [
    "0", "1", "2", "3", "9", "10", "19", "20", "21", "33", "1024", "1025", "4096", "4097",
    "4503599627370495", "4503599627370496", "4503599627370497",
    "9223372036854775807", "9223372036854775808", "18446744073709551615", "18446744073709551616",
    "340282366920938463463374607431768211456",
    "-0", "-1", "-4503599627370496", "-4503599627370497", "-9223372036854775808", "-9223372036854775809",
    "00", "01", "+1", "",
];

fn lines(text: &[u8]) -> Vec<Vec<u8>> {
    text.split_inclusive(|&b| b == b'\n').map(<[u8]>::to_vec).collect()
}

/// Some place's number, with its sign.
fn a_number(r: &mut Random, text: &[u8]) -> Option<std::ops::Range<usize>> {
    let digit = |i: &usize| text[*i].is_ascii_digit();
    let places: Vec<usize> = (0..text.len()).filter(digit).collect();
    let at = *places.get(r.below(places.len().max(1)))?;
    let start = (0..at).rev().take_while(digit).last().unwrap_or(at);
    let end = (at..text.len()).take_while(digit).last()? + 1;
    let sign = start > 0 && text[start - 1] == b'-';
    Some(start - sign as usize..end)
}

/// One change of any kind.
fn mutate(r: &mut Random, text: &mut Vec<u8>, other: &[u8]) {
    if text.is_empty() {
        return;
    }
    let (i, j) = (r.below(text.len()), r.below(text.len()));
    let near = i..text.len().min(i + 1 + r.mostly(4, 60));
    match r.below(15) {
        0 => text[i] = r.next() as u8,
        1 => text[i] = *r.pick(b"0123456789() -\nunivmokeyrwflag"),
        2 => drop(text.drain(near)),
        3 => text.truncate(i),
        4 => {
            let part = text[near.clone()].to_vec();
            text.splice(near.start..near.start, part);
        }
        5 => text.swap(i, j),
        6 => text.push(r.next() as u8),
        7 | 8 => {
            let mut all = lines(text);
            let (i, j) = (r.below(all.len()), r.below(all.len()));
            match r.below(4) {
                0 => all.swap(i, j),
                1 => drop(all.remove(i)),
                2 => all.insert(i, all[i].clone()),
                _ => all[i] = r.pick(&lines(other)).clone(),
            }
            *text = all.concat();
        }
        9..=11 => {
            if let Some(place) = a_number(r, text) {
                text.splice(place, r.pick(&BOUNDS).bytes());
            }
        }
        _ => {
            if let Some(place) = a_number(r, text) {
                let n: i128 = std::str::from_utf8(&text[place.clone()]).unwrap().parse().unwrap_or(0);
                let near = n.saturating_add(r.below(7) as i128 - 3);
                text.splice(place, near.to_string().bytes());
            }
        }
    }
}

#[test]
fn mutated_texts() {
    let many = mutated();
    let mut r = Random(number("MUTATED_SEED", 1));
    let mut dump = std::env::var_os("MUTATED_DUMP").map(|path| BufWriter::new(File::create(path).unwrap()));
    let (mut answers, mut others) = ([0u64; 17], 0);
    let (mut text, mut other) = (Vec::new(), Vec::new());
    let mut slices = Slices::marked([0; 4]);
    for n in 0..many {
        if n % 40 == 0 {
            let fresh = loop {
                let fresh = state(&mut r);
                let written = fresh.to_text().unwrap();
                if written.len() < 2_000 || r.one_in(50) {
                    other = std::mem::replace(&mut text, written);
                    break fresh;
                }
            };
            slices = Slices::of(fresh.header().shape);
            if other.is_empty() {
                other = text.clone();
            }
        }
        let mut changed = text.clone();
        for _ in 0..1 + r.mostly(2, 6) {
            mutate(&mut r, &mut changed, &other);
        }
        let mut lengths = slices.lengths();
        if r.one_in(40) {
            let which = r.below(4);
            lengths[which] = (lengths[which] + r.below(3)).saturating_sub(1);
        }
        let answer = if lengths == slices.lengths() { slices.judge(&changed) } else { Slices::marked(lengths).judge(&changed) };
        answers[answer as usize] += 1;
        others += (answer == 0 && changed != text) as u64;
        if let Some(dump) = dump.as_mut().filter(|_| n % many.div_ceil(DUMPED) == 0) {
            let [a, b, c, d] = lengths.map(|n| n as u64);
            for word in [answer, a, b, c, d, changed.len() as u64] {
                dump.write_all(&word.to_le_bytes()).unwrap();
            }
            dump.write_all(&changed).unwrap();
        }
    }
    println!("{many} texts; answered by number: {answers:?}; {others} are other states' texts");
    if many >= ENOUGH {
        for answer in [0, 1, 2, 3, 4, 15, 16] {
            assert!(answers[answer] > 0, "number {answer} never came");
        }
        assert!(others > many / 50, "hardly a changed text is a state's");
    }
}
