//! States as text: what each line may say, and the refusals of both calls, on both sides of their bounds and in
//! their order.
use slices::{Slices, BYTE};
use univmon::{Header, Refused, Shape, State};

mod slices;

const SHAPE: Shape = Shape { heap_size: 2, rows: 2, cols: 4, layers: 2 };
const LIMIT: i64 = 1 << 52;

const TEXT: &str = "\
(univmon 2 2 4 2)
(weight 12)
(updates 3)
(mode 1)
(flag 0 1)
(row 0 0 (0 3) (2 -5))
(row 0 1 (1 -6) (3 7))
(key 0 7 0 9223372036854775808 6 -5)
(key 0 8 2 0 1 3)
(flag 1 0)
(row 1 1 (3 4503599627370496))
(key 1 18446744073709551615 1 2 3 4)
(key 1 9 4 5 6 8)
";

/// The text with one part changed, which it has once.
fn changed(from: &str, to: &str) -> String {
    assert_eq!(TEXT.matches(from).count(), 1, "{from}");
    TEXT.replace(from, to)
}

/// What a reading into slices of the text's shape answers.
fn answer(text: impl AsRef<[u8]>) -> u64 {
    Slices::of(SHAPE).judge(text.as_ref())
}

fn lines() -> Vec<&'static str> {
    TEXT.split_inclusive('\n').collect()
}

/// The state that the text says.
fn state() -> (Header, Slices) {
    let mut slices = Slices::of(SHAPE);
    let a = slices.read(TEXT.as_bytes());
    assert_eq!(a.refusal, 0);
    (a.header, slices)
}

#[test]
fn one_update_as_text() {
    let (mut counters, mut norms) = ([0i64; 16], [0u64; 8]);
    let (mut entries, mut counts) = ([0u64; 16], [0i64; 4]);
    let mut state = State::new(SHAPE, &mut counters, &mut norms, &mut entries, &mut counts).unwrap();
    state.update_weighted(&[7, 0, 1 << 63, 6, 0, 0], 5, &mut [0; 4]).unwrap();
    let mut space = [BYTE; 200];
    let bytes = state.write_text(&mut space).unwrap();
    let text = "(univmon 2 2 4 2)\n(weight 5)\n(updates 1)\n(mode 1)\n(flag 0 1)\n(row 0 0 (2 5))\n(row 0 1 (1 -5))\n\
                (key 0 7 0 9223372036854775808 6 5)\n(flag 1 1)\n";
    assert_eq!(std::str::from_utf8(&space[..bytes]), Ok(text));
    assert!(space[bytes..].iter().all(|&b| b == BYTE));

    let mut read = Slices::of(SHAPE);
    let a = read.read(text.as_bytes());
    assert_eq!((a.refusal, &a.header), (0, state.header()));
    assert_eq!((&read.counters[..], &read.norms[..]), (state.counters(), state.norms()));
    assert_eq!((&read.entries[..], &read.counts[..]), (state.entries(), state.counts()));
}

#[test]
fn a_state_from_its_text() {
    let (header, slices) = state();
    assert_eq!(header.shape, SHAPE);
    assert_eq!((header.weight, header.updates, header.mode), (12, 3, 1));
    assert_eq!(header.lens[..3], [2, 2, 0]);
    assert_eq!(header.flags[..3], [true, false, false]);
    assert_eq!(slices.counters, [3, 0, -5, 0, 0, -6, 0, 7, 0, 0, 0, 0, 0, 0, 0, LIMIT]);
    // the square of the greatest counter is capped
    assert_eq!(slices.norms, [34, 0, 85, 0, 0, 0, 1 << 63, 0]);
    assert_eq!(slices.entries, [7, 0, 1 << 63, 6, 8, 2, 0, 1, u64::MAX, 1, 2, 3, 9, 4, 5, 6]);
    assert_eq!(slices.counts, [-5, 3, 4, 8]);
    assert_eq!(answer(TEXT), 0);
}

#[test]
fn the_space_of_a_writing() {
    let (header, slices) = state();
    let bytes = TEXT.len();
    for space in [0, 1, bytes / 2, bytes - 1] {
        let mut out = vec![BYTE; space];
        let w = slices.write(header, &mut out);
        assert_eq!((w.refusal, w.bytes), (16, 0));
        assert!(out.iter().all(|&b| b == BYTE), "a refused writing changed its space");
    }
    for space in [bytes, bytes + 1, 2 * bytes] {
        let mut out = vec![BYTE; space];
        let w = slices.write(header, &mut out);
        assert_eq!((w.refusal, w.bytes), (0, bytes));
        assert_eq!(&out[..bytes], TEXT.as_bytes());
        assert!(out[bytes..].iter().all(|&b| b == BYTE), "bytes past the text changed");
    }
}

/// A text may start at any address.
#[test]
fn texts_at_odd_addresses() {
    let (header, slices) = state();
    for offset in 0..16 {
        let mut space = vec![BYTE; offset + TEXT.len()];
        let w = slices.write(header, &mut space[offset..]);
        assert_eq!((w.refusal, w.bytes), (0, TEXT.len()));
        assert!(space[..offset].iter().all(|&b| b == BYTE));
        assert_eq!(answer(&space[offset..]), 0);
    }
}

/// Each change makes the check fail: that is 9, in a space that is long enough and in none.
#[test]
fn a_writing_refuses_what_fails_the_check() {
    let changes: [fn(&mut Header, &mut Slices); 20] = [
        |h, _| h.mode = 3,
        |h, _| h.mode = u64::MAX,
        |h, _| h.weight = LIMIT as u64 + 1,
        |h, _| h.updates = LIMIT as u64 + 1,
        |h, _| h.shape.cols = 0,
        |h, _| h.shape.layers = 20,
        |h, _| h.shape.heap_size = 1025,
        |h, _| h.lens[0] = 3,
        |h, _| h.lens[0] = 1,
        |h, _| h.lens[2] = 1,
        |h, _| h.flags[2] = true,
        |_, s| s.norms[0] += 1,
        |_, s| s.counters[1] = 1,
        |_, s| s.counters[15] = LIMIT + 1,
        |_, s| s.counts[0] = 4,
        |_, s| s.counts[3] = LIMIT + 1,
        |_, s| s.counters.push(0),
        |_, s| s.norms.truncate(7),
        |_, s| s.entries.push(0),
        |_, s| s.counts.truncate(3),
    ];
    for change in changes {
        let (mut header, mut slices) = state();
        change(&mut header, &mut slices);
        for space in [0, 500] {
            let mut out = vec![BYTE; space];
            let w = slices.write(header, &mut out);
            assert_eq!((w.refusal, w.bytes), (9, 0), "{header:?} {slices:?}");
            assert!(out.iter().all(|&b| b == BYTE), "a refused writing changed its space");
        }
    }
}

/// The first line, with the other lines behind it, read into slices of the usual lengths and into none.
#[test]
fn first_lines() {
    let rest = &TEXT[lines()[0].len()..];
    let is = |line: &str, number: u64| {
        let text = format!("{line}{rest}");
        assert_eq!(answer(&text), number, "{line}");
        let none = if number == 0 { 16 } else { number };
        assert_eq!(Slices::marked([0; 4]).judge(text.as_bytes()), none, "{line}");
    };
    is("(univmon 2 2 4 2)\n", 0);
    for line in [
        "(univmon 0 2 4 2)\n",
        "(univmon 2 0 4 2)\n",
        "(univmon 2 2 0 2)\n",
        "(univmon 2 2 4 0)\n",
        "(univmon 0 0 0 0)\n",
        "(univmon 1025 0 33 20)\n",
    ] {
        is(line, 1);
    }
    for line in ["(univmon 2 2 4 20)\n", "(univmon 1025 20 33 20)\n", "(univmon 2 2 4 18446744073709551615)\n"] {
        is(line, 2);
    }
    for line in ["(univmon 2 20 33 2)\n", "(univmon 1025 20 33 2)\n", "(univmon 2 2 18446744073709551615 2)\n"] {
        is(line, 3);
    }
    for line in [
        "(univmon 1025 2 4 2)\n",
        "(univmon 2 21 1 2)\n",
        "(univmon 2 2 4097 2)\n",
        "(univmon 2 1 18446744073709551615 2)\n",
        "(univmon 18446744073709551615 2 4 2)\n",
    ] {
        is(line, 4);
    }
    for line in [
        "(univmon 1024 2 4 2)\n",
        "(univmon 2 20 32 2)\n",
        "(univmon 2 2 4096 2)\n",
        "(univmon 2 2 4 19)\n",
        "(univmon 3 2 4 2)\n",
        "(univmon 2 3 4 2)\n",
        "(univmon 2 2 5 2)\n",
        "(univmon 2 2 4 1)\n",
    ] {
        is(line, 16);
    }
    for line in [
        "",
        "\n",
        "(univmon 0 2 4 2)",
        "(univmon 0 2 4 2)\r\n",
        "(univmon 0 2 4 2) \n",
        "(univmon 0 2 4 2\n",
        "(univmon 0 2 4)\n",
        "(univmon 0 2 4 2 2)\n",
        "(univmon  0 2 4 2)\n",
        "(univmon 0 2 4 2 )\n",
        "(univmon 00 2 4 2)\n",
        "(univmon 02 2 4 2)\n",
        "(univmon +2 2 4 2)\n",
        "(univmon -0 2 4 2)\n",
        "(univmon -2 2 4 2)\n",
        "(univmon a 2 4 2)\n",
        "(univmon\t0 2 4 2)\n",
        "(Univmon 0 2 4 2)\n",
        "univmon 0 2 4 2\n",
        " (univmon 0 2 4 2)\n",
        "(univmon 18446744073709551616 2 4 2)\n",
        "(univmon 2 18446744073709551616 4 2)\n",
        "(univmon 2 2 18446744073709551616 2)\n",
        "(univmon 2 2 4 18446744073709551616)\n",
        "(univmon 2 2 4 36893488147419103234)\n",
        "(univmon 2 2 4 184467440737095516150)\n",
    ] {
        is(line, 15);
    }
    assert_eq!(answer(""), 15);
    assert_eq!(answer("(univmon 0 2 4 2)"), 15);
    assert_eq!(answer("(univmon 0 2 4 2)\n"), 1);
    assert_eq!(answer("(univmon 2 2 4 2)\n"), 15);
}

/// 16 stands between the first line and the others.
#[test]
fn slices_of_other_lengths() {
    let right = Slices::of(SHAPE).lengths();
    for which in 0..4 {
        for length in [right[which] - 1, right[which] + 1, 0] {
            let mut lengths = right;
            lengths[which] = length;
            let mut slices = Slices::marked(lengths);
            assert_eq!(slices.judge(TEXT.as_bytes()), 16);
            assert_eq!(slices.judge(b"(univmon 2 2 4 2)\nand so on"), 16);
            assert_eq!(slices.judge(b"(univmon 2 2 4 20)\nand so on"), 2);
            assert_eq!(slices.judge(b"(univmon 2 2 4 2) \nand so on"), 15);
        }
    }
    assert_eq!(answer("(univmon 2 2 4 2)\nand so on"), 15);
}

#[test]
fn numbers() {
    let is = |from: &str, to: &[&str], number: u64| {
        for to in to {
            assert_eq!(answer(changed(from, to)), number, "{from} as {to}");
        }
    };
    for (word, from) in [("weight", "(weight 12)"), ("updates", "(updates 3)")] {
        for n in ["0", "1", "4503599627370495", "4503599627370496"] {
            is(from, &[&format!("({word} {n})")], 0);
        }
        for n in ["4503599627370497", "18446744073709551615", "18446744073709551616", "18446744073709551628", "-1", "-0", "+1", "01", "", "1.0", "0x1"] {
            is(from, &[&format!("({word} {n})")], 15);
        }
    }
    is("(mode 1)", &["(mode 0)", "(mode 2)"], 0);
    is("(mode 1)", &["(mode 3)", "(mode 18446744073709551616)", "(mode 18446744073709551617)", "(mode 01)", "(mode -1)"], 15);
    is("(flag 0 1)", &["(flag 0 0)"], 0);
    is("(flag 0 1)", &["(flag 0 2)", "(flag 1 1)", "(flag 0 01)", "(flag 00 1)", "(flag 0 18446744073709551617)", "(flag 18446744073709551616 1)"], 15);
    is("(flag 1 0)", &["(flag 0 0)", "(flag 2 0)"], 15);

    // rows and columns rise and stay inside
    is("(row 1 1 (", &["(row 1 0 ("], 0);
    is("(row 1 1 (", &["(row 1 2 (", "(row 0 1 (", "(row 2 1 (", "(row 1 18446744073709551617 (", "(row 18446744073709551617 1 (", "(row 1 01 ("], 15);
    is("(row 0 1 (", &["(row 0 0 ("], 15);
    is("(row 0 0 (", &["(row 0 1 ("], 15);
    is("(0 3)", &["(1 3)"], 0);
    is("(0 3)", &["(2 3)", "(3 3)", "(00 3)", "(-0 3)"], 15);
    is("(2 -5)", &["(1 -5)", "(3 -5)"], 0);
    is("(2 -5)", &["(0 -5)", "(4 -5)", "(4294967298 -5)", "(18446744073709551615 -5)", "(18446744073709551616 -5)", "(18446744073709551618 -5)"], 15);

    // counters: nonzero, within the limit
    is("(2 -5)", &["(2 1)", "(2 -1)", "(2 4503599627370496)", "(2 -4503599627370496)"], 0);
    is(
        "(2 -5)",
        &[
            "(2 0)",
            "(2 -0)",
            "(2 +5)",
            "(2 05)",
            "(2 -05)",
            "(2 --5)",
            "(2 -)",
            "(2 )",
            "(2)",
            "(2  5)",
            "(2 5 )",
            "(2 4503599627370497)",
            "(2 -4503599627370497)",
            "(2 9223372036854775807)",
            "(2 -9223372036854775807)",
            "(2 9223372036854775808)",
            "(2 -9223372036854775808)",
            "(2 -9223372036854775809)",
            "(2 18446744073709551611)",
            "(2 18446744073709551616)",
            "(2 -18446744073709551621)",
        ],
        15,
    );

    // keys and hashes: any word
    for (from, before, after) in [("7 0 9223372036854775808 6 -5", "", " 1 2 3 -5"), ("7 0 9223372036854775808 6 -5", "1 2 3 ", " -5")] {
        for n in ["0", "9", "9223372036854775807", "9223372036854775808", "18446744073709551609", "18446744073709551615"] {
            is(from, &[&format!("{before}{n}{after}")], 0);
        }
        for n in ["18446744073709551616", "18446744073709551623", "18446744073709551620", "99999999999999999999", "184467440737095516150", "-1", "00", ""] {
            is(from, &[&format!("{before}{n}{after}")], 15);
        }
    }
    is("(key 1 9 ", &["(key 0 9 ", "(key 2 9 ", "(key 01 9 ", "(key 18446744073709551617 9 "], 15);

    // counts: within the limit, none below its parent's
    is(" 6 -5)", &[" 6 -4503599627370496)", " 6 0)", " 6 3)"], 0);
    is(" 6 -5)", &[" 6 4)", " 6 -4503599627370497)", " 6 -9223372036854775808)", " 6 -9223372036854775809)", " 6 -0)", " 6 -05)"], 15);
    is(" 1 3)", &[" 1 -5)", " 1 4503599627370496)"], 0);
    is(" 1 3)", &[" 1 -6)", " 1 4503599627370497)", " 1 9223372036854775808)", " 1 18446744073709551619)"], 15);
}

#[test]
fn lines_missing_doubled_and_out_of_order() {
    let lines = lines();
    let text = |order: &[usize]| order.iter().map(|&i| lines[i]).collect::<String>();
    let all: Vec<usize> = (0..lines.len()).collect();
    for i in 0..lines.len() {
        let mut missing = all.clone();
        missing.remove(i);
        // without a row or a key it is another state's text
        let one_of_some = lines[i].starts_with("(row ") || lines[i].starts_with("(key ");
        assert_eq!(answer(text(&missing)), if one_of_some { 0 } else { 15 }, "without {}", lines[i]);
        let mut doubled = all.clone();
        doubled.insert(i, i);
        assert_eq!(answer(text(&doubled)), 15, "doubled {}", lines[i]);
        for j in 0..i {
            let mut swapped = all.clone();
            swapped.swap(i, j);
            assert_eq!(answer(text(&swapped)), 15, "{} changed places with {}", lines[i], lines[j]);
        }
    }
    for extra in ["\n", " ", "(", "(flag 2 1)\n", "(row 1 1 (0 1))\n", "(key 1 1 1 1 1 9)\n", "\0"] {
        assert_eq!(answer(format!("{TEXT}{extra}")), 15, "and {extra}");
        assert_eq!(answer(format!("{extra}{TEXT}")), 15, "{extra} before");
    }
    for length in 0..TEXT.len() {
        let cut = &TEXT[..length];
        let own = cut.ends_with('\n') && cut.contains("(flag 1 0)");
        assert_eq!(answer(cut), if own { 0 } else { 15 }, "{cut}");
    }
}

#[test]
fn forms() {
    for (from, to) in [
        ("(row 0 0 (0 3) (2 -5))", "(row 0 0)"),
        ("(row 0 0 (0 3) (2 -5))", "(row 0 0 )"),
        ("(row 0 0 (0 3) (2 -5))", "(row 0 0  (0 3) (2 -5))"),
        ("(row 0 0 (0 3) (2 -5))", "(row 0 0 (0 3)(2 -5))"),
        ("(row 0 0 (0 3) (2 -5))", "(row 0 0 (0 3) (2 -5) )"),
        ("(row 0 0 (0 3) (2 -5))", "(row 0 0 (2 -5) (0 3))"),
        ("(row 0 0 (0 3) (2 -5))", "(row 0 0 (0 3) (2 -5)"),
        ("(row 0 0 (0 3) (2 -5))", "(row  0 0 (0 3) (2 -5))"),
        ("(row 0 0 (0 3) (2 -5))", "(row 0 (0 3) (2 -5))"),
        ("(row 0 0 (0 3) (2 -5))", "(row 0 0 (0 3) (2 -5))\n(row 0 0 (3 1))"),
        ("(row 0 0 (0 3) (2 -5))", "(ROW 0 0 (0 3) (2 -5))"),
        ("(key 0 8 2 0 1 3)", "(key 0 8 2 0 1 3 )"),
        ("(key 0 8 2 0 1 3)", "(key 0 8 2 0 1)"),
        ("(key 0 8 2 0 1 3)", "(key 0 8 2 0 1 3 4)"),
        ("(key 0 8 2 0 1 3)", "(key 0  8 2 0 1 3)"),
        ("(key 0 8 2 0 1 3)", "(key 0 8 2 0 1 3)\r"),
        ("(mode 1)\n", "(mode 1)"),
        ("(mode 1)\n", "(mode 1)\n\n"),
        ("(mode 1)\n", "(mode 1)\r\n"),
        ("(mode 1)\n", "(mode  1)\n"),
        ("(mode 1)\n", "( mode 1)\n"),
        ("(flag 1 0)\n", "(flag 1 0)\n(flag 1 0)\n"),
        ("(flag 1 0)\n", "(flag 1)\n"),
    ] {
        assert_eq!(answer(changed(from, to)), 15, "{to}");
    }
}

#[test]
fn through_the_wrapper() {
    let (mut counters, mut norms) = ([9i64; 16], [9u64; 8]);
    let (mut entries, mut counts) = ([9u64; 16], [9i64; 4]);
    let mut read = |text: &str, slice: usize| {
        let state = State::read_text(text.as_bytes(), &mut counters[..slice], &mut norms, &mut entries, &mut counts);
        state.map(|state| (state.header().weight, state.estimate_l1(), state.check()))
    };
    assert_eq!(read(TEXT, 15).unwrap_err(), Refused(16));
    assert_eq!(read(&TEXT[1..], 16).unwrap_err(), Refused(15));
    assert_eq!(read(&changed("(univmon 2 2 4 2)", "(univmon 2 2 4 0)"), 16).unwrap_err(), Refused(1));
    assert_eq!(read(TEXT, 16), Ok((12, Ok(12.0), true)));
    let state = State::read_text(TEXT.as_bytes(), &mut counters, &mut norms, &mut entries, &mut counts).unwrap();
    assert_eq!(state.write_text(&mut [0; 10]), Err(Refused(16)));
    assert_eq!(state.write_text(&mut [0; 1000]), Ok(TEXT.len()));
    norms[0] += 1;
    let (header, _) = self::state();
    let state = State::lend(header, &mut counters, &mut norms, &mut entries, &mut counts).unwrap();
    assert_eq!(state.write_text(&mut [0; 10]), Err(Refused(9)));
}

/// A text in which everything is as long as it can be.
fn longest(shape: Shape) -> String {
    let Shape { heap_size, rows, cols, layers } = shape;
    let mut text = format!("(univmon {heap_size} {rows} {cols} {layers})\n(weight {LIMIT})\n(updates {LIMIT})\n(mode 2)\n");
    for l in 0..layers {
        text += &format!("(flag {l} 1)\n");
        for r in 0..rows {
            text += &format!("(row {l} {r}");
            (0..cols).for_each(|c| text += &format!(" ({c} -{LIMIT})"));
            text += ")\n";
        }
        for i in 0..heap_size as u64 {
            text += &format!("(key {l} {0} {1} {1} {1} -{LIMIT})\n", u64::MAX - i, u64::MAX);
        }
    }
    text
}

/// Texts of more than a million bytes, and the greatest of all: what `Lengths` says is enough, and not much more.
#[test]
fn long_texts() {
    for (heap_size, rows, cols, layers) in [(1, 1, 1, 1), (32, 5, 2048, 8), (1, 20, 32, 19), (16, 9, 4096, 3), (1024, 9, 4096, 19)] {
        let shape = Shape { heap_size, rows, cols, layers };
        let text = longest(shape);
        let most = shape.lengths().unwrap().text;
        assert!(text.len() <= most && most - text.len() <= 60 + text.len() / 8, "{} of {most}", text.len());
        let mut slices = Slices::of(shape);
        assert_eq!(slices.judge(text.as_bytes()), 0);
        assert_eq!(slices.judge(&text.as_bytes()[..text.len() - 1]), 15);
        assert_eq!(slices.judge(format!("{text}\n").as_bytes()), 15);
    }
}
