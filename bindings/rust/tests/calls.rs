//! The figures of the papers through the wrapper, in lent slices.
use std::error::Error;

use univmon::ffi::Calls;
use univmon::{bottom_layer_for_hash, Fidelity, Happened, Header, Mode, Refused, Shape, State, Step, Tiers, TwoTierShape, UnivMonTwoTier, Written, G};

const SHAPE: Shape = Shape { heap_size: 2, rows: 2, cols: 4, layers: 2 };

/// The record of the papers' example: columns 2 and 1, signs + and -.
fn record(key: u64, bottom: u64) -> [u64; 6] {
    [key, bottom, 0x8000_0000_0000_0000, 6, 0, 0]
}

/// A list that is enough for every call.
fn list() -> [u64; 16] {
    [9; 16]
}

/// Runs calls on a fresh state in slices of the stack.
fn with<R>(calls: impl FnOnce(&mut State<'_>) -> R) -> R {
    let (mut counters, mut norms) = ([9i64; 16], [9u64; 8]);
    let (mut entries, mut counts) = ([9u64; 16], [9i64; 4]);
    let mut state = State::new(SHAPE, &mut counters, &mut norms, &mut entries, &mut counts).unwrap();
    calls(&mut state)
}

#[test]
fn layout_is_the_headers() {
    assert_eq!(std::mem::size_of::<Header>(), 7 * 8 + 19 * 8 + 24);
    assert_eq!(std::mem::offset_of!(Header, updates), 40);
    assert_eq!(std::mem::offset_of!(Header, lens), 56);
    assert_eq!(std::mem::offset_of!(Header, flags), 208);
    assert_eq!(std::mem::offset_of!(Step, updates), 16);
    assert_eq!((std::mem::size_of::<Written>(), std::mem::offset_of!(Written, bytes)), (16, 8));
    type Wide = Header<TwoTierShape>;
    assert_eq!(std::mem::size_of::<Wide>(), 10 * 8 + 19 * 8 + 24);
    assert_eq!((std::mem::offset_of!(Wide, weight), std::mem::offset_of!(Wide, lens), std::mem::offset_of!(Wide, flags)), (56, 80, 232));
    let order = [
        std::mem::offset_of!(TwoTierShape, heap_size),
        std::mem::offset_of!(TwoTierShape, layers),
        std::mem::offset_of!(TwoTierShape, elephant_layers),
        std::mem::offset_of!(TwoTierShape, elephant_rows),
        std::mem::offset_of!(TwoTierShape, elephant_cols),
        std::mem::offset_of!(TwoTierShape, mouse_rows),
        std::mem::offset_of!(TwoTierShape, mouse_cols),
    ];
    assert_eq!(order, [0, 8, 16, 24, 32, 40, 48]);
}

#[test]
fn bottom_layers() {
    assert_eq!(bottom_layer_for_hash(6, 1), Ok(0));
    assert_eq!(bottom_layer_for_hash(0, 3), Ok(0));
    assert_eq!(bottom_layer_for_hash(2, 3), Ok(1));
    assert_eq!(bottom_layer_for_hash(6, 3), Ok(2));
    assert_eq!(bottom_layer_for_hash(6, 0), Err(Refused(1)));
    assert_eq!(bottom_layer_for_hash(6, 20), Err(Refused(2)));
}

#[test]
fn shapes() {
    let shape = |heap_size, rows, cols, layers| Shape { heap_size, rows, cols, layers };
    assert!(shape(2, 20, 32, 2).lengths().is_ok());
    assert_eq!(shape(2, 2, 0, 2).lengths(), Err(Refused(1)));
    assert_eq!(shape(2, 2, 4, 20).lengths(), Err(Refused(2)));
    assert_eq!(shape(2, 20, 33, 2).lengths(), Err(Refused(3)));
    assert_eq!(shape(2, 21, 1, 2).lengths(), Err(Refused(4)));
    let far = usize::MAX;
    assert!(shape(far, far, far, far).lengths().is_err());
}

#[test]
fn one_update() {
    with(|s| {
        s.update_weighted(&record(7, 0), 5, &mut list()).unwrap();
        assert_eq!(s.counters()[..8], [0, 0, 5, 0, 0, -5, 0, 0]);
        assert_eq!(s.norms()[..4], [25, 0, 25, 0]);
        assert_eq!((s.entries()[0], s.counts()[0]), (7, 5));
        assert_eq!(s.header().mode(), Some(Mode::Standard));
        let p = s.panel_answer().unwrap();
        assert_eq!((p.l1, p.l2, p.cardinality), (5.0, 5.0, 1.0));
    });
}

#[test]
fn a_third_key_clears_the_flag() {
    with(|s| {
        s.update_weighted(&record(1, 0), 1, &mut list()).unwrap();
        s.update_weighted(&record(2, 2), 1, &mut list()).unwrap();
        assert_eq!(s.estimate_cardinality(), Ok(2.0));
        assert!(s.header().flags[0]);
        s.update_weighted(&record(3, 0), 1, &mut list()).unwrap();
        assert!(!s.header().flags[0] && s.header().flags[1]);
    });
}

#[test]
fn refusals() {
    with(|s| {
        assert_eq!(s.update_weighted(&record(7, 0), -1, &mut list()), Err(Refused(5)));
        assert_eq!(s.update_weighted(&record(7, 0)[..5], 1, &mut list()), Err(Refused(12)));
        s.update_weighted(&record(7, 0), 1 << 52, &mut list()).unwrap();
        assert_eq!(s.update_weighted_terminal(&record(7, 0), 1, &mut list()), Err(Refused(6)));
        assert_eq!(s.update_weighted(&record(7, 0), 1, &mut list()), Err(Refused(7)));
        let delta = |s: &mut State<'_>, col, count| s.apply_delta(&record(7, 0), 0, 0, col, count, Fidelity::EveryInsert, &mut list());
        assert_eq!(delta(s, 4, 1), Err(Refused(8)));
        assert_eq!(delta(s, 2, 1), Err(Refused(11)));
        assert_eq!(delta(s, 2, -1), Ok(()));
        assert_eq!(s.mark_layer_candidates_incomplete(2), Err(Refused(8)));
        assert_eq!(s.set_total_weight((1 << 52) + 1), Err(Refused(7)));
    });
}

#[test]
fn updates_are_counted() {
    let (mut counters, mut norms) = ([0i64; 16], [0u64; 8]);
    let (mut entries, mut counts) = ([0u64; 16], [0i64; 4]);
    let fresh = State::new(SHAPE, &mut counters, &mut norms, &mut entries, &mut counts).unwrap();
    assert_eq!(fresh.header().updates, 0);
    let near = Header { updates: (1 << 52) - 2, ..fresh.into_header() };
    let mut s = State::lend(near, &mut counters, &mut norms, &mut entries, &mut counts).unwrap();
    s.update_weighted(&record(7, 0), 5, &mut list()).unwrap();
    s.update_weighted(&record(7, 0), 0, &mut list()).unwrap();
    assert_eq!((s.header().weight, s.header().updates), (5, 1 << 52));
    assert_eq!(s.update_weighted(&record(7, 0), 0, &mut list()), Err(Refused(14)));
    assert_eq!(s.update_weighted(&record(7, 0), 1 << 52, &mut list()), Err(Refused(7)));
    s.apply_delta(&record(7, 0), 0, 0, 0, 1, Fidelity::EveryInsert, &mut list()).unwrap();
    s.set_total_weight(4).unwrap();
    s.mark_candidates_incomplete().unwrap();
    assert_eq!(s.header().updates, 1 << 52);
    assert!(s.check());
    s.clear().unwrap();
    assert_eq!(s.header().updates, 0);
    let beyond = Header { updates: (1 << 52) + 1, ..s.into_header() };
    let mut s = State::lend(beyond, &mut counters, &mut norms, &mut entries, &mut counts).unwrap();
    assert_eq!(s.update_weighted(&record(7, 0), 1, &mut list()), Err(Refused(9)));
    assert!(!s.check());
    assert_eq!(s.header(), &beyond);
}

/// The numbers and words of univmon.h's table, a wrapped line joined to the one above.
fn table_of_the_header() -> Vec<(u64, String)> {
    let mut table: Vec<(u64, String)> = Vec::new();
    let text = include_str!("../../c/univmon.h");
    let in_table = |line: &&str| line.starts_with(" *   ");
    let lines = text.lines().skip_while(|line| !line.starts_with(" * REFUSALS."));
    for line in lines.skip_while(|line| !in_table(line)).take_while(in_table) {
        match line[5..].split_once(' ').map(|(n, words)| (n.parse(), words.trim())) {
            Some((Ok(n), words)) => table.push((n, words.to_string())),
            _ => table.last_mut().unwrap().1 += &format!(" {}", line[5..].trim()),
        }
    }
    table
}

#[test]
fn refusals_have_the_headers_words() {
    let table = table_of_the_header();
    assert_eq!(table.iter().map(|row| row.0).collect::<Vec<_>>(), (1..=12).chain(14..=16).collect::<Vec<_>>());
    for (n, words) in table {
        assert_eq!(Refused(n).words(), words);
        assert_eq!(Refused(n).to_string(), format!("refused {n}: {words}"));
    }
    assert_eq!(Refused(13).to_string(), "refused 13: program line unreadable, or before a shape");
    for n in [0, 17, u64::MAX] {
        assert_eq!(Refused(n).to_string(), format!("refused {n}: no refusal has this number"));
    }
}

#[test]
fn a_refusal_is_an_error() {
    fn lengths(shape: Shape) -> Result<usize, Box<dyn Error + Send + Sync>> {
        Ok(shape.lengths()?.counters)
    }
    assert_eq!(lengths(SHAPE).unwrap(), 16);
    let error = lengths(Shape { cols: 0, ..SHAPE }).unwrap_err();
    assert_eq!(error.to_string(), "refused 1: a dimension is 0");
    assert_eq!(error.downcast_ref(), Some(&Refused(1)));
    assert!(error.source().is_none());
}

#[test]
fn lent_again() {
    let (mut counters, mut norms) = ([0i64; 16], [0u64; 8]);
    let (mut entries, mut counts) = ([0u64; 16], [0i64; 4]);
    let mut state = State::new(SHAPE, &mut counters, &mut norms, &mut entries, &mut counts).unwrap();
    state.update_weighted(&record(7, 0), 5, &mut list()).unwrap();
    let header = state.into_header();
    assert!(State::lend(header, &mut counters[..15], &mut norms, &mut entries, &mut counts).is_err());
    let state = State::lend(header, &mut counters, &mut norms, &mut entries, &mut counts).unwrap();
    assert_eq!(state.estimate_g_sum(G::Square, true), Ok(25.0));
    let odd = Header { mode: 3, ..header };
    let state = State::lend(odd, &mut counters, &mut norms, &mut entries, &mut counts).unwrap();
    assert_eq!(state.estimate_l1(), Err(Refused(9)));
}

#[test]
fn merges() {
    with(|one| {
        one.update_weighted(&record(1, 0), 2, &mut list()).unwrap();
        with(|two| {
            two.update_weighted(&record(2, 0), 3, &mut list()).unwrap();
            one.merge(two, &mut list()).unwrap();
            assert_eq!(one.estimate_l1(), Ok(5.0));
            assert_eq!(two.estimate_l1(), Ok(3.0));
        });
        assert_eq!(one.header().lens[0], 2);
    });
}

/// A record with this column in every row of both layers, and signs +: its count is its own weight.
fn apart(key: u64, bottom: u64, col: u64) -> [u64; 6] {
    let high = 0xC000_0000_0000_0000;
    let low = col + (col << 2);
    [key, bottom, high, low, high, low]
}

#[test]
fn who_was_pushed_out() {
    use Happened::*;
    let told = |list: &[u64]| SHAPE.told(list).collect::<Vec<_>>();
    with(|s| {
        let mut list = [9; 6];
        s.update_weighted(&apart(0, 2, 0), 5, &mut list).unwrap();
        assert_eq!((list, told(&list)), ([2, 0, 2, 0, 9, 9], vec![(0, Seated), (1, Seated)]));
        s.update_weighted(&apart(0, 2, 0), 1, &mut list).unwrap();
        assert_eq!(told(&list), [(0, Rescored), (1, Rescored)]);
        s.update_weighted(&apart(1, 0, 1), 8, &mut list).unwrap();
        assert_eq!((list, told(&list)), ([2, 0, 0, 0, 9, 9], vec![(0, Seated)]));
        assert!(told(&list).iter().all(|(_, what)| what.kept_all()));
        s.update_weighted(&apart(2, 0, 2), 6, &mut list).unwrap();
        assert_eq!((list, told(&list)), ([4, 0, 0, 0, 9, 9], vec![(0, TurnedAway)]));
        // key 0 goes, and is told from none
        s.update_weighted(&apart(2, 0, 2), 1, &mut list).unwrap();
        assert_eq!((list, told(&list)), ([3, 0, 0, 0, 9, 9], vec![(0, Displaced(0))]));
        assert!(!told(&list)[0].1.kept_all() && !s.header().flags[0]);
        // a delta, in the last layer; the list may be just long enough
        s.apply_delta(&apart(3, 0, 3), 1, 0, 3, 2, Fidelity::EveryInsert, &mut list[..4]).unwrap();
        assert_eq!((list, told(&list)), ([0, 0, 2, 0, 9, 9], vec![(1, Seated)]));
        s.apply_delta(&apart(2, 0, 2), 1, 0, 2, 1, Fidelity::EveryInsert, &mut list[..4]).unwrap();
        assert_eq!(told(&list), [(1, TurnedAway)]);
    });
}

#[test]
fn who_a_merge_pushed_out() {
    use Happened::*;
    with(|one| {
        one.update_weighted(&apart(1, 0, 0), 1, &mut list()).unwrap();
        one.update_weighted(&apart(2, 2, 1), 2, &mut list()).unwrap();
        with(|two| {
            two.update_weighted(&apart(3, 0, 2), 1, &mut list()).unwrap();
            two.update_weighted(&apart(4, 2, 3), 4, &mut list()).unwrap();
            let mut list = [9; 17];
            assert_eq!(one.merge(two, &mut list[..15]), Err(Refused(16)));
            assert_eq!((list, one.header().weight), ([9; 17], 3));
            one.merge(two, &mut list).unwrap();
            assert_eq!(list, [2, 0, 2, 0, 4, 0, 3, 1, 2, 0, 2, 0, 0, 0, 0, 0, 9]);
            let told: Vec<_> = SHAPE.told_by_merge(&list).collect();
            assert_eq!(told, [(0, Seated), (0, Seated), (0, TurnedAway), (0, Displaced(1)), (1, Seated), (1, Seated)]);
        });
    });
}

#[test]
fn short_lists_are_refused_last() {
    let want = SHAPE.lengths().unwrap();
    assert_eq!((want.list, want.merge_list), (4, 16));
    with(|s| {
        let mut short = [9; 3];
        assert_eq!(s.update_weighted(&record(7, 0), 1, &mut short), Err(Refused(16)));
        assert_eq!(s.update_weighted_terminal(&record(7, 0), 1, &mut []), Err(Refused(16)));
        assert_eq!(s.update_weighted(&record(7, 0), -1, &mut short), Err(Refused(5)));
        assert_eq!(s.update_weighted(&record(7, 0)[..5], 1, &mut short), Err(Refused(12)));
        assert_eq!((s.header().mode, s.header().updates), (0, 0));
        s.update_weighted(&record(7, 0), 1 << 52, &mut list()).unwrap();
        let mut delta = |count, list: &mut [u64]| s.apply_delta(&record(7, 0), 0, 0, 2, count, Fidelity::EveryInsert, list);
        assert_eq!(delta(-1, &mut short), Err(Refused(16)));
        assert_eq!(delta(1, &mut short), Err(Refused(11)));
        assert_eq!(short, [9; 3]);
    });
}

/// Places are read as far as the list and the shape go; a number that says nothing is passed over.
#[test]
fn odd_lists() {
    let told = |shape: Shape, list: &[u64]| (shape.told(list).count(), shape.told_by_merge(list).count());
    assert_eq!(told(SHAPE, &[]), (0, 0));
    assert_eq!(told(SHAPE, &[2]), (0, 0));
    assert_eq!(told(SHAPE, &[2, 0, 5, 5, 1, 0, u64::MAX, 3]), (1, 2));
    assert_eq!(told(Shape { layers: 0, heap_size: 0, ..SHAPE }, &[2, 0]), (0, 0));
    assert_eq!(told(Shape { layers: usize::MAX, heap_size: usize::MAX, ..SHAPE }, &[2, 0]), (1, 1));
}

#[test]
fn checks() {
    with(|s| {
        assert!(s.check());
        s.update_weighted(&record(7, 0), 5, &mut list()).unwrap();
        assert_eq!(s.update_weighted(&record(7, 0), -1, &mut list()), Err(Refused(5)));
        assert!(s.check());
    });
    let (mut counters, mut norms) = ([0i64; 16], [0u64; 8]);
    let (mut entries, mut counts) = ([0u64; 16], [0i64; 4]);
    let mut state = State::new(SHAPE, &mut counters, &mut norms, &mut entries, &mut counts).unwrap();
    state.update_weighted_terminal(&record(7, 0), 5, &mut list()).unwrap();
    assert!(state.check());
    let header = state.into_header();
    norms[0] += 1;
    assert!(!State::lend(header, &mut counters, &mut norms, &mut entries, &mut counts).unwrap().check());
    norms[0] -= 1;
    let odd = Header { mode: 3, ..header };
    assert!(!State::lend(odd, &mut counters, &mut norms, &mut entries, &mut counts).unwrap().check());
    assert!(State::lend(header, &mut counters, &mut norms, &mut entries, &mut counts).unwrap().check());
}

#[test]
fn an_odd_mode_is_refused_and_stays() {
    let (mut counters, mut norms) = ([0i64; 16], [0u64; 8]);
    let (mut entries, mut counts) = ([0u64; 16], [0i64; 4]);
    let state = State::new(SHAPE, &mut counters, &mut norms, &mut entries, &mut counts).unwrap();
    let odd = Header { mode: 3, weight: 4, ..state.into_header() };
    let mut state = State::lend(odd, &mut counters, &mut norms, &mut entries, &mut counts).unwrap();
    assert_eq!(state.update_weighted(&record(7, 0), 1, &mut list()), Err(Refused(9)));
    assert_eq!(state.update_weighted_terminal(&record(7, 0), 1, &mut list()), Err(Refused(9)));
    assert_eq!(state.header(), &odd);
}

// ---- two tiers

/// One layer of 2 rows and 4 columns, then two of 1 row and 2 columns.
const TIERS: TwoTierShape = TwoTierShape { heap_size: 2, layers: 3, elephant_layers: 1, elephant_rows: 2, elephant_cols: 4, mouse_rows: 1, mouse_cols: 2 };

/// A shape by its numbers in the order of the source's `new`.
fn tiers(heap_size: usize, elephant_layers: usize, elephant: (usize, usize), mouse: (usize, usize), layers: usize) -> TwoTierShape {
    let ((elephant_rows, elephant_cols), (mouse_rows, mouse_cols)) = (elephant, mouse);
    TwoTierShape { heap_size, layers, elephant_layers, elephant_rows, elephant_cols, mouse_rows, mouse_cols }
}

/// The four slices of a state, each word a mark.
#[derive(Clone, Debug, PartialEq)]
struct Words(Vec<i64>, Vec<u64>, Vec<u64>, Vec<i64>);

impl Words {
    fn of(shape: TwoTierShape) -> Self {
        let want = shape.lengths().unwrap();
        Words(vec![9; want.counters], vec![9; want.norms], vec![9; want.entries], vec![9; want.counts])
    }

    fn fresh(&mut self, shape: TwoTierShape) -> Result<UnivMonTwoTier<'_>, Refused> {
        State::new(shape, &mut self.0, &mut self.1, &mut self.2, &mut self.3)
    }

    fn lend(&mut self, header: Header<TwoTierShape>) -> UnivMonTwoTier<'_> {
        State::lend(header, &mut self.0, &mut self.1, &mut self.2, &mut self.3).unwrap()
    }
}

/// A record with this column of 4 in both rows of layer 0, the same modulo 2 in the other layers, and signs +.
fn in_tiers(key: u64, bottom: u64, col: u64) -> [u64; 8] {
    let high = 0xC000_0000_0000_0000;
    [key, bottom, high, col + (col << 2), high, col % 2, high, col % 2]
}

#[test]
fn lengths_of_two_tiers() {
    let lengths = |el, layers| {
        let want = tiers(5, el, (3, 7), (2, 4), layers).lengths().unwrap();
        (want.counters, want.norms, want.entries, want.counts, want.record, want.list, want.merge_list, want.text)
    };
    assert_eq!(lengths(0, 4), (4 * 8, 2 * 4 * 2, 80, 20, 10, 8, 80, 0));
    assert_eq!(lengths(1, 4), (21 + 3 * 8, 2 * (3 + 3 * 2), 80, 20, 10, 8, 80, 0));
    assert_eq!(lengths(3, 4), (3 * 21 + 8, 2 * (3 * 3 + 2), 80, 20, 10, 8, 80, 0));
    for el in [4, 5, 19] {
        assert_eq!(lengths(el, 4), (4 * 21, 2 * 4 * 3, 80, 20, 10, 8, 80, 0));
    }
    // the source's default
    let want = tiers(32, 8, (3, 2048), (3, 512), 16).lengths().unwrap();
    assert_eq!((want.counters, want.norms), (8 * 3 * 2048 + 8 * 3 * 512, 2 * 16 * 3));
}

/// Every bound of a shape at both sides, in each tier, in layers that use it and where none does; then their order.
#[test]
fn shapes_of_two_tiers() {
    let far = usize::MAX;
    let good = (1, 1);
    // tables of one tier, and their number
    let tables = [
        ((0, 1), 1), ((1, 0), 1), ((0, 0), 1), ((20, 32), 0), ((20, 33), 3), ((18, 64), 0), ((18, 65), 3), ((9, 4096), 0), ((10, 4096), 3),
        ((20, 1), 0), ((21, 1), 4), ((128, 1), 4), ((129, 1), 3), ((1, 4096), 0), ((1, 4097), 4), ((64, 2), 4), ((65, 2), 3), ((9, 4097), 4), ((10, 4097), 3),
        ((0, far), 1), ((far, 0), 1), ((1, far), 4), ((2, far), 3), ((far, 1), 3), ((far, far), 3),
    ];
    for layers in [1, 2, 19] {
        for el in [0, 1, layers - 1, layers, 19] {
            for (table, number) in tables {
                assert_eq!(tiers(1, el, table, good, layers).check_shape(), number, "{table:?} in the first tier, {el} of {layers} layers");
                assert_eq!(tiers(1, el, good, table, layers).check_shape(), number, "{table:?} in the second tier, {el} of {layers} layers");
            }
        }
    }
    for (heap_size, el, layers, number) in [
        (1, 0, 0, 1), (0, 0, 1, 1), (0, 20, 20, 1), (1, 20, 0, 1), (1024, 19, 19, 0), (1025, 19, 19, 4), (1, 20, 1, 2), (1, 0, 20, 2), (1, 20, 20, 2),
        (1, far, 1, 2), (1, 0, far, 2), (far, 0, 1, 4), (1, 0, 1, 0), (1, 19, 1, 0),
    ] {
        assert_eq!(tiers(heap_size, el, good, good, layers).check_shape(), number, "{heap_size} {el} {layers}");
    }
    // each of 1 to 4 over both tiers before the next: the later number in one tier, the earlier in the other or beside
    let (none, bits, above) = ((0, 1), (20, 33), (21, 1));
    for (a, b, number) in [(bits, none, 1), (above, none, 1), (above, bits, 3), (above, above, 4), (bits, bits, 3), (none, none, 1)] {
        for (first, second) in [(a, b), (b, a)] {
            for el in [0, 1, 2, 3] {
                assert_eq!(tiers(1, el, first, second, 2).check_shape(), number);
                assert_eq!(tiers(1025, el, first, second, 2).check_shape(), number);
                assert_eq!(tiers(0, el, first, second, 2).check_shape(), 1);
            }
            for (el, layers) in [(20, 1), (0, 20)] {
                assert_eq!(tiers(1025, el, first, second, layers).check_shape(), if number == 1 { 1 } else { 2 });
            }
        }
    }
}

#[test]
fn fresh_states_of_two_tiers() {
    for el in 0..6 {
        let shape = TwoTierShape { elephant_layers: el, ..TIERS };
        let mut words = Words::of(shape);
        let header = words.fresh(shape).unwrap().into_header();
        assert_eq!((header.shape, header.weight, header.updates, header.mode, header.lens), (shape, 0, 0, 0, [0; 19]));
        assert!(header.flags[..3].iter().all(|&f| f) && !header.flags[3..].iter().any(|&f| f));
        let Words(a, b, c, d) = &words;
        assert!(a.iter().chain(d).all(|&x| x == 0) && b.iter().chain(c).all(|&x| x == 0));
        // 9 for each length, at both sides; nothing is written
        for (k, by) in (0..4).flat_map(|k| [(k, 1), (k, -1)]) {
            let mut words = Words::of(shape);
            let resized = |n: usize| (n as isize + by) as usize;
            match k {
                0 => words.0.resize(resized(words.0.len()), 9),
                1 => words.1.resize(resized(words.1.len()), 9),
                2 => words.2.resize(resized(words.2.len()), 9),
                _ => words.3.resize(resized(words.3.len()), 9),
            }
            let before = words.clone();
            assert_eq!(words.fresh(shape).unwrap_err(), Refused(9));
            assert_eq!(words, before);
        }
        // 1 to 4 come before the lengths
        let mut none = Words(vec![], vec![], vec![], vec![]);
        assert_eq!(none.fresh(shape).unwrap_err(), Refused(9));
        assert_eq!(none.fresh(TwoTierShape { mouse_cols: 5000, ..shape }).unwrap_err(), Refused(4));
        assert_eq!(none.fresh(TwoTierShape { elephant_cols: 0, ..shape }).unwrap_err(), Refused(1));
    }
}

#[test]
fn updates_of_two_tiers() {
    use Happened::*;
    let mut words = Words::of(TIERS);
    let mut s = words.fresh(TIERS).unwrap();
    let mut list = [9; 7];
    // to layers 0 and 1, of two tiers
    s.update_weighted(&in_tiers(7, 2, 3), 5, &mut list).unwrap();
    assert_eq!(list, [2, 0, 2, 0, 0, 0, 9]);
    assert_eq!(TIERS.told(&list).collect::<Vec<_>>(), [(0, Seated), (1, Seated)]);
    assert_eq!(s.counters(), [0, 0, 0, 5, 0, 0, 0, 5, 0, 5, 0, 0]);
    assert_eq!(s.norms(), [25, 0, 25, 0, 25, 0, 0, 0]);
    assert_eq!((s.header().lens[..3].to_vec(), s.header().updates), (vec![1, 1, 0], 1));
    // column 1 of two is column 1 and 3 of four: in layer 1 both keys meet
    s.update_weighted(&in_tiers(8, 6, 1), 4, &mut list).unwrap();
    assert_eq!(s.counters(), [0, 4, 0, 5, 0, 4, 0, 5, 0, 9, 0, 4]);
    assert_eq!((s.counts(), s.entries()[0], s.entries()[8]), (&[4, 5, 5, 9, 4, 0][..], 8, 7));
    assert_eq!((s.estimate_l1(), s.estimate_cardinality()), (Ok(9.0), Ok(2.0)));
    // L2 is layer 0's
    assert_eq!(s.estimate_l2(), Ok(41f64.sqrt()));
    assert_eq!(s.update_weighted_terminal(&in_tiers(7, 0, 0), 1, &mut list), Err(Refused(6)));
    s.clear().unwrap();
    assert_eq!((s.counters(), s.header().mode, s.header().updates, s.header().shape), (&[0; 12][..], 0, 0, TIERS));
    // terminal: the bottom layer alone, and L2 over all
    s.update_weighted_terminal(&in_tiers(7, 2, 3), 3, &mut list).unwrap();
    assert_eq!(list, [0, 0, 2, 0, 0, 0, 9]);
    s.update_weighted_terminal(&in_tiers(8, 0, 2), 4, &mut list).unwrap();
    assert_eq!(s.counters(), [0, 0, 4, 0, 0, 0, 4, 0, 0, 3, 0, 0]);
    assert_eq!((s.estimate_l2(), s.estimate_g_sum(G::Value, false)), (Ok(5.0), Ok(7.0)));
}

/// Where no layer is of the first tier, L2 reads the other; and the other way round.
#[test]
fn l2_is_of_whichever_tier_layer_0_is() {
    for (el, rows, cols) in [(0, 1, 2), (1, 2, 4), (3, 2, 4), (19, 2, 4)] {
        let shape = TwoTierShape { elephant_layers: el, ..TIERS };
        let mut words = Words::of(shape);
        let mut s = words.fresh(shape).unwrap();
        s.update_weighted(&[7, 0, u64::MAX, 0, 0, 0, 0, 0], 6, &mut [0; 6]).unwrap();
        assert_eq!(s.estimate_l2(), Ok(6.0));
        let header = s.into_header();
        assert_eq!(words.1[..2 * rows].chunks(2).filter(|norm| norm[0] == 36).count(), rows);
        // a norm's range is that of its own layer's columns
        let most = (cols as u128) << 63;
        for (norm, answer) in [(most, None), (most + 1, Some(Refused(9)))] {
            (words.1[0], words.1[1]) = (norm as u64, (norm >> 64) as u64);
            assert_eq!(words.lend(header).estimate_l2().err(), answer);
        }
    }
}

/// The ranges of norms by layer, for an update and for a terminal sum.
#[test]
fn norms_are_bounded_by_their_own_columns() {
    let mut words = Words::of(TIERS);
    let mut s = words.fresh(TIERS).unwrap();
    s.update_weighted_terminal(&in_tiers(7, 6, 0), 1, &mut [0; 6]).unwrap();
    let header = s.into_header();
    for (at, cols) in [(0, 4u128), (1, 4), (2, 2), (3, 2)] {
        let kept = words.clone();
        for (norm, good) in [(cols << 63, true), ((cols << 63) + 1, false)] {
            (words.1[2 * at], words.1[2 * at + 1]) = (norm as u64, (norm >> 64) as u64);
            let mut s = words.lend(header);
            assert_eq!(s.estimate_cardinality().is_ok(), good);
            assert_eq!(s.estimate_l2().is_ok(), good);
            // an update reads its own layer's norms alone
            for (bottom, layer) in [(0, [0, 1].contains(&at)), (2, at == 2), (6, at == 3)] {
                let had = s.header().clone();
                let answer = s.update_weighted_terminal(&in_tiers(7, bottom, 0), 0, &mut [0; 6]);
                assert_eq!(answer, if good || !layer { Ok(()) } else { Err(Refused(9)) }, "norm {at}, bottom hash {bottom}");
                assert!(answer.is_ok() || had == *s.header());
            }
            words = kept.clone();
        }
    }
}

/// 10 where any of the seven dimensions differs, used by a layer or not.
#[test]
fn merges_of_two_tiers() {
    let changes: [fn(&mut TwoTierShape); 7] = [
        |s| s.heap_size += 1,
        |s| s.layers += 1,
        |s| s.elephant_layers += 1,
        |s| s.elephant_rows += 1,
        |s| s.elephant_cols += 1,
        |s| s.mouse_rows += 1,
        |s| s.mouse_cols += 1,
    ];
    for el in [0, 1, 3, 4, 18] {
        let shape = TwoTierShape { elephant_layers: el, ..TIERS };
        let (mut one, mut two) = (Words::of(shape), Words::of(shape));
        let mut a = one.fresh(shape).unwrap();
        let mut list = vec![0; 200];
        a.update_weighted(&in_tiers(1, 2, 0), 2, &mut list).unwrap();
        for change in changes {
            let mut other = shape;
            change(&mut other);
            let mut three = Words::of(other);
            let mut b = three.fresh(other).unwrap();
            assert_eq!(b.merge(&a, &mut list), Err(Refused(10)), "{other:?}");
            assert_eq!(a.merge(&b, &mut list), Err(Refused(10)), "{other:?}");
            // 10 comes before 6
            b.update_weighted_terminal(&vec![0; 2 + 2 * other.layers], 1, &mut list).unwrap();
            assert_eq!(a.merge(&b, &mut list), Err(Refused(10)), "{other:?}");
        }
        let mut b = two.fresh(shape).unwrap();
        b.update_weighted(&in_tiers(2, 6, 1), 3, &mut list).unwrap();
        let mut told = [9; 25];
        assert_eq!(a.merge(&b, &mut told[..23]), Err(Refused(16)));
        assert_eq!((a.header().updates, told), (1, [9; 25]));
        a.merge(&b, &mut told).unwrap();
        assert_eq!(told, [2, 0, 2, 0, 0, 0, 0, 0, 2, 0, 2, 0, 0, 0, 0, 0, 2, 0, 0, 0, 0, 0, 0, 0, 9]);
        assert_eq!(shape.told_by_merge(&told).map(|(layer, _)| layer).collect::<Vec<_>>(), [0, 0, 1, 1, 2]);
        assert_eq!((a.estimate_l1(), a.estimate_cardinality(), a.header().updates), (Ok(5.0), Ok(2.0), 2));
        assert_eq!(b.estimate_l1(), Ok(3.0));
    }
}

/// The refusals of an update and a merge, each before the next.
#[test]
fn order_of_refusals_with_two_tiers() {
    let limit = 1u64 << 52;
    let mut words = Words::of(TIERS);
    let mut s = words.fresh(TIERS).unwrap();
    s.update_weighted(&in_tiers(7, 2, 0), 1, &mut [0; 6]).unwrap();
    let good = s.into_header();
    let mut short = [9; 5];
    let full = Header { weight: limit, updates: limit, ..good };
    // every cell of the key at its bound, and every norm
    let heavy = |words: &mut Words, by: i64| {
        words.0.fill(limit as i64 + by);
        for (norm, cols) in words.1.chunks_mut(2).zip([4u128, 4, 2, 2]) {
            (norm[0], norm[1]) = ((cols << 63) as u64, (cols >> 1) as u64);
        }
    };
    let record = in_tiers(7, 2, 0);
    let update = |by: Option<i64>, header: Header<TwoTierShape>, record: &[u64], weight: i64, list: &mut [u64]| {
        let mut twin = words.clone();
        by.map(|by| heavy(&mut twin, by));
        let before = twin.clone();
        let said = [9; 5];
        let mut s = twin.lend(header);
        let answer = s.update_weighted(record, weight, list).map_or_else(|Refused(n)| n, |()| 0);
        if answer != 0 {
            assert_eq!(*s.header(), header);
            assert_eq!(twin, before);
            assert_eq!(list[..list.len().min(5)], said[..list.len().min(5)]);
        }
        answer
    };
    let odd = Header { mode: 3, ..full };
    let terminal = Header { mode: 2, ..full };
    assert_eq!(update(Some(1), odd, &record[..7], -1, &mut short), 9);
    assert_eq!(update(Some(1), Header { updates: limit + 1, ..good }, &record[..7], -1, &mut short), 9);
    assert_eq!(update(Some(1), terminal, &record[..7], -1, &mut short), 12);
    assert_eq!(update(Some(1), terminal, &record, -1, &mut short), 5);
    assert_eq!(update(Some(1), terminal, &record, 1, &mut short), 6);
    assert_eq!(update(Some(1), full, &record, 1, &mut short), 7);
    assert_eq!(update(Some(1), full, &record, 0, &mut short), 14);
    assert_eq!(update(Some(1), good, &record, 1, &mut short), 9);
    assert_eq!(update(Some(0), good, &record, 1, &mut short), 11);
    assert_eq!(update(Some(0), good, &record, 0, &mut short), 16);
    assert_eq!(update(None, good, &record, 1, &mut short), 16);
    assert_eq!(update(None, good, &record, 1, &mut [9; 6]), 0);
    assert_eq!(update(Some(0), good, &record, 0, &mut [9; 6]), 0);
    // a merge
    let merge = |one: (Option<i64>, Header<TwoTierShape>), two: (Option<i64>, Header<TwoTierShape>), list: usize| {
        let (mut a, mut b) = (words.clone(), words.clone());
        one.0.map(|by| heavy(&mut a, by));
        two.0.map(|by| heavy(&mut b, by));
        let (before, second) = (a.clone(), b.clone());
        let mut list = vec![9; list];
        let other = b.lend(two.1);
        let mut s = a.lend(one.1);
        let answer = s.merge(&other, &mut list).map_or_else(|Refused(n)| n, |()| 0);
        if answer != 0 {
            assert_eq!(*s.header(), one.1);
            assert_eq!(a, before);
            assert!(list.iter().all(|&w| w == 9));
        }
        assert_eq!(b, second);
        answer
    };
    assert_eq!(merge((Some(1), odd), (Some(1), terminal), 23), 9);
    assert_eq!(merge((Some(1), full), (Some(1), odd), 23), 9);
    assert_eq!(merge((Some(1), full), (Some(1), terminal), 23), 6);
    assert_eq!(merge((Some(1), full), (Some(1), full), 23), 7);
    assert_eq!(merge((Some(1), Header { weight: 0, ..full }), (Some(1), full), 23), 14);
    assert_eq!(merge((Some(1), good), (None, good), 23), 9);
    assert_eq!(merge((None, good), (Some(1), good), 23), 9);
    assert_eq!(merge((Some(0), good), (Some(0), good), 23), 11);
    assert_eq!(merge((Some(0), good), (Some(-(1 << 52)), good), 23), 16);
    assert_eq!(merge((None, good), (None, good), 23), 16);
    assert_eq!(merge((None, good), (None, good), 24), 0);
}

/// A state of two tiers that are alike holds what a state of one tier holds, wherever the first tier ends.
#[test]
fn tiers_that_are_alike() {
    for el in 0..=19 {
        let shape = TwoTierShape { elephant_layers: el, elephant_rows: 2, elephant_cols: 4, mouse_rows: 2, mouse_cols: 4, layers: 2, heap_size: 2 };
        assert_eq!(Tiers::lengths(shape).unwrap(), univmon::Lengths { text: 0, ..SHAPE.lengths().unwrap() });
        let mut words = Words::of(shape);
        let mut two = words.fresh(shape).unwrap();
        with(|one| {
            for (key, bottom, weight) in [(1, 0, 5), (2, 2, 4), (3, 0, 9), (1, 0, 1), (4, 2, 7)] {
                let (mut a, mut b) = (list(), list());
                one.update_weighted(&apart(key, bottom, key % 4), weight, &mut a).unwrap();
                two.update_weighted(&apart(key, bottom, key % 4), weight, &mut b).unwrap();
                assert_eq!((a, one.counters(), one.norms()), (b, two.counters(), two.norms()));
                assert_eq!((one.entries(), one.counts()), (two.entries(), two.counts()));
                let (h, i) = (one.header(), two.header());
                assert_eq!((h.weight, h.updates, h.mode, h.lens, h.flags), (i.weight, i.updates, i.mode, i.lens, i.flags));
                assert_eq!((one.estimate_l2(), one.estimate_cardinality()), (two.estimate_l2(), two.estimate_cardinality()));
            }
        });
    }
}
