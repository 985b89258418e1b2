//! The original Rust and this library on the same random calls: `compare [CALLS] [SEED]`, states of one tier (`UnivMon`)
//! and of two (`UnivMonTwoTier`), so many calls of each.
//! After every call the whole states are compared, and at times every answer. What a list says is held against
//! the original's heaps: each key is offered to a copy of them, and its true or false must follow from the list.
//! Where the original panics this library must refuse; where this library refuses something that only it
//! refuses (4, 7, 9, 11, 12, 16), the original is not asked. The sign of a zero is outside the comparison.
use std::panic::{catch_unwind, AssertUnwindSafe};

use asap_sketchlib::octo_delta::{CountSketchCellDelta, UnivMonCellDelta};
use asap_sketchlib::{
    hash128_seeded, hash64_seeded, DataInput, OwnedDataInput, TopKHeap, UnivMon, UnivMonDeltaFidelity, UnivMonTwoTier,
    UNIVMON_BOTTOM_LAYER_SEED_INDEX,
};
use originals::Original;
use random::Random;
use univmon::{Fidelity, Happened, Owned, Refused, Shape, State, Tiers, TwoTierShape, G, MAX_LAYERS};

mod originals;
#[path = "../random.rs"]
mod random;

/// Both sides of one relay.
struct Pair<O: Original> {
    theirs: O,
    ours: Owned<O::Shape>,
}

/// What a type of the original has of its own.
trait Kind: Original {
    fn random(r: &mut Random, wide: bool) -> Self::Shape;

    /// The shape with one of its dimensions changed by one.
    fn changed(r: &mut Random, shape: Self::Shape) -> Self::Shape;

    /// At times a call that only this type has; whether there was one.
    fn own_step(r: &mut Random, p: &mut Pair<Self>, key: u64, words: &[u64], list: &mut [u64], tally: &mut [u64; 17]) -> bool;
}

fn record(key: u64, layers: usize) -> Vec<u64> {
    let input = DataInput::U64(key);
    let mut words = vec![key, hash64_seeded(UNIVMON_BOTTOM_LAYER_SEED_INDEX, &input)];
    for layer in 0..layers {
        let hash = hash128_seeded(layer, &input);
        words.push((hash >> 64) as u64);
        words.push(hash as u64);
    }
    words
}

fn table(r: &mut Random, wide: bool) -> (usize, usize) {
    (1 + r.below(if wide { 10 } else { 6 }), 1 + r.below(if wide { 300 } else { 12 }))
}

/// One more, or less where 19 layers may be the most.
fn by_one(dimension: &mut usize) {
    *dimension = if *dimension == MAX_LAYERS { MAX_LAYERS - 1 } else { *dimension + 1 };
}

fn fresh<O: Kind>(r: &mut Random) -> (O::Shape, Pair<O>) {
    let wide = r.one_in(10);
    let shape = O::random(r, wide);
    (shape, pair(shape))
}

fn pair<O: Original>(shape: O::Shape) -> Pair<O> {
    Pair { theirs: O::fresh(shape), ours: Owned::new(shape).unwrap() }
}

/// Whether both hold the same: weight, mode, flags, counters, norms and candidates in their order.
fn same_state<O: Original>(p: &mut Pair<O>) {
    let u = &p.theirs;
    p.ours.with(|s| {
        let h = s.header();
        assert_eq!(u.weight() as u64, h.weight);
        assert_eq!(u.mode(), h.mode);
        let (layers, size) = (h.shape.layers(), h.shape.heap_size());
        assert_eq!(u.flags(), &h.flags[..layers]);
        let (mut cells, mut norms) = (s.counters(), s.norms().chunks(2));
        for l in 0..layers {
            let sketch = u.sketch(l);
            let (rows, cols) = h.shape.table(l);
            assert_eq!((sketch.rows(), sketch.cols(), sketch.oracle_row_norms().len()), (rows, cols, rows));
            for row in 0..rows {
                let (own, rest) = cells.split_at(cols);
                assert_eq!(sketch.as_storage().row_slice(row), own);
                cells = rest;
            }
            for &norm in sketch.oracle_row_norms() {
                let own = norms.next().unwrap();
                assert_eq!(norm, i128::from(own[1]) << 64 | i128::from(own[0]));
            }
            let heap = u.heap(l).heap();
            assert_eq!(heap.len(), h.lens[l]);
            for (i, item) in heap.iter().enumerate() {
                let at = l * size + i;
                assert_eq!(item.key, OwnedDataInput::U64(s.entries()[4 * at]));
                assert_eq!(item.count, s.counts()[at]);
            }
        }
        assert!(cells.is_empty() && norms.next().is_none());
    });
}

fn same(a: f64, b: Result<f64, Refused>) {
    let b = b.unwrap();
    assert!(a.to_bits() == b.to_bits() || (a == 0.0 && b == 0.0), "{a} {b}");
}

fn same_answers<O: Original>(p: &mut Pair<O>) {
    let u = &p.theirs;
    p.ours.with(|s| {
        same(u.l1(), s.estimate_l1());
        same(u.l2(), s.estimate_l2());
        same(u.cardinality(), s.estimate_cardinality());
        for every in [false, true] {
            for g in [G::One, G::Value, G::Square] {
                same(u.g_sum(g, every), s.estimate_g_sum(g, every));
            }
        }
    });
}

/// What stands in a list before its call.
const MARK: u64 = 99;

/// A list for a call that needs this many words: at times one word short, at times longer.
fn list(r: &mut Random, words: usize) -> Vec<u64> {
    vec![MARK; if r.one_in(30) { words - 1 } else { words + r.below(3) }]
}

fn keys(heap: &TopKHeap) -> Vec<u64> {
    let key = |key: &OwnedDataInput| match key {
        OwnedDataInput::U64(n) => *n,
        _ => panic!("a key of another kind"),
    };
    heap.heap().iter().map(|item| key(&item.key)).collect()
}

/// What the original's heap does with a key, by its candidates before and after; its true or false follows.
fn offered(heap: &mut TopKHeap, key: u64, count: f64) -> Happened {
    let old = keys(heap);
    let kept = heap.update(&DataInput::U64(key), count as i64);
    let new = keys(heap);
    let happened = match old.iter().find(|k| !new.contains(k)) {
        _ if old.contains(&key) => Happened::Rescored,
        _ if !new.contains(&key) => Happened::TurnedAway,
        Some(&gone) => Happened::Displaced(gone),
        None => Happened::Seated,
    };
    assert_eq!(kept, happened.kept_all());
    happened
}

/// Whether the list of an accepted update or delta in these layers says what the original does; `before` is
/// the original before it.
fn same_list<O: Original>(before: &O, after: &O, key: u64, layers: impl Iterator<Item = usize>, shape: O::Shape, list: &[u64]) {
    let estimate = |l: usize| after.sketch(l).estimate(&DataInput::U64(key));
    let want: Vec<_> = layers.map(|l| (l, offered(&mut before.heap(l).clone(), key, estimate(l)))).collect();
    assert_eq!(shape.told(list).collect::<Vec<_>>(), want);
    assert!(list[2 * shape.layers()..].iter().all(|&word| word == MARK));
}

/// The same of a merge: the keys of both in first entry order, offered to an empty heap.
fn same_merge_list<O: Original>(before: &O, second: &O, after: &O, shape: O::Shape, list: &[u64]) {
    let mut want = Vec::new();
    for l in 0..shape.layers() {
        let mut heap = TopKHeap::new(shape.heap_size());
        let mut seen = Vec::new();
        for key in keys(before.heap(l)).into_iter().chain(keys(second.heap(l))) {
            if !seen.contains(&key) {
                seen.push(key);
                want.push((l, offered(&mut heap, key, after.sketch(l).estimate(&DataInput::U64(key)))));
            }
        }
        assert_eq!(keys(&heap), keys(after.heap(l)));
    }
    assert_eq!(shape.told_by_merge(list).collect::<Vec<_>>(), want);
    assert!(list[4 * shape.heap_size() * shape.layers()..].iter().all(|&word| word == MARK));
}

/// Makes the call on both; the original is put back where it panics after a change. Answers the original as
/// it was before an accepted call.
fn both<O: Original>(
    p: &mut Pair<O>,
    tally: &mut [u64; 17],
    theirs: impl FnOnce(&mut O),
    ours: impl FnOnce(&mut State<'_, O::Shape>) -> Result<(), Refused>,
) -> Option<O> {
    let answer = p.ours.with(ours);
    let number = answer.err().map_or(0, |Refused(n)| n);
    tally[number as usize] += 1;
    if [4, 7, 9, 11, 12, 16].contains(&number) {
        return None;
    }
    let before = p.theirs.clone();
    let panicked = catch_unwind(AssertUnwindSafe(|| theirs(&mut p.theirs))).is_err();
    assert_eq!(panicked, number != 0, "refusal {number}");
    if panicked {
        p.theirs = before;
        return None;
    }
    Some(before)
}

impl Kind for UnivMon {
    fn random(r: &mut Random, wide: bool) -> Shape {
        let heap_size = 1 + r.below(if wide { 40 } else { 5 });
        let (rows, cols) = table(r, wide);
        Shape { heap_size, rows, cols, layers: 1 + r.below(if wide { 19 } else { 5 }) }
    }

    fn changed(r: &mut Random, mut shape: Shape) -> Shape {
        let Shape { heap_size, rows, cols, layers } = &mut shape;
        by_one([heap_size, rows, cols, layers][r.below(4)]);
        shape
    }

    fn own_step(r: &mut Random, p: &mut Pair<Self>, key: u64, words: &[u64], list: &mut [u64], tally: &mut [u64; 17]) -> bool {
        let shape = p.ours.header().shape;
        match r.below(40) {
            0 => {
                both(p, tally, |u| u.mark_candidates_incomplete(), |s| s.mark_candidates_incomplete());
            }
            1 => {
                let layer = r.below(shape.layers + 1);
                both(
                    p,
                    tally,
                    |u| u.mark_layer_candidates_incomplete(layer),
                    |s| s.mark_layer_candidates_incomplete(layer),
                );
            }
            2 => {
                let w = r.below(1000) as u64;
                both(p, tally, |u| u.set_total_weight(w as usize), |s| s.set_total_weight(w));
            }
            3..=6 => {
                let far = usize::from(r.one_in(20));
                let (layer, row, col) = (r.below(shape.layers + far), r.below(shape.rows + far), r.below(shape.cols + far));
                let count = if r.one_in(10) { r.next() as i32 } else { r.below(9) as i32 - 4 };
                let promoted = r.one_in(3);
                let delta = UnivMonCellDelta {
                    layer: layer as u32,
                    key: OwnedDataInput::U64(key),
                    cell: CountSketchCellDelta { row: row as u32, col: col as u32, count },
                    worker_id: 0,
                    total_weight: 0,
                };
                let (a, b) = if promoted {
                    (UnivMonDeltaFidelity::PromotedOnly, Fidelity::PromotedOnly)
                } else {
                    (UnivMonDeltaFidelity::EveryInsert, Fidelity::EveryInsert)
                };
                let ours = |s: &mut State<'_>| s.apply_delta(words, layer, row, col, count, b, list);
                if let Some(before) = both(p, tally, |u| u.apply_delta(&delta, a), ours) {
                    same_list(&before, &p.theirs, key, layer..layer + 1, shape, list);
                } else {
                    assert!(list.iter().all(|&word| word == MARK));
                }
            }
            _ => return false,
        }
        true
    }
}

impl Kind for UnivMonTwoTier {
    /// No layer of the first tier, some, all, and more than there are.
    fn random(r: &mut Random, wide: bool) -> TwoTierShape {
        let heap_size = 1 + r.below(if wide { 40 } else { 5 });
        let layers = 1 + r.below(if wide { 19 } else { 5 });
        let elephant_layers = if r.one_in(6) { r.below(20) } else { r.below(layers + 2).min(19) };
        let (elephant_rows, elephant_cols) = table(r, wide);
        let as_wide = wide && r.one_in(2);
        let (mouse_rows, mouse_cols) = table(r, as_wide);
        TwoTierShape { heap_size, layers, elephant_layers, elephant_rows, elephant_cols, mouse_rows, mouse_cols }
    }

    fn changed(r: &mut Random, mut shape: TwoTierShape) -> TwoTierShape {
        let TwoTierShape { heap_size, layers, elephant_layers, elephant_rows, elephant_cols, mouse_rows, mouse_cols } = &mut shape;
        by_one([heap_size, layers, elephant_layers, elephant_rows, elephant_cols, mouse_rows, mouse_cols][r.below(7)]);
        shape
    }

    fn own_step(_: &mut Random, _: &mut Pair<Self>, _: u64, _: &[u64], _: &mut [u64], _: &mut [u64; 17]) -> bool {
        false
    }
}

fn step<O: Kind>(r: &mut Random, p: &mut Pair<O>, other: &mut Pair<O>, keys: usize, tally: &mut [u64; 17]) {
    let shape = p.ours.header().shape;
    let layers = shape.layers();
    let want = Tiers::lengths(shape).unwrap();
    let mut list = list(r, want.list);
    let key = r.below(keys) as u64;
    let words = record(key, layers);
    if O::own_step(r, p, key, &words, &mut list, tally) {
        return;
    }
    let weight = match r.below(60) {
        0 => -1 - r.below(9) as i64,
        1 => 1 << 51,
        2 => r.below(1 << 40) as i64,
        _ => r.below(6) as i64,
    };
    match r.below(40) {
        0 if r.one_in(3) => {
            both(p, tally, |u| u.empty(), |s| s.clear());
        }
        1 | 2 => {
            let (second, lent) = (&other.theirs, &mut other.ours);
            let mut list = self::list(r, want.merge_list);
            if let Some(before) = both(p, tally, |u| u.merge_in(second), |s| lent.with(|t| s.merge(t, &mut list))) {
                same_merge_list(&before, second, &p.theirs, shape, &list);
            } else {
                assert!(list.iter().all(|&word| word == MARK));
            }
        }
        n => {
            let terminal = if n == 39 { r.one_in(2) } else { p.ours.header().mode == 2 };
            let ours = |s: &mut State<'_, O::Shape>| {
                if terminal {
                    s.update_weighted_terminal(&words, weight, &mut list)
                } else {
                    s.update_weighted(&words, weight, &mut list)
                }
            };
            let Some(before) = both(p, tally, |u| u.update(key, weight, terminal), ours) else {
                assert!(list.iter().all(|&word| word == MARK));
                return;
            };
            let bottom = UnivMon::bottom_layer_for_hash(words[1], layers);
            let first = if terminal { bottom } else { 0 };
            same_list(&before, &p.theirs, key, first..bottom + 1, shape, &list);
        }
    }
}

/// A second relay: mostly of the same shape, at times of one that differs in a dimension, one that no layer uses too.
fn second<O: Kind>(r: &mut Random, shape: O::Shape) -> Pair<O> {
    if r.one_in(8) {
        pair(O::changed(r, shape))
    } else {
        pair(shape)
    }
}

fn compare<O: Kind>(name: &str, calls: u64, mut r: Random) {
    let mut tally = [0u64; 17];
    let (mut answers, mut runs, mut made) = (0u64, 0u64, 0u64);
    let report = catch_unwind(AssertUnwindSafe(|| {
        while made < calls {
            runs += 1;
            let (shape, mut p) = fresh::<O>(&mut r);
            let mut other = second(&mut r, shape);
            let keys = 1 + r.below(25);
            if r.one_in(3) {
                // a run in terminal mode
                let words = record(0, shape.layers());
                both(&mut p, &mut tally, |u| u.update(0, 1, true), |s| s.update_weighted_terminal(&words, 1, &mut [0; 2 * MAX_LAYERS]));
            }
            for _ in 0..1 + r.below(200) {
                step(&mut r, &mut p, &mut other, keys, &mut tally);
                made += 1;
                same_state(&mut p);
                if r.one_in(4) {
                    same_answers(&mut p);
                    answers += 9;
                }
                if r.one_in(5) {
                    std::mem::swap(&mut p, &mut other);
                }
            }
        }
    }));
    println!("{name}: {made} calls in {runs} runs, every state compared, {answers} answers; by number: {tally:?}");
    if let Err(why) = report {
        let text = why.downcast_ref::<String>().cloned().unwrap_or_default();
        println!("DIFFERENCE in run {runs}: {text}");
        std::process::exit(1);
    }
}

/// Which dimensions are refused. The original panics at a 0, at more than 19 layers and at the hash bits of a tier that
/// a layer is of; this library refuses these with 1, 2, 3, and others that the original takes: `elephant_layers` above
/// 19, the hash bits of a tier that no layer is of, and all that is 4.
fn same_shapes(tally: &mut [u64; 5]) {
    let sides = [0, 1, 20, 21, 40];
    let mut dims = [0; 7];
    for n in 0..sides.len().pow(7) {
        let mut rest = n;
        for d in &mut dims {
            *d = sides[rest % sides.len()];
            rest /= sides.len();
        }
        let [heap_size, layers, elephant_layers, elephant_rows, elephant_cols, mouse_rows, mouse_cols] = dims;
        let shape = TwoTierShape { heap_size, layers, elephant_layers, elephant_rows, elephant_cols, mouse_rows, mouse_cols };
        let number = shape.lengths().err().map_or(0, |Refused(n)| n);
        tally[number as usize] += 1;
        if n % 7 == 0 {
            let panicked = catch_unwind(|| UnivMonTwoTier::fresh(shape)).is_err();
            let bits = |(rows, cols): (usize, usize)| rows * (1 + cols.next_power_of_two().trailing_zeros() as usize);
            let expected = number == 1 || layers > MAX_LAYERS || (0..layers).any(|l| bits(shape.table(l)) > 128);
            assert_eq!(panicked, expected, "{shape:?}: {number}");
            assert!(!panicked || (1..=3).contains(&number));
        }
    }
}

fn main() {
    let mut args = std::env::args().skip(1);
    let calls: u64 = args.next().map_or(300_000, |a| a.parse().unwrap());
    let seed = args.next().map_or(1, |a| a.parse().unwrap());
    std::panic::set_hook(Box::new(|_| {}));
    compare::<UnivMon>("one tier", calls, Random(seed));
    compare::<UnivMonTwoTier>("two tiers", calls, Random(seed));
    let mut tally = [0; 5];
    if let Err(why) = catch_unwind(AssertUnwindSafe(|| same_shapes(&mut tally))) {
        println!("DIFFERENCE in a shape: {}", why.downcast_ref::<String>().cloned().unwrap_or_default());
        std::process::exit(1);
    }
    println!("{} shapes of two tiers, one in 7 asked of the original too; by number: {tally:?}", tally.iter().sum::<u64>());
    println!("no difference");
}
