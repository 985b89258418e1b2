//! The original Rust and this library on the same stream, in one run: `bench [ROUNDS] [UPDATES] [KEYS]`.
//! In each round every item is run by both, one right after the other, the one that goes first changing
//! from round to round; the ratio of a round is this library's time over the original's.
use std::hint::black_box;

use asap_sketchlib::{
    hash128_seeded, hash64_seeded, DataInput, UnivMon, UnivMonTwoTier, UNIVMON_BOTTOM_LAYER_SEED_INDEX,
};
use originals::Original;
use random::Random;
use univmon::{Owned, Shape, State, Tiers, TwoTierShape, G};

mod originals;
#[path = "../random.rs"]
mod random;

const ROWS: usize = 5;
const COLS: usize = 2048;
const LAYERS: usize = 8;

/// How often L2 is asked in a round.
const L2_TIMES: usize = 20_000;

/// The default dimensions of the original's `UnivMonTwoTier`.
const TWO_TIERS: TwoTierShape = TwoTierShape {
    heap_size: 32,
    layers: 16,
    elephant_layers: 8,
    elephant_rows: 3,
    elephant_cols: 2048,
    mouse_rows: 3,
    mouse_cols: 512,
};

/// Zipf with exponent 1, as the original's own bench draws it.
fn stream(seed: u64, updates: usize, keys: usize) -> Vec<u64> {
    let mut total = 0.0;
    let cumulative: Vec<f64> = (1..=keys)
        .map(|k| {
            total += 1.0 / k as f64;
            total
        })
        .collect();
    let mut random = Random(seed);
    (0..updates)
        .map(|_| {
            let u = (random.next() >> 11) as f64 / (1u64 << 53) as f64 * total;
            (cumulative.partition_point(|&c| c <= u).min(keys - 1) + 1) as u64
        })
        .collect()
}

/// What both are handed for a key, for `N` - 1 layers: the record's words in pairs, key and bottom hash first, and the
/// same hashes as the original has them.
struct Key<const N: usize> {
    words: [[u64; 2]; N],
    hashes: [u128; N],
}

fn key<const N: usize>(n: u64) -> Key<N> {
    let input = DataInput::U64(n);
    let mut words = [[0; 2]; N];
    let mut hashes = [0; N];
    words[0] = [n, hash64_seeded(UNIVMON_BOTTOM_LAYER_SEED_INDEX, &input)];
    for layer in 0..N - 1 {
        hashes[layer] = hash128_seeded(layer, &input);
        words[layer + 1] = [(hashes[layer] >> 64) as u64, hashes[layer] as u64];
    }
    Key { words, hashes }
}

fn shape(heap_size: usize) -> Shape {
    Shape { heap_size, rows: ROWS, cols: COLS, layers: LAYERS }
}

/// The original's update with the record's hashes handed in: its own steps, no hashing of the layers.
fn original_update<O: Original, const N: usize>(u: &mut O, complete: &mut [bool; N], k: &Key<N>, first: bool) {
    u.add_weight(1);
    let [key, hash] = k.words[0];
    let bottom = UnivMon::bottom_layer_for_hash(hash, N - 1);
    let from = if first { 0 } else { bottom };
    let input = DataInput::U64(key);
    for layer in from..=bottom {
        let (sketch, heap) = u.parts(layer);
        sketch.update_weighted_with_hash(k.hashes[layer], 1);
        let count = sketch.estimate_with_hash(k.hashes[layer]) as i64;
        if !heap.update(&input, count) {
            complete[layer] = false;
        }
    }
}

fn ours<S: Tiers, const N: usize>(shape: S, stream: &[u64], keys: &[Key<N>], weight: i64, terminal: bool) -> Owned<S> {
    let mut state = Owned::new(shape).unwrap();
    state.with(|s| run(s, stream, keys, weight, terminal, &mut [[0; 2]; N]));
    state
}

fn run<S: Tiers, const N: usize>(
    s: &mut State<'_, S>,
    stream: &[u64],
    keys: &[Key<N>],
    weight: i64,
    terminal: bool,
    list: &mut [[u64; 2]; N],
) {
    let list = list[1..].as_flattened_mut();
    for &n in stream {
        let words = keys[n as usize].words.as_flattened();
        if terminal {
            s.update_weighted_terminal(words, weight, list).unwrap();
        } else {
            s.update_weighted(words, weight, list).unwrap();
        }
    }
}

/// The original by its own calls, so that its mode and flags are set.
fn theirs<O: Original>(shape: O::Shape, stream: &[u64], weight: i64, terminal: bool) -> O {
    let mut u = O::fresh(shape);
    for &n in stream {
        u.update(n, weight, terminal);
    }
    u
}

/// Seconds that each side takes in one round.
struct Item<'a> {
    name: String,
    per: f64,
    original: Box<dyn FnMut() -> f64 + 'a>,
    this: Box<dyn FnMut() -> f64 + 'a>,
    times: Vec<(f64, f64)>,
}

/// The processor time of this process in seconds: other programs on the machine do not count.
fn clock() -> f64 {
    #[repr(C)]
    struct Timespec(i64, i64);
    extern "C" {
        fn clock_gettime(clock: i32, time: *mut Timespec) -> i32;
    }
    const PROCESS_TIME: i32 = 2;
    let mut time = Timespec(0, 0);
    // SAFETY: the C library that std links; it writes one timespec.
    assert_eq!(unsafe { clock_gettime(PROCESS_TIME, &mut time) }, 0);
    time.0 as f64 + time.1 as f64 * 1e-9
}

fn timed<R>(f: impl FnOnce() -> R) -> f64 {
    let start = clock();
    black_box(f());
    clock() - start
}

fn median(xs: &mut [f64]) -> f64 {
    xs.sort_by(f64::total_cmp);
    xs[xs.len() / 2]
}

/// Both updates in each of these shapes.
fn updates_of<'a, O: Original + 'a, const N: usize>(shapes: &[(String, O::Shape)], stream: &'a [u64], keys: &'a [Key<N>]) -> Vec<Item<'a>>
where
    O::Shape: 'a,
{
    let mut items: Vec<Item> = Vec::new();
    for terminal in [false, true] {
        for (name, shape) in shapes {
            let shape = *shape;
            let kind = if terminal { "terminal update" } else { "update" };
            items.push(Item {
                name: format!("{kind}, {name}, hashes handed in"),
                per: stream.len() as f64,
                original: Box::new(move || {
                    let mut u = O::fresh(shape);
                    let mut complete = [true; N];
                    timed(|| {
                        for &n in stream {
                            original_update(&mut u, &mut complete, &keys[n as usize], !terminal);
                        }
                    })
                }),
                this: Box::new(move || {
                    let mut state = Owned::new(shape).unwrap();
                    let mut list = [[0; 2]; N];
                    timed(|| state.with(|s| run(s, stream, keys, 1, terminal, &mut list)))
                }),
                times: Vec::new(),
            });
        }
    }
    items
}

/// One answer, so many times on each side.
fn answer_of<'a, O: Original + 'a>(
    name: String,
    times: usize,
    (u, f): (O, fn(&O) -> f64),
    (mut o, g): (Owned<O::Shape>, fn(&State<'_, O::Shape>) -> f64),
) -> Item<'a>
where
    O::Shape: 'a,
{
    Item {
        name,
        per: times as f64,
        original: Box::new(move || timed(|| for _ in 0..times { black_box(f(black_box(&u))); })),
        this: Box::new(move || timed(|| o.with(|s| for _ in 0..times { black_box(g(black_box(s))); }))),
        times: Vec::new(),
    }
}

/// L2 of squares whose roots have no digit, few, many, and no end: of each the keys, and the weight that each of them has.
fn squares<'a, const N: usize>(keys: &[Key<N>]) -> [Item<'a>; 4] {
    let squares: [(&str, &[u64], i64); 4] =
        [("0", &[], 1), ("25", &[1], 5), ("(2^26+1)^2", &[1], (1 << 26) + 1), ("2", &[0, 1], 1)];
    squares.map(|(name, stream, weight)| {
        let u: UnivMon = theirs(shape(32), stream, weight, false);
        let mut o = ours(shape(32), stream, keys, weight, false);
        // The median row's square is the named one: two keys share no counter there.
        let root = ((stream.len() as i64 * weight * weight) as f64).sqrt();
        for l2 in [u.l2(), o.with(|s| s.estimate_l2()).unwrap()] {
            assert_eq!(l2.to_bits(), root.to_bits(), "square {name}");
        }
        answer_of(format!("L2, standard, square {name}"), L2_TIMES, (u, Original::l2), (o, |s| s.estimate_l2().unwrap()))
    })
}

/// A merge and the answers, in both modes, in each of these shapes.
fn answers_of<'a, O: Original + 'a, const N: usize>(shapes: &[(String, O::Shape)], [sa, sb]: [&'a [u64]; 2], keys: &'a [Key<N>]) -> Vec<Item<'a>>
where
    O::Shape: 'a,
{
    let mut items: Vec<Item> = Vec::new();
    for terminal in [false, true] {
        for (name, shape) in shapes {
            let kind = if terminal { "terminal" } else { "standard" };
            let (u, v) = (theirs::<O>(*shape, sa, 1, terminal), theirs::<O>(*shape, sb, 1, terminal));
            let (mut o, mut p) = (ours(*shape, sa, keys, 1, terminal), ours(*shape, sb, keys, 1, terminal));
            // Both hold the same, or the times say nothing.
            let same = |a: f64, b: f64| assert_eq!(a.to_bits(), b.to_bits(), "{kind} {name}");
            same(u.l2(), o.with(|s| s.estimate_l2()).unwrap());
            same(u.cardinality(), o.with(|s| s.estimate_cardinality()).unwrap());
            same(u.g_sum(G::Square, false), o.with(|s| s.estimate_g_sum(G::Square, false)).unwrap());
            const MERGES: usize = 5;
            let (u1, v1, o1) = (u.clone(), v.clone(), o.clone());
            let mut list = vec![0; Tiers::lengths(*shape).unwrap().merge_list];
            items.push(Item {
                name: format!("merge, {kind}, {name}"),
                per: MERGES as f64,
                original: Box::new(move || {
                    (0..MERGES)
                        .map(|_| {
                            let mut a = u1.clone();
                            timed(|| a.merge_in(&v1))
                        })
                        .sum()
                }),
                this: Box::new(move || {
                    (0..MERGES)
                        .map(|_| {
                            let mut a = o1.clone();
                            timed(|| a.merge(&mut p, &mut list).unwrap())
                        })
                        .sum()
                }),
                times: Vec::new(),
            });
            let answers: [(&str, usize, fn(&O) -> f64, fn(&State<'_, O::Shape>) -> f64); 4] = [
                ("L2", L2_TIMES, |u| u.l2(), |s| s.estimate_l2().unwrap()),
                ("cardinality", 40, |u| u.cardinality(), |s| s.estimate_cardinality().unwrap()),
                ("g-sum value", 40, |u| u.g_sum(G::Value, false), |s| s.estimate_g_sum(G::Value, false).unwrap()),
                ("g-sum square", 40, |u| u.g_sum(G::Square, false), |s| s.estimate_g_sum(G::Square, false).unwrap()),
            ];
            for (answer, times, f, g) in answers {
                items.push(answer_of(format!("{answer}, {kind}, {name}"), times, (u.clone(), f), (o.clone(), g)));
            }
        }
    }
    items
}

fn main() {
    let mut args = std::env::args().skip(1);
    let rounds: usize = args.next().map_or(15, |a| a.parse().unwrap());
    let updates: usize = args.next().map_or(200_000, |a| a.parse().unwrap());
    let many: usize = args.next().map_or(2_000, |a| a.parse().unwrap());
    let stream_a = stream(42, updates, many);
    let stream_b = stream(43, updates, many);
    let keys: Vec<Key<{ LAYERS + 1 }>> = (0..=many as u64).map(key).collect();
    let more: Vec<Key<{ TWO_TIERS.layers + 1 }>> = (0..=many as u64).map(key).collect();
    let streams = [&stream_a[..], &stream_b[..]];
    println!("{updates} updates, {many} keys by Zipf, {ROWS} x {COLS}, {LAYERS} layers, {rounds} rounds");
    let TwoTierShape { layers, elephant_layers, elephant_rows, elephant_cols, mouse_rows, mouse_cols, .. } = TWO_TIERS;
    println!("two tiers: {elephant_layers} layers of {elephant_rows} x {elephant_cols} and {mouse_rows} x {mouse_cols} up to {layers} layers");

    let shapes = [(String::from("heap 32"), shape(32)), (String::from("heap 1024"), shape(1024))];
    let tiers = [(String::from("two tiers"), TWO_TIERS)];
    let mut items = updates_of::<UnivMon, _>(&shapes, streams[0], &keys);
    items.extend(updates_of::<UnivMonTwoTier, _>(&tiers, streams[0], &more));
    items.extend(answers_of::<UnivMon, _>(&shapes, streams, &keys));
    items.extend(answers_of::<UnivMonTwoTier, _>(&tiers, streams, &more));
    items.extend(squares(&keys));
    for round in 0..rounds {
        for item in &mut items {
            let (a, b) = if round % 2 == 0 {
                let a = (item.original)();
                (a, (item.this)())
            } else {
                let b = (item.this)();
                ((item.original)(), b)
            };
            item.times.push((a, b));
        }
    }
    println!("| item | original ns | this ns | ratio | least to greatest |");
    println!("|---|---|---|---|---|");
    for item in &items {
        let ns = |f: fn(&(f64, f64)) -> f64| median(&mut item.times.iter().map(f).collect::<Vec<_>>()) / item.per * 1e9;
        let mut ratios: Vec<f64> = item.times.iter().map(|(a, b)| b / a).collect();
        let middle = median(&mut ratios);
        println!(
            "| {} | {:.0} | {:.0} | {:.2} | {:.2} to {:.2} |",
            item.name, ns(|t| t.0), ns(|t| t.1), middle, ratios[0], ratios[rounds - 1]
        );
    }
}
