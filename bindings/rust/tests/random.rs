//! Random calls with wrong lengths, damaged states and extreme numbers: none faults, a refused one
//! leaves everything as it was, its list too, and what is answered keeps the header's own rules. What a list
//! says is what the candidates before and after the call say. States of one tier and of two go through the same test;
//! and a state of two tiers that are alike is held against one of one tier, call by call.
//! RANDOM_CALLS sets how many calls are made (default 400000), RANDOM_SEED where they start.
use random::Random;
use univmon::ffi::*;
use univmon::{Answer, Answered, Happened, Header, Shape, Step, Tiers, TwoTierShape, MAX_LAYERS};

#[path = "../../random.rs"]
mod random;

impl Random {
    /// Below the first number, at times below the second.
    fn mostly(&mut self, n: usize, m: usize) -> usize {
        let most = if self.one_in(8) { m } else { n };
        self.below(most)
    }

    /// A number near an edge of some range, or any.
    fn extreme(&mut self) -> u64 {
        const EDGES: [u64; 12] = [
            0,
            1,
            2,
            3,
            19,
            20,
            1 << 52,
            1 << 53,
            1 << 63,
            u64::MAX,
            u64::MAX / 8,
            3_037_000_500,
        ];
        match self.below(3) {
            0 => self.next(),
            1 => EDGES[self.below(EDGES.len())],
            _ => EDGES[self.below(EDGES.len())].wrapping_add(self.below(5) as u64).wrapping_sub(2),
        }
    }
}

#[derive(Clone, PartialEq, Debug)]
struct Lent<S> {
    header: Header<S>,
    counters: Vec<i64>,
    norms: Vec<u64>,
    entries: Vec<u64>,
    counts: Vec<i64>,
}

const LIMIT: u64 = 1 << 52;

impl<S: Tiers> Lent<S> {
    fn slices(&mut self) -> Slices {
        let (a, b, c, d) = (&mut self.counters, &mut self.norms, &mut self.entries, &mut self.counts);
        Slices(a.as_mut_ptr(), a.len(), b.as_mut_ptr(), b.len(), c.as_mut_ptr(), c.len(), d.as_mut_ptr(), d.len())
    }

    /// The state check, written out once more: what every accepted call keeps.
    fn passes(&self) -> bool {
        let h = &self.header;
        let Ok(want) = Tiers::lengths(h.shape) else { return false };
        let have = [self.counters.len(), self.norms.len(), self.entries.len(), self.counts.len()];
        let (size, layers) = (h.shape.heap_size(), h.shape.layers());
        let in_layers = |l: usize| h.lens[l] <= if l < layers { size } else { 0 } && (l < layers || !h.flags[l]);
        let small = |n: &i64| n.unsigned_abs() <= LIMIT;
        let square = |n: &i64| (u128::from(n.unsigned_abs()) * u128::from(n.unsigned_abs())).min(1 << 63);
        if have != [want.counters, want.norms, want.entries, want.counts]
            || h.mode > 2
            || h.weight.max(h.updates) > LIMIT
            || !(0..MAX_LAYERS).all(in_layers)
            || !self.counters.iter().all(small)
        {
            return false;
        }
        let (mut cells, mut norms) = (&self.counters[..], self.norms.chunks(2));
        for l in 0..layers {
            let (rows, cols) = h.shape.table(l);
            for _ in 0..rows {
                let (row, rest) = cells.split_at(cols);
                let norm = norms.next().unwrap();
                if u128::from(norm[0]) | u128::from(norm[1]) << 64 != row.iter().map(square).sum() {
                    return false;
                }
                cells = rest;
            }
            let counts = &self.counts[l * size..(l + 1) * size];
            let (used, unused) = counts.split_at(h.lens[l]);
            let ordered = |i: usize| used[i] >= used[i.saturating_sub(1) / 2];
            let blank = &self.entries[4 * (l * size + used.len())..4 * (l + 1) * size];
            if !used.iter().all(small) || !(0..used.len()).all(ordered) || unused.iter().any(|&n| n != 0) || blank.iter().any(|&n| n != 0) {
                return false;
            }
        }
        true
    }

    /// The keys of a layer's candidates.
    fn keys(&self, layer: usize) -> Vec<u64> {
        let at = layer * self.header.shape.heap_size();
        (at..at + self.header.lens[layer]).map(|i| self.entries[4 * i]).collect()
    }
}

/// What stands in a list before its call.
const MARK: u64 = u64::MAX - 5;

/// A list for a call that needs this many words: at times too short, at times longer.
fn list(r: &mut Random, words: usize) -> Vec<u64> {
    let words = words.min(1 << 13);
    let length = match r.below(12) {
        0 => words.saturating_sub(1),
        1 => r.below(words + 1),
        2 => words + 1 + r.below(5),
        _ => words,
    };
    vec![MARK; length]
}

/// A call's list after it, and how many of its words are places: 0 for a call without one.
struct Said {
    list: Vec<u64>,
    words: usize,
    /// The key of an update or a delta, if its record has one; a merge has many.
    key: Option<u64>,
}

const NOTHING: Said = Said { list: Vec::new(), words: 0, key: None };

/// Whether a place of an update or a delta says what a layer's candidates before and after it say.
fn judge_place(old: &[u64], new: &[u64], key: u64, place: [u64; 2]) {
    let came = !old.contains(&key) && new.contains(&key);
    match Happened::of(place) {
        None => assert!(place == [0, 0] && old == new),
        Some(Happened::Rescored) => assert!(old.contains(&key) && old.len() == new.len() && old.iter().all(|k| new.contains(k))),
        Some(Happened::Seated) => assert!(came && new.len() == old.len() + 1),
        Some(Happened::Displaced(gone)) => assert!(came && new.len() == old.len() && old[0] == gone),
        Some(Happened::TurnedAway) => assert!(old == new && !old.contains(&key)),
    }
    assert!(place[1] == 0 || place[0] == 3);
}

/// Whether a layer's places of a merge say who was in after each key, and at the end who is in.
fn judge_places(size: usize, offered: impl Iterator<Item = u64>, mut new: Vec<u64>, places: &[u64]) {
    let (mut keys, mut inside) = (Vec::new(), Vec::new());
    for key in offered {
        if !keys.contains(&key) {
            keys.push(key);
        }
    }
    for (i, place) in places.chunks(2).enumerate() {
        let happened = Happened::of([place[0], place[1]]);
        assert!(happened.is_some() == (i < keys.len()) && (place[1] == 0 || place[0] == 3));
        match happened {
            None => assert_eq!(place, [0, 0]),
            Some(Happened::Rescored) => panic!("a merge offers each key once"),
            Some(Happened::Seated) => assert!(inside.len() < size),
            Some(Happened::TurnedAway) => assert_eq!(inside.len(), size),
            Some(Happened::Displaced(gone)) => {
                assert_eq!(inside.len(), size);
                inside.swap_remove(inside.iter().position(|&key| key == gone).unwrap());
            }
        }
        if matches!(happened, Some(Happened::Seated | Happened::Displaced(_))) {
            inside.push(keys[i]);
        }
    }
    new.sort();
    inside.sort();
    assert_eq!(inside, new);
}

/// Whether a list says what the candidates say, and holds what it held wherever it says nothing. `told` counts
/// what was said, by updates and deltas, and by merges.
fn judge_list<S: Tiers>(before: &Lent<S>, other: &Lent<S>, after: &Lent<S>, refusal: u64, said: &Said, told: &mut [[u64; 5]; 2]) {
    let Said { list, words, key } = said;
    let words = if refusal == 0 { *words } else { 0 };
    assert!(list[words..].iter().all(|&w| w == MARK), "words that are no place's changed");
    if words == 0 {
        return;
    }
    for place in list[..words].chunks(2) {
        told[usize::from(key.is_none())][place[0] as usize] += 1;
    }
    let size = after.header.shape.heap_size();
    for (layer, places) in list[..words].chunks(words / after.header.shape.layers()).enumerate() {
        let (old, new) = (before.keys(layer), after.keys(layer));
        match *key {
            Some(key) => judge_place(&old, &new, key, [places[0], places[1]]),
            None => judge_places(size, old.into_iter().chain(other.keys(layer)), new, places),
        }
    }
}

/// What a kind of shape has of its own.
trait Kind: Tiers {
    /// Which numbers its calls can answer, all of which a long run meets.
    const NUMBERS: &'static [usize];
    const NONE: Self;

    fn random(r: &mut Random) -> Self;

    /// One of its dimensions set.
    fn damage(&mut self, r: &mut Random, n: usize);

    /// A change that only this kind has: what it answers, the number of updates that it leaves if it is accepted,
    /// and its list.
    fn own_change(r: &mut Random, s: &mut Lent<Self>, words: &[u64]) -> Option<(Answered<Self>, u64, Said)>;

    /// A call that only this kind has and that is judged here; whether there was one.
    fn own_call(r: &mut Random, s: &mut Lent<Self>, other: &mut Lent<Self>, kinds: &mut [u64; 17]) -> bool;

    /// Whether the library's check, if it has one for this kind, says this of a state.
    fn checked(s: &mut Lent<Self>, passes: bool) -> bool;
}

fn table(r: &mut Random) -> (usize, usize) {
    (1 + r.mostly(5, 14), 1 + r.mostly(9, 130))
}

impl Kind for Shape {
    const NUMBERS: &'static [usize] = &[0, 5, 6, 7, 8, 9, 10, 11, 12, 14, 15, 16];
    const NONE: Self = Shape { heap_size: 0, rows: 0, cols: 0, layers: 0 };

    fn random(r: &mut Random) -> Self {
        let layers = 1 + r.mostly(4, 19);
        let (rows, cols) = table(r);
        Shape { heap_size: 1 + r.mostly(5, 40), rows, cols, layers }
    }

    fn damage(&mut self, r: &mut Random, n: usize) {
        *[&mut self.heap_size, &mut self.rows, &mut self.cols, &mut self.layers][r.below(4)] = n;
    }

    fn own_change(r: &mut Random, s: &mut Lent<Self>, words: &[u64]) -> Option<(Answered, u64, Said)> {
        let h = s.header;
        let updates = h.updates;
        // SAFETY: every pointer and length is a vector's own, and no two vectors overlap.
        unsafe {
            match r.below(8) {
                0 => Some((univmon_set_total_weight(h, if r.one_in(2) { r.extreme() } else { 5 }), updates, NOTHING)),
                1 => Some((univmon_mark_candidates_incomplete(h), updates, NOTHING)),
                2 => Some((univmon_mark_layer_candidates_incomplete(h, r.extreme() as usize), updates, NOTHING)),
                3..=6 => {
                    let far = r.one_in(6);
                    let places = h.shape.layers.saturating_mul(2);
                    let mut list = list(r, places);
                    let mut index = |n: usize| if far { r.extreme() as usize } else { r.below(n.clamp(1, 99)) };
                    let (layer, row, col) = (index(h.shape.layers), index(h.shape.rows), index(h.shape.cols));
                    let count = r.extreme() as i32;
                    let fidelity = if r.one_in(10) { r.extreme() } else { r.below(2) as u64 };
                    let Slices(a, b, c, d, e, f, g, i) = s.slices();
                    let (p, q) = (list.as_mut_ptr(), list.len());
                    let answered = univmon_apply_delta(h, a, b, c, d, e, f, g, i, words.as_ptr(), words.len(), layer, row, col, count, fidelity, p, q);
                    Some((answered, updates, Said { list, words: places, key: words.first().copied() }))
                }
                _ => None,
            }
        }
    }

    fn own_call(r: &mut Random, s: &mut Lent<Self>, other: &mut Lent<Self>, kinds: &mut [u64; 17]) -> bool {
        match r.below(40) {
            0 | 1 => carry(r, s, other, kinds),
            2 | 3 => {
                let before = s.clone();
                let Slices(a, b, c, d, e, f, g, i) = s.slices();
                // SAFETY: as in `own_change`.
                let p = unsafe { univmon_panel_answer(s.header, a, b, c, d, e, f, g, i) };
                for value in [p.l1, p.l2, p.cardinality] {
                    judge_float(Answer { refusal: p.refusal, value }, kinds);
                }
                assert_eq!(&before, s, "an answer changes nothing");
            }
            _ => return false,
        }
        true
    }

    fn checked(s: &mut Lent<Self>, passes: bool) -> bool {
        let Slices(a, b, c, d, e, f, g, i) = s.slices();
        // SAFETY: as in `own_change`.
        passes == unsafe { univmon_check_state(s.header, a, b, c, d, e, f, g, i) }
    }
}

impl Kind for TwoTierShape {
    const NUMBERS: &'static [usize] = &[0, 5, 6, 7, 9, 10, 11, 12, 14, 16];
    const NONE: Self = TwoTierShape { heap_size: 0, layers: 0, elephant_layers: 0, elephant_rows: 0, elephant_cols: 0, mouse_rows: 0, mouse_cols: 0 };

    fn random(r: &mut Random) -> Self {
        let layers = 1 + r.mostly(4, 19);
        let ((elephant_rows, elephant_cols), (mouse_rows, mouse_cols)) = (table(r), table(r));
        // none, some, all of the layers, and more than there are
        let elephant_layers = if r.one_in(5) { r.below(20) } else { r.below(layers + 2).min(19) };
        TwoTierShape { heap_size: 1 + r.mostly(5, 40), layers, elephant_layers, elephant_rows, elephant_cols, mouse_rows, mouse_cols }
    }

    fn damage(&mut self, r: &mut Random, n: usize) {
        let TwoTierShape { heap_size, layers, elephant_layers, elephant_rows, elephant_cols, mouse_rows, mouse_cols } = self;
        *[heap_size, layers, elephant_layers, elephant_rows, elephant_cols, mouse_rows, mouse_cols][r.below(7)] = n;
    }

    fn own_change(_: &mut Random, _: &mut Lent<Self>, _: &[u64]) -> Option<(Answered<Self>, u64, Said)> {
        None
    }

    fn own_call(_: &mut Random, _: &mut Lent<Self>, _: &mut Lent<Self>, _: &mut [u64; 17]) -> bool {
        false
    }

    fn checked(_: &mut Lent<Self>, _: bool) -> bool {
        true
    }
}

/// A fresh state of a shape that is accepted.
fn made<S: Kind>(shape: S) -> Lent<S> {
    let want = Tiers::lengths(shape).unwrap();
    let mut s = Lent {
        header: Header { shape: S::NONE, weight: 0, updates: 0, mode: 0, lens: [0; MAX_LAYERS], flags: [false; MAX_LAYERS] },
        counters: vec![7; want.counters],
        norms: vec![7; want.norms],
        entries: vec![7; want.entries],
        counts: vec![7; want.counts],
    };
    // SAFETY: as in `change`.
    let made = unsafe { shape.new(s.slices()) };
    assert_eq!((made.refusal, made.header.shape), (0, shape));
    assert!(s.counters.iter().all(|&x| x == 0) && s.norms.iter().all(|&x| x == 0));
    assert!(s.entries.iter().all(|&x| x == 0) && s.counts.iter().all(|&x| x == 0));
    s.header = made.header;
    s
}

/// A fresh state; before that, at times, the same slices lent for dimensions of which one is another.
fn fresh<S: Kind>(r: &mut Random) -> Lent<S> {
    let shape = S::random(r);
    let mut s = made(shape);
    let mut other = shape;
    let n = if r.one_in(2) { r.extreme() as usize } else { r.below(22) };
    other.damage(r, n);
    s.counters.fill(7);
    let before = s.clone();
    // SAFETY: as in `change`.
    let a = unsafe { other.new(s.slices()) };
    let fits = Tiers::lengths(other).is_ok_and(|want| [want.counters, want.norms, want.entries, want.counts] == [s.counters.len(), s.norms.len(), s.entries.len(), s.counts.len()]);
    if fits {
        assert_eq!((a.refusal, a.header.shape), (0, other));
    } else {
        let number = other.check_shape();
        assert_eq!(a.refusal, if number == 0 { 9 } else { number });
        assert_eq!(a.header, Header { shape: S::NONE, weight: 0, updates: 0, mode: 0, lens: [0; MAX_LAYERS], flags: [false; MAX_LAYERS] });
        assert_eq!(before, s, "a refused call changes nothing");
    }
    made(shape)
}

fn record(r: &mut Random, layers: usize) -> Vec<u64> {
    let key = r.below(12) as u64;
    let mut hash = Random(key);
    let mut words: Vec<u64> = (0..2 + 2 * layers.min(40)).map(|_| hash.next()).collect();
    words[0] = key;
    match r.below(40) {
        0 => words.push(1),
        1 => {
            words.pop();
        }
        2 => words.clear(),
        3 => {
            let i = r.below(words.len());
            words[i] = r.extreme();
        }
        _ => {}
    }
    words
}

fn damage_words(r: &mut Random, xs: &mut Vec<u64>) {
    if xs.is_empty() || r.one_in(6) {
        xs.push(r.extreme());
    } else if r.one_in(6) {
        xs.pop();
    } else {
        let i = r.below(xs.len());
        xs[i] = r.extreme();
    }
}

fn damage_counts(r: &mut Random, xs: &mut Vec<i64>) {
    let mut words: Vec<u64> = xs.iter().map(|&x| x as u64).collect();
    damage_words(r, &mut words);
    *xs = words.iter().map(|&x| x as i64).collect();
}

fn damage<S: Kind>(r: &mut Random, s: &mut Lent<S>) {
    let n = r.extreme();
    match r.below(14) {
        0..=3 => s.header.shape.damage(r, n as usize),
        _ => damage_rest(r, s),
    }
}

/// What is damaged beside the dimensions.
fn damage_rest<S: Tiers>(r: &mut Random, s: &mut Lent<S>) {
    let n = r.extreme();
    let l = r.below(MAX_LAYERS);
    match r.below(11) {
        0 => s.header.weight = n,
        1 => s.header.mode = n,
        2 => s.header.lens[l] = n as usize,
        3 => s.header.flags[l] = !s.header.flags[l],
        4 => damage_counts(r, &mut s.counters),
        5 => damage_words(r, &mut s.norms),
        6 => damage_words(r, &mut s.entries),
        7 => damage_counts(r, &mut s.counts),
        8 => s.header.updates = n,
        9 => to_the_edge(s),
        _ => s.header.mode = r.below(4) as u64,
    }
}

/// Every counter at its bound, and every norm.
fn to_the_edge<S: Tiers>(s: &mut Lent<S>) {
    let shape = s.header.shape;
    if !Tiers::lengths(shape).is_ok_and(|want| want.norms == s.norms.len()) {
        return;
    }
    s.counters.fill(LIMIT as i64);
    let cols = (0..shape.layers()).map(|l| shape.table(l)).flat_map(|(rows, cols)| std::iter::repeat(cols as u128).take(rows));
    for (norm, cols) in s.norms.chunks_mut(2).zip(cols) {
        (norm[0], norm[1]) = ((cols << 63) as u64, (cols >> 1) as u64);
    }
}

/// The rules that hold of whatever a call left; `updates` is the number that an accepted one has.
fn judge<S: Tiers>(before: &Lent<S>, after: &mut Lent<S>, a: Answered<S>, updates: u64, kinds: &mut [u64; 17]) {
    kinds[a.refusal as usize] += 1;
    assert!(matches!(a.refusal, 0..=12 | 14 | 16), "refusal {}", a.refusal);
    after.header = a.header;
    if a.refusal != 0 {
        assert_eq!(before, after, "refusal {} changed something", a.refusal);
    } else {
        let h = &after.header;
        assert!(h.mode <= 2 && h.weight <= LIMIT && h.updates <= LIMIT);
        assert_eq!(h.updates, updates);
        assert!(h.lens.iter().all(|&n| n <= h.shape.heap_size()));
        assert_eq!(before.header.shape, h.shape);
    }
}

fn judge_float(a: Answer, kinds: &mut [u64; 17]) {
    kinds[a.refusal as usize] += 1;
    if a.refusal != 0 {
        assert_eq!((a.refusal, a.value.to_bits()), (9, 0));
    } else {
        assert!(a.value.is_finite());
    }
}

/// An update on lent lengths and flags, at times on too few of them: it leaves what the update by value
/// leaves, or refuses with 9.
fn lent_update<S: Tiers>(r: &mut Random, s: &mut Lent<S>, terminal: bool, words: &[u64], weight: i64, list: &mut [u64]) -> Answered<S> {
    let h = s.header;
    let mut twin = s.clone();
    let mut twins_list = list.to_vec();
    let (mut lens, mut flags) = (h.lens, h.flags);
    let short = r.one_in(20);
    let (n, m) = if short { (r.below(MAX_LAYERS), r.below(MAX_LAYERS + 1)) } else { (MAX_LAYERS, MAX_LAYERS) };
    let lent = if terminal { S::update_weighted_terminal_lent } else { S::update_weighted_lent };
    let held = if terminal { S::update_weighted_terminal } else { S::update_weighted };
    // SAFETY: as in `change`.
    let Step { refusal, weight: total, updates, mode } =
        unsafe { lent(h.shape, h.weight, h.updates, h.mode, &mut lens[..n], &mut flags[..m], s.slices(), words, weight, list) };
    let after = Header { weight: total, updates, mode, lens, flags, ..h };
    if short {
        assert_eq!((refusal, after), (9, h), "too few lengths or flags");
    } else {
        // SAFETY: as in `change`.
        let by_value = unsafe { held(h, twin.slices(), words, weight, &mut twins_list) };
        twin.header = s.header;
        assert_eq!((by_value.refusal, by_value.header), (refusal, after), "lent and by value differ");
        assert_eq!(&twin, s, "lent and by value differ in the slices");
        assert_eq!(twins_list, list, "lent and by value differ in the list");
    }
    Answered { refusal, header: after }
}

/// Some call, the number of updates that it leaves if it is accepted, and its list.
fn change<S: Kind>(r: &mut Random, s: &mut Lent<S>, other: &mut Lent<S>) -> (Answered<S>, u64, Said) {
    let h = s.header;
    let words = record(r, h.shape.layers());
    let weight = if r.one_in(20) { r.extreme() as i64 } else { r.below(9) as i64 };
    let terminal = if r.one_in(10) { r.one_in(2) } else { h.mode == 2 };
    let one_more = h.updates.wrapping_add(1);
    let places = h.shape.layers().saturating_mul(2);
    let mut list = list(r, places);
    // SAFETY: every pointer and length is a vector's own, and no two vectors overlap.
    let answered = unsafe {
        match r.below(24) {
            0 => return (S::clear(h, s.slices()), 0, NOTHING),
            1 | 2 => {
                let sum = h.updates.wrapping_add(other.header.updates);
                let places = places.saturating_mul(h.shape.heap_size()).saturating_mul(2);
                let mut list = self::list(r, places);
                let answered = S::merge(h, s.slices(), other.header, other.slices(), &mut list);
                return (answered, sum, Said { list, words: places, key: None });
            }
            n @ 3..=13 => match S::own_change(r, s, &words) {
                Some(done) => return done,
                None if n < 10 => lent_update(r, s, terminal, &words, weight, &mut list),
                None if terminal => S::update_weighted_terminal(h, s.slices(), &words, weight, &mut list),
                None => S::update_weighted(h, s.slices(), &words, weight, &mut list),
            },
            14..=18 => lent_update(r, s, terminal, &words, weight, &mut list),
            _ if terminal => S::update_weighted_terminal(h, s.slices(), &words, weight, &mut list),
            _ => S::update_weighted(h, s.slices(), &words, weight, &mut list),
        }
    };
    (answered, one_more, Said { list, words: places, key: words.first().copied() })
}

fn ask<S: Kind>(r: &mut Random, s: &mut Lent<S>, kinds: &mut [u64; 17]) {
    let h = s.header;
    let before = s.clone();
    // SAFETY: as in `change`.
    let answer = unsafe {
        match r.below(4) {
            0 => S::estimate_l1(h),
            1 => S::estimate_l2(h, &s.norms),
            2 => S::estimate_cardinality(h, s.slices()),
            _ => {
                let choice = if r.one_in(8) { r.extreme() } else { r.below(3) as u64 };
                S::estimate_g_sum(h, s.slices(), choice, r.one_in(2))
            }
        }
    };
    judge_float(answer, kinds);
    assert_eq!(&before, s, "an answer changes nothing");
}

/// Whether a state passes the check; where the library has one for its kind, both say the same.
fn sound<S: Kind>(s: &mut Lent<S>) -> bool {
    let passes = s.passes();
    assert!(S::checked(s, passes), "the library's check does not say {passes}");
    passes
}

/// The other state's text, at times in too short a space or with a byte changed, read into this one's slices.
fn carry(r: &mut Random, s: &mut Lent<Shape>, other: &mut Lent<Shape>, kinds: &mut [u64; 17]) {
    let was = sound(other);
    let source = other.clone();
    let mut out = vec![0xAA; if r.one_in(4) { r.below(200) } else { 1 << 16 }];
    let Slices(a, b, c, d, e, f, g, i) = other.slices();
    // SAFETY: as in `change`; the space is a vector of its own.
    let w = unsafe { univmon_write_state(other.header, a, b, c, d, e, f, g, i, out.as_mut_ptr(), out.len()) };
    assert_eq!(&source, other, "a writing changes nothing");
    kinds[w.refusal as usize] += 1;
    assert_eq!(w.refusal == 9, !was, "the writer and the check differ");
    assert!(out[w.bytes..].iter().all(|&b| b == 0xAA), "bytes past the text changed");
    if w.refusal != 0 {
        assert!(w.bytes == 0 && matches!(w.refusal, 9 | 16));
        return;
    }
    let mut text = out[..w.bytes].to_vec();
    let broken = r.one_in(3);
    if broken {
        let at = r.below(text.len());
        text[at] ^= 1 << r.below(8);
    }
    let before = s.clone();
    let Slices(a, b, c, d, e, f, g, i) = s.slices();
    // SAFETY: as in `change`.
    let read = unsafe { univmon_read_state(text.as_ptr(), text.len(), a, b, c, d, e, f, g, i) };
    kinds[read.refusal as usize] += 1;
    if read.refusal != 0 {
        assert!(matches!(read.refusal, 1..=4 | 15 | 16), "refusal {}", read.refusal);
        assert_eq!(&before, s, "a refused reading changed something");
        assert!(broken || read.refusal == 16);
        assert_eq!(read.header, Header { shape: Shape::NONE, lens: [0; MAX_LAYERS], flags: [false; MAX_LAYERS], weight: 0, updates: 0, mode: 0 });
        return;
    }
    s.header = read.header;
    assert!(sound(s), "what was read does not pass the check");
    assert!(broken || s == other, "a state is not restored");
}

fn number(name: &str, or: u64) -> u64 {
    std::env::var(name).map_or(or, |v| v.parse().unwrap())
}

fn random_calls_of<S: Kind>() {
    let calls = number("RANDOM_CALLS", 400_000);
    let mut r = Random(number("RANDOM_SEED", 1));
    let mut kinds = [0u64; 17];
    let (mut passed, mut short) = (0, 0);
    let mut told = [[0u64; 5]; 2];
    let mut s = fresh::<S>(&mut r);
    let mut other = s.clone();
    for n in 0..calls {
        if r.one_in(150) {
            s = fresh(&mut r);
            other = s.clone();
        }
        if r.one_in(100) {
            other = if r.one_in(4) { fresh(&mut r) } else { s.clone() };
        }
        // damaged for one call, and sometimes for good
        let kept = s.clone();
        let damaged = r.one_in(5);
        if damaged {
            for _ in 0..1 + r.below(3) {
                damage(&mut r, &mut s);
            }
        }
        if r.one_in(50) {
            damage(&mut r, &mut other);
        }
        if S::own_call(&mut r, &mut s, &mut other, &mut kinds) {
        } else if r.one_in(4) {
            ask(&mut r, &mut s, &mut kinds);
        } else {
            let before = s.clone();
            let (was, others) = (sound(&mut s), sound(&mut other));
            let (a, updates, said) = change(&mut r, &mut s, &mut other);
            judge(&before, &mut s, a, updates, &mut kinds);
            if was && others || a.refusal != 0 {
                judge_list(&before, &other, &s, a.refusal, &said, &mut told);
                short += (a.refusal == 16) as u64;
            }
            assert!(!was || !others || sound(&mut s), "a call on states that pass the check leaves one that does not");
            passed += was as u64;
        }
        if damaged && !r.one_in(400) {
            s = kept;
        }
        if n % 64 == 0 {
            let bottom = unsafe { univmon_bottom_layer_for_hash(r.next(), r.extreme() as usize) };
            assert!(bottom.refusal <= 2 && bottom.layer < MAX_LAYERS);
            let mut any = S::random(&mut r);
            for _ in 0..r.below(9) {
                let n = r.extreme() as usize;
                any.damage(&mut r, n);
            }
            assert!(any.check_shape() <= 4);
        }
    }
    println!("{calls} calls; answered by number: {kinds:?}; {passed} on states that pass the check");
    println!("places of updates and deltas, and of merges, by number: {told:?}; {short} lists too short");
    if calls >= 100_000 {
        assert!(told[0].iter().all(|&n| n > 0) && [2, 3, 4].iter().all(|&n| told[1][n] > 0) && told[1][1] == 0 && short > 0);
        assert!(passed > calls / 10 && passed < calls, "the check says always the same");
        for &refusal in S::NUMBERS {
            assert!(kinds[refusal] > 0, "number {refusal} never came");
        }
    }
}

#[test]
fn random_calls() {
    random_calls_of::<Shape>();
}

#[test]
fn random_calls_of_two_tiers() {
    random_calls_of::<TwoTierShape>();
}

/// The same calls on both, at the same turn of the random numbers; what they answer and leave is the same but for
/// the shape.
fn twins_agree(one: &Lent<Shape>, two: &Lent<TwoTierShape>) {
    let (a, b) = (&one.header, &two.header);
    assert_eq!((a.weight, a.updates, a.mode, a.lens, a.flags), (b.weight, b.updates, b.mode, b.lens, b.flags));
    assert_eq!((&one.counters, &one.norms), (&two.counters, &two.norms));
    assert_eq!((&one.entries, &one.counts), (&two.entries, &two.counts));
}

/// One of the calls that both kinds have, on a state and the second one: its number, its list and its answer's bits.
fn shared_call<S: Kind>(r: &mut Random, s: &mut Lent<S>, second: &mut Lent<S>) -> (u64, Vec<u64>, u64) {
    let h = s.header;
    let words = record(r, h.shape.layers());
    let weight = if r.one_in(20) { r.extreme() as i64 } else { r.below(9) as i64 };
    let terminal = if r.one_in(10) { r.one_in(2) } else { h.mode == 2 };
    let mut list = list(r, 2 * h.shape.layers());
    // SAFETY: as in `change`.
    unsafe {
        let of = |a: Answer| (a.refusal, Vec::new(), a.value.to_bits());
        let answered = match r.below(16) {
            0 => return of(S::estimate_l1(h)),
            1 => return of(S::estimate_l2(h, &s.norms)),
            2 => return of(S::estimate_cardinality(h, s.slices())),
            3 => return of(S::estimate_g_sum(h, s.slices(), r.below(4) as u64, r.one_in(2))),
            4 if r.one_in(4) => S::clear(h, s.slices()),
            5 | 6 => {
                list = self::list(r, 4 * h.shape.heap_size() * h.shape.layers());
                S::merge(h, s.slices(), second.header, second.slices(), &mut list)
            }
            7..=10 => lent_update(r, s, terminal, &words, weight, &mut list),
            _ if terminal => S::update_weighted_terminal(h, s.slices(), &words, weight, &mut list),
            _ => S::update_weighted(h, s.slices(), &words, weight, &mut list),
        };
        s.header = answered.header;
        (answered.refusal, list, 0)
    }
}

#[test]
fn tiers_that_are_alike_are_one() {
    let calls = number("RANDOM_CALLS", 400_000) / 4;
    let mut r = Random(number("RANDOM_SEED", 1) + 1);
    let mut kinds = [0u64; 17];
    let mut made_calls = 0;
    while made_calls < calls {
        let shape = Shape::random(&mut r);
        let Shape { heap_size, rows, cols, layers } = shape;
        let elephant_layers = r.below(20);
        let tiers = TwoTierShape { heap_size, layers, elephant_layers, elephant_rows: rows, elephant_cols: cols, mouse_rows: rows, mouse_cols: cols };
        assert_eq!(Tiers::lengths(tiers).unwrap().counters, Tiers::lengths(shape).unwrap().counters);
        let (mut one, mut two) = ([made(shape), made(shape)], [made(tiers), made(tiers)]);
        for _ in 0..1 + r.below(200) {
            made_calls += 1;
            let start = r.next();
            if r.one_in(25) {
                damage_rest(&mut Random(start), &mut one[0]);
                damage_rest(&mut Random(start), &mut two[0]);
            }
            let ([a, b], [c, d]) = (&mut one, &mut two);
            let said = shared_call(&mut Random(start), a, b);
            assert_eq!(said, shared_call(&mut Random(start), c, d));
            kinds[said.0 as usize] += 1;
            twins_agree(a, c);
            twins_agree(b, d);
            if r.one_in(5) {
                one.swap(0, 1);
                two.swap(0, 1);
            }
            if r.one_in(60) {
                break;
            }
        }
    }
    println!("{made_calls} calls on tiers that are alike and on one; by number: {kinds:?}");
    if calls >= 100_000 {
        for refusal in [0, 5, 6, 7, 9, 12, 16] {
            assert!(kinds[refusal] > 0, "number {refusal} never came");
        }
    }
}
