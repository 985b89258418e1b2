//! A relay's loop in Rust: two branches count their streams and say who left their lists, one is marked and
//! carried home as text, the two are merged there, and the panel's numbers are shown. relay.c is the same in
//! C and writes the same lines.
use univmon::{Happened, Owned, Refused, Shape, State, G};

const LAYERS: usize = 6;
const SHAPE: Shape = Shape { heap_size: 32, rows: 5, cols: 256, layers: LAYERS };
const RECORD: usize = 2 + 2 * LAYERS;

/// Hashing is the relay's own: here a mixer (splitmix64) with a seed for each place of the record.
fn mixed(key: u64, seed: u64) -> u64 {
    let mut z = key.wrapping_add((seed + 1).wrapping_mul(0x9E37_79B9_7F4A_7C15));
    z = (z ^ (z >> 30)).wrapping_mul(0xBF58_476D_1CE4_E5B9);
    z = (z ^ (z >> 27)).wrapping_mul(0x94D0_49BB_1331_11EB);
    z ^ (z >> 31)
}

fn record_of(key: u64) -> [u64; RECORD] {
    let mut record = [key; RECORD];
    for (i, word) in record.iter_mut().enumerate().skip(1) {
        *word = mixed(key, i as u64);
    }
    record
}

/// A stream of 3000 arrivals, in which small keys come more often. A driver whose receiver leaves layer 0's
/// candidates is phoned: here the first is named, and all are counted.
fn count_stream(name: &str, state: &mut State<'_>, seed: u64, keys: u64) -> Result<(), Refused> {
    let mut list = [0; 2 * LAYERS];
    let mut calls = 0;
    for i in 0..3000 {
        let r = mixed(i, seed);
        let key = (r % keys) * ((r >> 32) % keys) / keys;
        state.update_weighted(&record_of(key), 1 + (r >> 60) as i64, &mut list)?;
        if let Some((0, Happened::Displaced(gone))) = SHAPE.told(&list).next() {
            if calls == 0 {
                println!("{name}: {key} pushes {gone} out");
            }
            calls += 1;
        }
    }
    println!("{name}: {calls} pushed out");
    Ok(())
}

/// What a merge did in each layer: how many keys have a seat at first, pushed another out, were turned away.
fn show_merge(list: &[u64]) {
    for l in 0..LAYERS {
        let count = |is: fn(Happened) -> bool| SHAPE.told_by_merge(list).filter(|&(layer, what)| layer == l && is(what)).count();
        let seated = count(|what| what == Happened::Seated);
        let displaced = count(|what| matches!(what, Happened::Displaced(_)));
        let turned_away = count(|what| what == Happened::TurnedAway);
        println!("layer {l}: seated {seated} displaced {displaced} turned away {turned_away}");
    }
}

fn show(name: &str, state: &State<'_>) -> Result<(), Refused> {
    let p = state.panel_answer()?;
    let flags: String = state.header().flags[..LAYERS]
        .iter()
        .map(|&flag| if flag { '1' } else { '0' })
        .collect();
    let updates = state.header().updates;
    println!("{name}: l1 {:.0} l2 {:.6} keys {:.0} flags {flags} updates {updates}", p.l1, p.l2, p.cardinality);
    Ok(())
}

fn relay() -> Result<(), Refused> {
    let mut east = Owned::new(SHAPE)?;
    let mut west = Owned::new(SHAPE)?;
    east.with(|s| count_stream("east", s, 100, 60))?;
    west.with(|s| count_stream("west", s, 200, 90))?;
    east.with(|s| show("east", s))?;
    west.with(|s| show("west", s))?;

    // West knows that it lost arrivals of layer 2.
    west.with(|s| s.mark_layer_candidates_incomplete(2))?;

    // A refused call changes nothing.
    let mut list = vec![0; SHAPE.lengths()?.merge_list];
    if let Err(Refused(n)) = east.with(|s| s.update_weighted(&record_of(7), -1, &mut list)) {
        println!("weight -1: refused {n}");
    }
    east.with(|s| show("east", s))?;

    // West has no link: its state is written as text..
    let text = west.to_text()?;
    println!("west as text: {} bytes", text.len());

    // ..and read at home. A text that lost its end is no state's.
    if let Err(Refused(n)) = Owned::from_text(&text[..text.len() - 1]) {
        println!("cut short: refused {n}");
    }
    let mut home = Owned::from_text(&text)?;
    home.with(|s| show("home", s))?;

    east.merge(&mut home, &mut list)?;
    show_merge(&list);
    east.with(|s| show("both", s))?;
    let squares = east.with(|s| s.estimate_g_sum(G::Square, false))?;
    println!("sum of squares: {squares:.0}");
    Ok(())
}

fn main() {
    if let Err(refused) = relay() {
        eprintln!("relay: {refused}");
        std::process::exit(1);
    }
}
