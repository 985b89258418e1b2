//! UnivMon for a relay's own loop in Rust: the proved library, wrapped so that no call is unsafe.
//!
//! A state is a [`Header`] and four slices, held by a [`State`] that borrows them, or by an `Owned`
//! that boxes them (feature `boxed`). Their lengths are [`Lengths`]; every call tests them.
//!
//! The layers of a [`Shape`] are alike. Those of a [`TwoTierShape`] are of two tiers, the first layers wider: a state
//! of it is a [`UnivMonTwoTier`], which is a [`State`] too. It has the calls of both, but for deltas, marks, weight
//! settings, the panel's answer, the check and texts.
//!
//! A record is what a key is counted by, `2 + 2 * layers` words: the key, its bottom hash, then for each
//! layer from 0 the high and the low half of its 128-bit hash. The caller hashes.
//!
//! A call that is refused answers [`Refused`] and leaves everything as it was. Where several refusals
//! apply, the order is 9 for header and lengths, then 12, 10, 5, 8, 6, 7, 14, 9 for what is read, 11, 16; for
//! a fresh state 1, 2, 3, 4, 9; for a text that is written 9, 16; for one that is read 15 for its first
//! line, then 1, 2, 3, 4, 16, and 15 for the other lines. Each call says which of them it can answer, in
//! that order.
//!
//! An update, a delta and a merge are lent a list, which says who was seated and who was pushed out of each
//! layer's candidates: [`Shape::told`] and [`Shape::told_by_merge`] read it, [`Lengths::list`] and
//! [`Lengths::merge_list`] are its least lengths. A shorter one is refused with 16, last.
//!
//! A state can be carried as text and is restored exactly: [`State::write_text`], [`State::read_text`].
//! `univmon.h` shows its lines; there is one text for each state, and no other text is read.
//!
//! The functions take no memory but the stack, at most 128 KiB; `univmon.h` says how much each takes.
#![no_std]
#![deny(missing_docs)]

#[cfg(feature = "boxed")]
extern crate alloc;

pub mod ffi;

#[cfg(feature = "boxed")]
mod owned;
#[cfg(feature = "boxed")]
pub use owned::{Owned, OwnedTwoTier};

mod refused;
pub use refused::Refused;

mod told;
pub use told::{Happened, Told};

/// The greatest number of layers.
pub const MAX_LAYERS: usize = 19;
/// The greatest number of rows.
pub const MAX_ROWS: usize = 20;
/// The greatest number of columns.
pub const MAX_COLS: usize = 4096;
/// The greatest number of candidates of a layer.
pub const MAX_HEAP_SIZE: usize = 1024;

/// How keys were sent to layers.
#[derive(Clone, Copy, Debug, PartialEq, Eq)]
pub enum Mode {
    /// Nothing counted or set yet: 0.
    Unset,
    /// To layers 0 to their bottom layer: 1.
    Standard,
    /// To their bottom layer only: 2.
    Terminal,
}

/// Whether every insert of a delta's relay was promoted.
#[derive(Clone, Copy, Debug, PartialEq, Eq)]
pub enum Fidelity {
    /// Every insert was.
    EveryInsert = 0,
    /// Some were not: the layer's flag falls.
    PromotedOnly = 1,
}

/// What a sum takes of each count.
#[derive(Clone, Copy, Debug, PartialEq, Eq)]
pub enum G {
    /// 1, whatever the count is.
    One = 0,
    /// The count.
    Value = 1,
    /// The count times itself.
    Square = 2,
}

/// Dimensions of a state, each at least 1; mask bits of the columns and one more, times the rows, are at
/// most 128 hash bits.
#[repr(C)]
#[derive(Clone, Copy, Debug, PartialEq, Eq)]
pub struct Shape {
    /// Candidates of a layer, at most [`MAX_HEAP_SIZE`].
    pub heap_size: usize,
    /// Rows of a layer's counters, at most [`MAX_ROWS`].
    pub rows: usize,
    /// Columns of a layer's counters, at most [`MAX_COLS`].
    pub cols: usize,
    /// Layers, at most [`MAX_LAYERS`].
    pub layers: usize,
}

/// Dimensions of a state with two tiers: layers below `elephant_layers` have `elephant_rows` rows of
/// `elephant_cols` columns, the others `mouse_rows` of `mouse_cols`. Each but `elephant_layers` is at least 1, and
/// each tier has at most 128 hash bits, as in [`Shape`], one that no layer is of too.
#[repr(C)]
#[derive(Clone, Copy, Debug, PartialEq, Eq)]
pub struct TwoTierShape {
    /// Candidates of a layer, at most [`MAX_HEAP_SIZE`].
    pub heap_size: usize,
    /// Layers, at most [`MAX_LAYERS`].
    pub layers: usize,
    /// Layers of the first tier, at most [`MAX_LAYERS`]: 0 for none; all where it is not below `layers`.
    pub elephant_layers: usize,
    /// Rows of the first tier's layers, at most [`MAX_ROWS`].
    pub elephant_rows: usize,
    /// Columns of the first tier's layers, at most [`MAX_COLS`].
    pub elephant_cols: usize,
    /// Rows of the other layers, at most [`MAX_ROWS`].
    pub mouse_rows: usize,
    /// Columns of the other layers, at most [`MAX_COLS`].
    pub mouse_cols: usize,
}

/// What [`Shape`] and [`TwoTierShape`] have alike: a [`State`] is of either.
pub trait Tiers: ffi::Calls + core::fmt::Debug + PartialEq {
    /// Candidates of a layer.
    fn heap_size(self) -> usize;

    /// Layers.
    fn layers(self) -> usize;

    /// Rows and columns of a layer's counters.
    fn table(self, layer: usize) -> (usize, usize);

    /// Bytes that are enough for the text of any state of the shape; 0 where there is none.
    fn text(self) -> usize {
        0
    }

    /// The lengths, if a fresh state takes these dimensions. Refuses 1, 2, 3, 4.
    fn lengths(self) -> Result<Lengths, Refused> {
        accepted(self.check_shape())?;
        let (layers, heap_size) = (self.layers(), self.heap_size());
        let tables = || (0..layers).map(|layer| self.table(layer));
        Ok(Lengths {
            counters: tables().map(|(rows, cols)| rows * cols).sum(),
            norms: tables().map(|(rows, _)| 2 * rows).sum(),
            entries: 4 * layers * heap_size,
            counts: layers * heap_size,
            record: 2 + 2 * layers,
            list: 2 * layers,
            merge_list: 4 * heap_size * layers,
            text: self.text(),
        })
    }

    /// As [`Shape::told`].
    fn told(self, list: &[u64]) -> Told<'_> {
        Told::of(self.layers(), 1, list)
    }

    /// As [`Shape::told_by_merge`].
    fn told_by_merge(self, list: &[u64]) -> Told<'_> {
        Told::of(self.layers(), self.heap_size().saturating_mul(2), list)
    }
}

impl Tiers for Shape {
    fn heap_size(self) -> usize {
        self.heap_size
    }

    fn layers(self) -> usize {
        self.layers
    }

    fn table(self, _: usize) -> (usize, usize) {
        (self.rows, self.cols)
    }

    fn text(self) -> usize {
        // the first four lines; a flag, a row beside its counters, a counter, a key
        88 + self.layers * (12 + self.rows * (12 + 25 * self.cols) + 111 * self.heap_size)
    }
}

impl Tiers for TwoTierShape {
    fn heap_size(self) -> usize {
        self.heap_size
    }

    fn layers(self) -> usize {
        self.layers
    }

    fn table(self, layer: usize) -> (usize, usize) {
        if layer < self.elephant_layers {
            (self.elephant_rows, self.elephant_cols)
        } else {
            (self.mouse_rows, self.mouse_cols)
        }
    }
}

/// Lengths of the four slices and of a record, exact, the least of lists, and the most that a text has.
#[derive(Clone, Copy, Debug, PartialEq, Eq)]
pub struct Lengths {
    /// Rows times columns of each layer, signed words, by layer, then row, then column.
    pub counters: usize,
    /// Twice the rows of each layer, low half then high half of each row's norm.
    pub norms: usize,
    /// `4 * layers * heap_size` words: key, bottom hash, high and low half of the layer hash.
    pub entries: usize,
    /// `layers * heap_size` signed words, the candidates' counts.
    pub counts: usize,
    /// `2 + 2 * layers` words.
    pub record: usize,
    /// `2 * layers` words or more: the list of an update or a delta, a place of two words for each layer.
    pub list: usize,
    /// `4 * heap_size * layers` words or more: the list of a merge, `2 * heap_size` places for each layer.
    pub merge_list: usize,
    /// Bytes that are enough for the text of any state of the shape; most texts are far shorter. 0 with two tiers,
    /// which have no text.
    pub text: usize,
}

impl Shape {
    /// The lengths, if a fresh state takes these dimensions. Refuses 1, 2, 3, 4.
    pub fn lengths(self) -> Result<Lengths, Refused> {
        Tiers::lengths(self)
    }
}

impl TwoTierShape {
    /// The lengths, if a fresh state takes these dimensions. Refuses 1, 2, 3, 4, each over both tiers before the next.
    pub fn lengths(self) -> Result<Lengths, Refused> {
        Tiers::lengths(self)
    }
}

/// A state beside its slices, as C has it: `mode` is a number. Every value of every field is safe; what
/// is out of range is refused with 9 by the calls.
#[repr(C)]
#[derive(Clone, Copy, Debug, PartialEq, Eq)]
pub struct Header<S = Shape> {
    /// The dimensions.
    pub shape: S,
    /// The sum of the accepted weights, at most 2^52.
    pub weight: u64,
    /// The number of accepted updates, those of merged states included, at most 2^52.
    pub updates: u64,
    /// 0 unset, 1 standard, 2 terminal: [`Mode`].
    pub mode: u64,
    /// The number of candidates of each layer, 0 past the last layer.
    pub lens: [usize; MAX_LAYERS],
    /// A flag is true while its layer's candidates are every key sent to it; false past the last layer.
    pub flags: [bool; MAX_LAYERS],
}

impl<S> Header<S> {
    /// The mode, if its number stands for one.
    pub fn mode(&self) -> Option<Mode> {
        match self.mode {
            0 => Some(Mode::Unset),
            1 => Some(Mode::Standard),
            2 => Some(Mode::Terminal),
            _ => None,
        }
    }
}

/// A refusal and the header as it was, or 0 and the new header.
#[repr(C)]
#[derive(Clone, Copy, Debug, PartialEq)]
pub struct Answered<S = Shape> {
    /// 0 for none.
    pub refusal: u64,
    /// The header after the call.
    pub header: Header<S>,
}

/// A refusal and weight, updates and mode as they were, or 0 and the new ones: what an update on lent
/// lengths and flags answers.
#[repr(C)]
#[derive(Clone, Copy, Debug, PartialEq, Eq)]
pub struct Step {
    /// 0 for none.
    pub refusal: u64,
    /// The weight after the call.
    pub weight: u64,
    /// The number of updates after the call.
    pub updates: u64,
    /// The number of the mode after the call.
    pub mode: u64,
}

/// A refusal and layer 0, or 0 and the layer.
#[repr(C)]
#[derive(Clone, Copy, Debug, PartialEq, Eq)]
pub struct Bottom {
    /// 0 for none.
    pub refusal: u64,
    /// The bottom layer.
    pub layer: usize,
}

/// A refusal and +0.0, or 0 and the answer.
#[repr(C)]
#[derive(Clone, Copy, Debug, PartialEq)]
pub struct Answer {
    /// 0 for none.
    pub refusal: u64,
    /// The answer.
    pub value: f64,
}

/// What the panel shows: a refusal and +0.0 three times, or 0 and the three answers.
#[repr(C)]
#[derive(Clone, Copy, Debug, PartialEq)]
pub struct Panel {
    /// 0 for none.
    pub refusal: u64,
    /// [`State::estimate_l1`].
    pub l1: f64,
    /// [`State::estimate_l2`].
    pub l2: f64,
    /// [`State::estimate_cardinality`].
    pub cardinality: f64,
}

/// A refusal and 0, or 0 and the number of bytes that a text takes.
#[repr(C)]
#[derive(Clone, Copy, Debug, PartialEq, Eq)]
pub struct Written {
    /// 0 for none.
    pub refusal: u64,
    /// The text's length.
    pub bytes: usize,
}

fn accepted(refusal: u64) -> Result<(), Refused> {
    if refusal == 0 {
        Ok(())
    } else {
        Err(Refused(refusal))
    }
}

fn value(a: Answer) -> Result<f64, Refused> {
    accepted(a.refusal).map(|()| a.value)
}

/// The last layer that a key with this bottom hash reaches: l - 1 for the first l from 1 to `layers` - 1
/// whose hash bit l is 0, else `layers` - 1. Refuses 1 (no layer) and 2 (above 19).
pub fn bottom_layer_for_hash(hash: u64, layers: usize) -> Result<usize, Refused> {
    // SAFETY: numbers in, numbers out.
    let b = unsafe { ffi::univmon_bottom_layer_for_hash(hash, layers) };
    accepted(b.refusal).map(|()| b.layer)
}

/// The slices of a state, lent to be read.
#[derive(Clone, Copy)]
struct Read<'a>(&'a [i64], &'a [u64], &'a [u64], &'a [i64]);

impl Read<'_> {
    /// For a call that writes through none of them.
    fn slices(self) -> ffi::Slices {
        let Read(a, b, c, d) = self;
        ffi::Slices(a.as_ptr().cast_mut(), a.len(), b.as_ptr().cast_mut(), b.len(), c.as_ptr().cast_mut(), c.len(), d.as_ptr().cast_mut(), d.len())
    }
}

/// Slices to be written.
#[inline]
fn written(a: &mut [i64], b: &mut [u64], c: &mut [u64], d: &mut [i64]) -> ffi::Slices {
    ffi::Slices(a.as_mut_ptr(), a.len(), b.as_mut_ptr(), b.len(), c.as_mut_ptr(), c.len(), d.as_mut_ptr(), d.len())
}

/// A state's text at the start of `out`, and its length.
fn write_text(header: Header, state: Read<'_>, out: &mut [u8]) -> Result<usize, Refused> {
    let Read(counters, norms, entries, counts) = state;
    // SAFETY: each pointer and length is a slice's, and `out`, which is written, is borrowed alone.
    let w = unsafe {
        ffi::univmon_write_state(
            header,
            counters.as_ptr(),
            counters.len(),
            norms.as_ptr(),
            norms.len(),
            entries.as_ptr(),
            entries.len(),
            counts.as_ptr(),
            counts.len(),
            out.as_mut_ptr(),
            out.len(),
        )
    };
    accepted(w.refusal).map(|()| w.bytes)
}

/// A state in lent slices: it allocates nothing.
///
/// 2 layers of 2 rows and 4 columns, with 2 candidates each:
///
/// ```
/// use univmon::{Happened, Refused, Shape, State, G};
///
/// # fn main() -> Result<(), Refused> {
/// let shape = Shape { heap_size: 2, rows: 2, cols: 4, layers: 2 };
/// let (mut counters, mut norms) = ([0i64; 16], [0u64; 8]);
/// let (mut entries, mut counts) = ([0u64; 16], [0i64; 4]);
/// let mut list = [0; 4];
/// let mut state = State::new(shape, &mut counters, &mut norms, &mut entries, &mut counts)?;
///
/// // key 7, bottom hash 0, then the halves of the hashes of layers 0 and 1
/// let record = [7, 0, 0x8000_0000_0000_0000, 6, 0, 0];
/// state.update_weighted(&record, 5, &mut list)?;
/// assert!(shape.told(&list).eq([(0, Happened::Seated)]));
/// assert_eq!(state.counters()[..8], [0, 0, 5, 0, 0, -5, 0, 0]);
/// assert_eq!(state.estimate_l2()?, 5.0);
/// assert_eq!(state.estimate_cardinality()?, 1.0);
/// assert_eq!(state.estimate_g_sum(G::Square, false)?, 25.0);
/// assert!(state.header().flags[0]);
///
/// // a refused call says why and changes nothing
/// let refused = state.update_weighted(&record, -1, &mut list).unwrap_err();
/// assert_eq!(refused.to_string(), "refused 5: negative weight");
/// assert_eq!(state.estimate_l1()?, 5.0);
/// # Ok(())
/// # }
/// ```
///
/// The slices can be put away with the header, and lent again:
///
/// ```
/// # use univmon::{Refused, Shape, State};
/// # fn main() -> Result<(), Refused> {
/// # let shape = Shape { heap_size: 2, rows: 2, cols: 4, layers: 2 };
/// # let (mut counters, mut norms) = ([0i64; 16], [0u64; 8]);
/// # let (mut entries, mut counts, mut list) = ([0u64; 16], [0i64; 4], [0; 4]);
/// let mut state = State::new(shape, &mut counters, &mut norms, &mut entries, &mut counts)?;
/// state.update_weighted_terminal(&[7, 0, 0, 0, 0, 0], 5, &mut list)?;
/// let header = state.into_header();
///
/// let state = State::lend(header, &mut counters, &mut norms, &mut entries, &mut counts)?;
/// assert!(state.check());
/// assert_eq!(state.estimate_l1()?, 5.0);
/// # Ok(())
/// # }
/// ```
///
/// Or the state is carried as text, and read into other slices:
///
/// ```
/// # use univmon::{Refused, Shape, State};
/// # fn main() -> Result<(), Refused> {
/// # let shape = Shape { heap_size: 2, rows: 2, cols: 4, layers: 2 };
/// # let (mut counters, mut norms) = ([0i64; 16], [0u64; 8]);
/// # let (mut entries, mut counts, mut list) = ([0u64; 16], [0i64; 4], [0; 4]);
/// let mut state = State::new(shape, &mut counters, &mut norms, &mut entries, &mut counts)?;
/// state.update_weighted(&[7, 0, 0x8000_0000_0000_0000, 6, 0, 0], 5, &mut list)?;
/// let mut space = [0; 500];
/// let bytes = state.write_text(&mut space)?;
/// let text = &space[..bytes];
/// assert!(text.starts_with(b"(univmon 2 2 4 2)\n(weight 5)\n(updates 1)\n(mode 1)\n(flag 0 1)\n(row 0 0 (2 5))\n"));
///
/// let (mut counters, mut norms) = ([9i64; 16], [9u64; 8]);
/// let (mut entries, mut counts) = ([9u64; 16], [9i64; 4]);
/// let home = State::read_text(text, &mut counters, &mut norms, &mut entries, &mut counts)?;
/// assert_eq!((home.header(), home.norms()), (state.header(), state.norms()));
///
/// // a text that lost its end is refused, and the slices stay
/// let cut = State::read_text(&text[..bytes - 1], &mut counters, &mut norms, &mut entries, &mut counts);
/// assert_eq!(cut.unwrap_err(), Refused(15));
/// assert_eq!(counters[2], 5);
/// # Ok(())
/// # }
/// ```
#[derive(Debug)]
pub struct State<'a, S = Shape> {
    header: Header<S>,
    counters: &'a mut [i64],
    norms: &'a mut [u64],
    entries: &'a mut [u64],
    counts: &'a mut [i64],
}

/// A state with two tiers, in lent slices.
///
/// 3 layers with 2 candidates each: the first has 2 rows of 4 columns, the other two have 1 row of 2:
///
/// ```
/// use univmon::{Refused, TwoTierShape, UnivMonTwoTier};
///
/// # fn main() -> Result<(), Refused> {
/// let shape = TwoTierShape {
///     heap_size: 2,
///     layers: 3,
///     elephant_layers: 1,
///     elephant_rows: 2,
///     elephant_cols: 4,
///     mouse_rows: 1,
///     mouse_cols: 2,
/// };
/// // 2 * 4 + 1 * 2 + 1 * 2 counters, 2 * (2 + 1 + 1) words of norms
/// let (mut counters, mut norms) = ([0i64; 12], [0u64; 8]);
/// let (mut entries, mut counts, mut list) = ([0u64; 24], [0i64; 6], [0; 6]);
/// let mut state = UnivMonTwoTier::new(shape, &mut counters, &mut norms, &mut entries, &mut counts)?;
///
/// // key 7, whose bottom layer is 1: column 2 and 1 of layer 0, with + and -, column 1 of layer 1, with -
/// let record = [7, 2, 0x8000_0000_0000_0000, 6, 0, 1, 0, 0];
/// state.update_weighted(&record, 5, &mut list)?;
/// assert_eq!(state.counters(), [0, 0, 5, 0, 0, -5, 0, 0, 0, -5, 0, 0]);
/// assert_eq!(state.estimate_cardinality()?, 1.0);
///
/// // both tiers are within their limits, or the shape is refused
/// let odd = TwoTierShape { elephant_layers: 0, elephant_rows: 21, ..shape };
/// assert_eq!(odd.lengths(), Err(Refused(4)));
/// # Ok(())
/// # }
/// ```
pub type UnivMonTwoTier<'a> = State<'a, TwoTierShape>;

impl<'a, S: Tiers> State<'a, S> {
    /// A fresh state: every slice is filled with zeros, every flag of the shape's layers is true, the mode
    /// unset. Reads dimensions and lengths. Refuses 1, 2, 3, 4, 9.
    pub fn new(
        shape: S,
        counters: &'a mut [i64],
        norms: &'a mut [u64],
        entries: &'a mut [u64],
        counts: &'a mut [i64],
    ) -> Result<Self, Refused> {
        // SAFETY: each pointer and length is a slice's, and no two slices overlap.
        let a = unsafe { S::new(shape, written(counters, norms, entries, counts)) };
        accepted(a.refusal)?;
        Ok(State { header: a.header, counters, norms, entries, counts })
    }

    /// A state as an earlier [`State::into_header`] left it. Reads dimensions and lengths, and refuses 1, 2,
    /// 3, 4, 9; what else is out of range in it is refused with 9 by the calls that read it.
    pub fn lend(
        header: Header<S>,
        counters: &'a mut [i64],
        norms: &'a mut [u64],
        entries: &'a mut [u64],
        counts: &'a mut [i64],
    ) -> Result<Self, Refused> {
        let want = header.shape.lengths()?;
        let have = [counters.len(), norms.len(), entries.len(), counts.len()];
        if have != [want.counters, want.norms, want.entries, want.counts] {
            return Err(Refused(9));
        }
        Ok(State { header, counters, norms, entries, counts })
    }

    /// The header as the last accepted call left it.
    pub fn header(&self) -> &Header<S> {
        &self.header
    }

    /// Gives the slices back; the header is what is to be kept beside them.
    pub fn into_header(self) -> Header<S> {
        self.header
    }

    /// The counters, by layer, then row, then column.
    pub fn counters(&self) -> &[i64] {
        self.counters
    }

    /// The rows' norms, by layer, then row: low half, then high half.
    pub fn norms(&self) -> &[u64] {
        self.norms
    }

    /// The candidates, by layer: key, bottom hash, high and low half of the layer hash; zeros past a
    /// layer's length.
    pub fn entries(&self) -> &[u64] {
        self.entries
    }

    /// The candidates' counts, by layer; zeros past a layer's length.
    pub fn counts(&self) -> &[i64] {
        self.counts
    }

    fn read(&self) -> Read<'_> {
        Read(self.counters, self.norms, self.entries, self.counts)
    }

    fn slices(&mut self) -> ffi::Slices {
        written(self.counters, self.norms, self.entries, self.counts)
    }

    fn take(&mut self, a: Answered<S>) -> Result<(), Refused> {
        accepted(a.refusal)?;
        self.header = a.header;
        Ok(())
    }

    /// Stores what an update on the header's own lengths and flags left of the rest: on a refusal that is
    /// what was there.
    fn put(&mut self, a: Step) -> Result<(), Refused> {
        self.header.weight = a.weight;
        self.header.updates = a.updates;
        self.header.mode = a.mode;
        accepted(a.refusal)
    }

    /// Nothing counted any more: as [`State::new`] with the header's shape. Reads header and lengths.
    /// Refuses 9.
    pub fn clear(&mut self) -> Result<(), Refused> {
        // SAFETY: each pointer and length is a slice's, and no two slices overlap.
        let a = unsafe { S::clear(self.header, self.slices()) };
        self.take(a)
    }

    /// Counts a key with a weight: it goes to layers 0 to its bottom layer. Reads header, lengths and
    /// record, and in each of these layers the key's counters, its rows' norms and the candidates. The list
    /// says what happened in each layer: [`Shape::told`]. Refuses 9, 12, 5, 6, 7, 14, 9, 11, 16. The header's
    /// lengths and flags are lent, so that no header is copied.
    pub fn update_weighted(&mut self, record: &[u64], weight: i64, list: &mut [u64]) -> Result<(), Refused> {
        let slices = self.slices();
        let Header { shape, weight: total, updates, mode, lens, flags } = &mut self.header;
        // SAFETY: each pointer and length is a slice's, and no two slices that are written overlap.
        let a = unsafe { S::update_weighted_lent(*shape, *total, *updates, *mode, lens, flags, slices, record, weight, list) };
        self.put(a)
    }

    /// Counts a key with a weight in its bottom layer only; else as [`State::update_weighted`]. Refuses 9, 12,
    /// 5, 6, 7, 14, 9, 11, 16.
    pub fn update_weighted_terminal(&mut self, record: &[u64], weight: i64, list: &mut [u64]) -> Result<(), Refused> {
        let slices = self.slices();
        let Header { shape, weight: total, updates, mode, lens, flags } = &mut self.header;
        // SAFETY: as in `update_weighted`.
        let a = unsafe { S::update_weighted_terminal_lent(*shape, *total, *updates, *mode, lens, flags, slices, record, weight, list) };
        self.put(a)
    }

    /// Puts the other state's stream behind this one's: counters and norms by the sums of the counters,
    /// candidates counted anew. The other state stays as it is. Reads both headers and lengths, every
    /// counter and every candidate of both. The list says what happened with each key:
    /// [`Shape::told_by_merge`]. Refuses 9, 10, 6, 7, 14, 9, 11, 16.
    pub fn merge(&mut self, other: &State<'_, S>, list: &mut [u64]) -> Result<(), Refused> {
        // SAFETY: each pointer and length is a slice's; `self` is borrowed alone, so that the other
        // state's slices are not its own.
        let a = unsafe { S::merge(self.header, self.slices(), other.header, other.read().slices(), list) };
        self.take(a)
    }

    /// L1: the weight. Reads the header. Refuses 9.
    pub fn estimate_l1(&self) -> Result<f64, Refused> {
        value(S::estimate_l1(self.header))
    }

    /// L2, from the norms: layer 0's, or in terminal mode the root of the sum over all layers. Reads the
    /// header and these norms. Refuses 9.
    pub fn estimate_l2(&self) -> Result<f64, Refused> {
        value(S::estimate_l2(self.header, self.norms))
    }

    /// The sum of g over the keys. With `count_every_key` no candidate is left out for its count; without
    /// it, weight zero gives 0.0 and reads header and lengths alone. Any other sum reads every layer's
    /// candidates and the counters of their estimates, in terminal mode every norm too. Refuses 9.
    pub fn estimate_g_sum(&self, g: G, count_every_key: bool) -> Result<f64, Refused> {
        // SAFETY: each pointer and length is a slice's.
        value(unsafe { S::estimate_g_sum(self.header, self.read().slices(), g as u64, count_every_key) })
    }

    /// The number of distinct keys: the sum of one with every key counted. Refuses 9.
    pub fn estimate_cardinality(&self) -> Result<f64, Refused> {
        // SAFETY: each pointer and length is a slice's.
        value(unsafe { S::estimate_cardinality(self.header, self.read().slices()) })
    }
}

/// What only states of one tier have.
impl<'a> State<'a> {
    /// A state from its text, all of it, in slices of its first line's lengths: every word of them is
    /// written, whatever was there. Everything is judged first. Refuses 15, 1, 2, 3, 4, 16, 15.
    pub fn read_text(
        text: &[u8],
        counters: &'a mut [i64],
        norms: &'a mut [u64],
        entries: &'a mut [u64],
        counts: &'a mut [i64],
    ) -> Result<Self, Refused> {
        // SAFETY: each pointer and length is a slice's, and no two slices overlap.
        let a = unsafe {
            ffi::univmon_read_state(
                text.as_ptr(),
                text.len(),
                counters.as_mut_ptr(),
                counters.len(),
                norms.as_mut_ptr(),
                norms.len(),
                entries.as_mut_ptr(),
                entries.len(),
                counts.as_mut_ptr(),
                counts.len(),
            )
        };
        accepted(a.refusal)?;
        Ok(State { header: a.header, counters, norms, entries, counts })
    }

    /// A change of one counter that another relay saw, with the record of the key that made it. Sets an
    /// unset mode to standard and leaves the weight. Reads header, lengths and record, the counter and its
    /// row's norm, and in its layer the key's counters and the candidates. The list says what happened in that
    /// layer: [`Shape::told`]. Refuses 9, 12, 8, 9, 11, 16.
    pub fn apply_delta(
        &mut self,
        record: &[u64],
        layer: usize,
        row: usize,
        col: usize,
        count: i32,
        fidelity: Fidelity,
        list: &mut [u64],
    ) -> Result<(), Refused> {
        // SAFETY: as in `update_weighted`.
        let a = unsafe {
            ffi::univmon_apply_delta(
                self.header,
                self.counters.as_mut_ptr(),
                self.counters.len(),
                self.norms.as_mut_ptr(),
                self.norms.len(),
                self.entries.as_mut_ptr(),
                self.entries.len(),
                self.counts.as_mut_ptr(),
                self.counts.len(),
                record.as_ptr(),
                record.len(),
                layer,
                row,
                col,
                count,
                fidelity as u64,
                list.as_mut_ptr(),
                list.len(),
            )
        };
        self.take(a)
    }

    /// Sets the weight that a relay fed by deltas believes it has seen; an unset mode becomes standard.
    /// Reads the header. Refuses 9, 6 in terminal mode, 7.
    pub fn set_total_weight(&mut self, weight: u64) -> Result<(), Refused> {
        // SAFETY: values in, values out.
        let a = unsafe { ffi::univmon_set_total_weight(self.header, weight) };
        self.take(a)
    }

    /// Every flag falls. Reads the header. Refuses 9.
    pub fn mark_candidates_incomplete(&mut self) -> Result<(), Refused> {
        // SAFETY: values in, values out.
        let a = unsafe { ffi::univmon_mark_candidates_incomplete(self.header) };
        self.take(a)
    }

    /// One layer's flag falls. Reads the header. Refuses 9, 8.
    pub fn mark_layer_candidates_incomplete(&mut self, layer: usize) -> Result<(), Refused> {
        // SAFETY: values in, values out.
        let a = unsafe { ffi::univmon_mark_layer_candidates_incomplete(self.header, layer) };
        self.take(a)
    }

    /// Whether header and slices have what every accepted call keeps: lengths and ranges hold, each norm is
    /// its row's sum, no count in a layer is below its heap parent's, unused entries are zero. No for a
    /// number that is no mode. Goes once over each slice.
    pub fn check(&self) -> bool {
        let Read(counters, norms, entries, counts) = self.read();
        // SAFETY: each pointer and length is a slice's.
        unsafe {
            ffi::univmon_check_state(
                self.header,
                counters.as_ptr(),
                counters.len(),
                norms.as_ptr(),
                norms.len(),
                entries.as_ptr(),
                entries.len(),
                counts.as_ptr(),
                counts.len(),
            )
        }
    }

    /// Writes the state's text at the start of `out` and answers its length; the bytes behind it remain.
    /// [`Lengths::text`] bytes are always enough. Reads what [`State::check`] reads. Refuses 9 where that
    /// says no, 16 where the text is longer than `out`.
    pub fn write_text(&self, out: &mut [u8]) -> Result<usize, Refused> {
        write_text(self.header, self.read(), out)
    }

    /// What the panel shows: L1, L2 and cardinality. Reads what these three read. Refuses 9.
    pub fn panel_answer(&self) -> Result<Panel, Refused> {
        let Read(counters, norms, entries, counts) = self.read();
        // SAFETY: each pointer and length is a slice's.
        let p = unsafe {
            ffi::univmon_panel_answer(
                self.header,
                counters.as_ptr(),
                counters.len(),
                norms.as_ptr(),
                norms.len(),
                entries.as_ptr(),
                entries.len(),
                counts.as_ptr(),
                counts.len(),
            )
        };
        accepted(p.refusal).map(|()| p)
    }
}
