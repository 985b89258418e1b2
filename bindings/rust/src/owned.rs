//! A state that owns its slices.
use alloc::boxed::Box;
use alloc::vec;
use alloc::vec::Vec;

use crate::{write_text, Header, Read, Refused, Shape, State, Tiers, TwoTierShape};

/// A header and four boxed slices. [`Owned::with`] lends them to a [`State`] for some calls.
///
/// Two branches count apart and are merged:
///
/// ```
/// use univmon::{Happened, Owned, Refused, Shape};
///
/// # fn main() -> Result<(), Refused> {
/// let shape = Shape { heap_size: 4, rows: 2, cols: 4, layers: 2 };
/// let mut east = Owned::new(shape)?;
/// let mut west = Owned::new(shape)?;
/// // key, bottom hash, then high and low half of the hashes of layers 0 and 1
/// let mut list = vec![0; shape.lengths()?.merge_list];
/// east.with(|s| s.update_weighted(&[7, 0, 1 << 63, 6, 0, 0], 5, &mut list))?;
/// west.with(|s| s.update_weighted(&[8, 2, 0, 1, 0, 3], 2, &mut list))?;
///
/// east.merge(&mut west, &mut list)?;
/// // both keys have a seat in layer 0, and 8 has one in layer 1
/// let told: Vec<_> = shape.told_by_merge(&list).collect();
/// assert_eq!(told, [(0, Happened::Seated), (0, Happened::Seated), (1, Happened::Seated)]);
/// let shown = east.with(|s| s.panel_answer())?;
/// assert_eq!((shown.l1, shown.cardinality), (7.0, 2.0));
/// assert_eq!(east.header().flags[..2], [true, true]);
/// assert_eq!(west.header().weight, 2);
/// assert_eq!((east.header().updates, west.header().updates), (2, 1));
///
/// // states of two shapes are not merged
/// let mut wide = Owned::new(Shape { cols: 8, ..shape })?;
/// assert_eq!(east.merge(&mut wide, &mut list), Err(Refused(10)));
/// # Ok(())
/// # }
/// ```
///
/// Where there is no link between them, a state is carried home as text:
///
/// ```
/// # use univmon::{Owned, Refused, Shape};
/// # fn main() -> Result<(), Refused> {
/// # let shape = Shape { heap_size: 4, rows: 2, cols: 4, layers: 2 };
/// # let mut east = Owned::new(shape)?;
/// # let mut west = Owned::new(shape)?;
/// # let mut list = vec![0; shape.lengths()?.merge_list];
/// # west.with(|s| s.update_weighted(&[8, 2, 0, 1, 0, 3], 2, &mut list))?;
/// let text = west.to_text()?;
/// let mut carried = Owned::from_text(&text)?;
/// assert_eq!(carried, west);
/// east.merge(&mut carried, &mut list)?;
///
/// assert_eq!(Owned::from_text(b"(univmon 4 2 4 20)\n"), Err(Refused(2)));
/// assert_eq!(Owned::from_text(b"(univmon 4 2 4 2)\n"), Err(Refused(15)));
/// # Ok(())
/// # }
/// ```
#[derive(Clone, Debug, PartialEq)]
pub struct Owned<S = Shape> {
    header: Header<S>,
    counters: Box<[i64]>,
    norms: Box<[u64]>,
    entries: Box<[u64]>,
    counts: Box<[i64]>,
}

/// A state with two tiers in boxed slices: its calls are those of [`UnivMonTwoTier`](crate::UnivMonTwoTier).
///
/// ```
/// use univmon::{OwnedTwoTier, Refused, TwoTierShape};
///
/// # fn main() -> Result<(), Refused> {
/// let shape = TwoTierShape {
///     heap_size: 4,
///     layers: 2,
///     elephant_layers: 1,
///     elephant_rows: 3,
///     elephant_cols: 16,
///     mouse_rows: 2,
///     mouse_cols: 4,
/// };
/// let (mut east, mut west) = (OwnedTwoTier::new(shape)?, OwnedTwoTier::new(shape)?);
/// let mut list = vec![0; shape.lengths()?.merge_list];
/// east.with(|s| s.update_weighted(&[7, 0, 1 << 63, 6, 0, 0], 5, &mut list))?;
/// west.with(|s| s.update_weighted(&[8, 2, 0, 1, 0, 3], 2, &mut list))?;
/// east.merge(&mut west, &mut list)?;
/// assert_eq!(east.with(|s| s.estimate_cardinality())?, 2.0);
///
/// // all seven dimensions are equal, or nothing is merged: one that no layer uses too
/// let (wide, wider) = (TwoTierShape { elephant_layers: 2, ..shape }, TwoTierShape { elephant_layers: 3, ..shape });
/// let (mut one, mut two) = (OwnedTwoTier::new(wide)?, OwnedTwoTier::new(wider)?);
/// assert_eq!(one.merge(&mut two, &mut list), Err(Refused(10)));
/// # Ok(())
/// # }
/// ```
pub type OwnedTwoTier = Owned<TwoTierShape>;

impl Owned {
    /// A state from its text, in boxes of its first line's lengths, as [`State::read_text`]. Refuses 15, 1,
    /// 2, 3, 4, 15.
    pub fn from_text(text: &[u8]) -> Result<Self, Refused> {
        Self::boxed(first_line(text), |a, b, c, d| State::read_text(text, a, b, c, d))
    }

    /// The state's text, as [`State::write_text`]. Refuses 9.
    pub fn to_text(&self) -> Result<Vec<u8>, Refused> {
        // Without a shape there is no text, and the call says so.
        let most = self.header.shape.lengths().map_or(0, |want| want.text);
        let mut text = vec![0; most];
        let bytes = write_text(self.header, Read(&self.counters, &self.norms, &self.entries, &self.counts), &mut text)?;
        text.truncate(bytes);
        text.shrink_to_fit();
        Ok(text)
    }

}

impl<S: Tiers> Owned<S> {
    /// A fresh state, in boxes of the shape's lengths. Refuses 1, 2, 3, 4.
    pub fn new(shape: S) -> Result<Self, Refused> {
        Self::boxed(Some(shape), |a, b, c, d| State::new(shape, a, b, c, d))
    }

    /// What a call makes of boxes of a shape's lengths. Where there is no such shape they are empty: the call
    /// refuses the shape before it looks at them.
    fn boxed<F>(shape: Option<S>, call: F) -> Result<Self, Refused>
    where
        F: for<'a> FnOnce(&'a mut [i64], &'a mut [u64], &'a mut [u64], &'a mut [i64]) -> Result<State<'a, S>, Refused>,
    {
        let want = shape.and_then(|shape| shape.lengths().ok());
        let [a, b, c, d] = want.map_or([0; 4], |w| [w.counters, w.norms, w.entries, w.counts]);
        let mut counters = vec![0i64; a].into_boxed_slice();
        let mut norms = vec![0u64; b].into_boxed_slice();
        let mut entries = vec![0u64; c].into_boxed_slice();
        let mut counts = vec![0i64; d].into_boxed_slice();
        let header = call(&mut counters, &mut norms, &mut entries, &mut counts)?.into_header();
        Ok(Owned { header, counters, norms, entries, counts })
    }

    /// The header as the last accepted call left it.
    pub fn header(&self) -> &Header<S> {
        &self.header
    }

    /// Runs calls on the state; the header that they leave is kept.
    pub fn with<R>(&mut self, calls: impl FnOnce(&mut State<'_, S>) -> R) -> R {
        let mut state = State {
            header: self.header,
            counters: &mut self.counters,
            norms: &mut self.norms,
            entries: &mut self.entries,
            counts: &mut self.counts,
        };
        let answer = calls(&mut state);
        self.header = state.into_header();
        answer
    }

    /// Puts the other state's stream behind this one's, as [`State::merge`]. Refuses 9, 10, 6, 7, 14, 9, 11, 16.
    pub fn merge(&mut self, other: &mut Owned<S>, list: &mut [u64]) -> Result<(), Refused> {
        self.with(|one| other.with(|two| one.merge(two, list)))
    }
}

/// The shape that a text's first line says, to size the boxes by: what is not such a line is for the reader to
/// refuse, which takes no form that this leaves out.
fn first_line(text: &[u8]) -> Option<Shape> {
    let line = text.strip_prefix(b"(univmon ")?.split(|&b| b == b')').next()?;
    let mut numbers = core::str::from_utf8(line).ok()?.split(' ').map(|n| n.parse().ok());
    let mut next = || numbers.next().flatten();
    Some(Shape { heap_size: next()?, rows: next()?, cols: next()?, layers: next()? })
}
