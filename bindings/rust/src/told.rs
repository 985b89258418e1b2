//! What a list says of each key that was offered to a layer's candidates.
use crate::{Shape, Tiers, TwoTierShape};

/// What was done with a key in a layer.
#[derive(Clone, Copy, Debug, PartialEq, Eq, Hash)]
pub enum Happened {
    /// It was a candidate, and has its new count: 1.
    Rescored,
    /// It took a free seat: 2.
    Seated,
    /// It took the seat of this key, whose count was the least: 3.
    Displaced(u64),
    /// The layer is full, and its count is not above the least: 4.
    TurnedAway,
}

impl Happened {
    /// What a place says; nothing happened where its first word is 0, or none of the four numbers.
    pub const fn of(place: [u64; 2]) -> Option<Self> {
        match place {
            [1, _] => Some(Happened::Rescored),
            [2, _] => Some(Happened::Seated),
            [3, key] => Some(Happened::Displaced(key)),
            [4, _] => Some(Happened::TurnedAway),
            _ => None,
        }
    }

    /// Whether no key was lost; else the layer's flag falls.
    pub const fn kept_all(self) -> bool {
        matches!(self, Happened::Rescored | Happened::Seated)
    }
}

/// The layers of a list, and what happened in each: from [`Shape::told`] or [`Shape::told_by_merge`].
#[derive(Clone, Debug)]
pub struct Told<'a> {
    /// The places of all layers that have not been gone through.
    places: &'a [u64],
    /// How many have.
    gone: usize,
    /// Places of a layer.
    each: usize,
}

impl Iterator for Told<'_> {
    type Item = (usize, Happened);

    fn next(&mut self) -> Option<Self::Item> {
        while let [code, key, rest @ ..] = self.places {
            let layer = self.gone / self.each;
            self.places = rest;
            self.gone += 1;
            if let Some(happened) = Happened::of([*code, *key]) {
                return Some((layer, happened));
            }
        }
        None
    }
}

impl Shape {
    /// What the list of an accepted update or delta says: each layer that the key was sent to, from the first
    /// on, and what happened there. A list of a refused call says what it said before.
    ///
    /// ```
    /// use univmon::{Happened, Shape};
    ///
    /// let shape = Shape { heap_size: 2, rows: 2, cols: 4, layers: 3 };
    /// let list = [3, 77, 2, 0, 0, 0];
    /// let told: Vec<_> = shape.told(&list).collect();
    /// assert_eq!(told, [(0, Happened::Displaced(77)), (1, Happened::Seated)]);
    /// ```
    pub fn told(self, list: &[u64]) -> Told<'_> {
        Tiers::told(self, list)
    }

    /// What the list of an accepted merge says: for each layer in turn what happened with each distinct key of
    /// both states, in the order of their first entry.
    ///
    /// ```
    /// use univmon::{Happened, Shape};
    ///
    /// let shape = Shape { heap_size: 1, rows: 2, cols: 4, layers: 2 };
    /// let list = [2, 0, 3, 77, 2, 0, 0, 0];
    /// let told: Vec<_> = shape.told_by_merge(&list).collect();
    /// assert_eq!(told, [(0, Happened::Seated), (0, Happened::Displaced(77)), (1, Happened::Seated)]);
    /// ```
    pub fn told_by_merge(self, list: &[u64]) -> Told<'_> {
        Tiers::told_by_merge(self, list)
    }
}

impl TwoTierShape {
    /// As [`Shape::told`]: a list does not depend on rows and columns.
    pub fn told(self, list: &[u64]) -> Told<'_> {
        Tiers::told(self, list)
    }

    /// As [`Shape::told_by_merge`].
    pub fn told_by_merge(self, list: &[u64]) -> Told<'_> {
        Tiers::told_by_merge(self, list)
    }
}

impl<'a> Told<'a> {
    /// The places of all layers, each layer with so many; words behind them are not the list's.
    pub(crate) fn of(layers: usize, each: usize, list: &'a [u64]) -> Self {
        let words = layers.saturating_mul(each).saturating_mul(2).min(list.len());
        Told { places: &list[..words], gone: 0, each }
    }
}
