//! The functions of `univmon.h`, as they are exported; it says of each what it reads, answers and
//! refuses. A slice is a pointer and a length. What states of one tier and of two have alike is declared once, for
//! both, and stands under one name in [`Calls`].
//!
//! # Safety
//!
//! Every number and every content of a slice is safe. A pointer is not null, is aligned, and its length
//! is not more than what lies behind it; what a call writes overlaps nothing else that it is lent.
use crate::{Answer, Answered, Bottom, Header, Panel, Shape, Step, TwoTierShape, Written};

/// Pointers and lengths of a state's four slices: counters, norms, entries and counts.
#[derive(Clone, Copy, Debug)]
#[rustfmt::skip]
pub struct Slices(
    pub *mut i64, pub usize, pub *mut u64, pub usize, pub *mut u64, pub usize, pub *mut i64, pub usize,
);

/// The calls that states of one tier and of two have, by the kind of their shape.
///
/// # Safety
///
/// As for the functions that they are: the slices' pointers and lengths are right, and what is written
/// overlaps nothing else. A call that only reads writes through none of the pointers.
#[allow(missing_docs)]
pub trait Calls: Copy {
    fn check_shape(self) -> u64;
    unsafe fn new(self, slices: Slices) -> Answered<Self>;
    unsafe fn clear(header: Header<Self>, slices: Slices) -> Answered<Self>;
    unsafe fn update_weighted(header: Header<Self>, slices: Slices, record: &[u64], weight: i64, list: &mut [u64]) -> Answered<Self>;
    unsafe fn update_weighted_terminal(header: Header<Self>, slices: Slices, record: &[u64], weight: i64, list: &mut [u64]) -> Answered<Self>;
    // The header's lengths and flags are lent, the rest of it goes as numbers.
    unsafe fn update_weighted_lent(
        shape: Self, total_weight: u64, total_updates: u64, mode: u64, lens: &mut [usize], flags: &mut [bool], slices: Slices, record: &[u64], weight: i64, list: &mut [u64],
    ) -> Step;
    unsafe fn update_weighted_terminal_lent(
        shape: Self, total_weight: u64, total_updates: u64, mode: u64, lens: &mut [usize], flags: &mut [bool], slices: Slices, record: &[u64], weight: i64, list: &mut [u64],
    ) -> Step;
    unsafe fn merge(header: Header<Self>, slices: Slices, other: Header<Self>, others: Slices, list: &mut [u64]) -> Answered<Self>;
    fn estimate_l1(header: Header<Self>) -> Answer;
    fn estimate_l2(header: Header<Self>, norms: &[u64]) -> Answer;
    unsafe fn estimate_g_sum(header: Header<Self>, slices: Slices, g: u64, count_every_key: bool) -> Answer;
    unsafe fn estimate_cardinality(header: Header<Self>, slices: Slices) -> Answer;
}

/// Declares the functions of one kind of shape that [`Calls`] has, and makes it of them.
macro_rules! calls {
    (
        $shape:ident, $check_shape:ident, $new:ident($($dim:ident),*), $clear:ident, $update:ident, $terminal:ident, $update_lent:ident,
        $terminal_lent:ident, $merge:ident, $l1:ident, $l2:ident, $g_sum:ident, $cardinality:ident
    ) => {
        extern "C" {
            /// 0, or the refusal of these dimensions.
            pub fn $check_shape($($dim: usize),*) -> u64;
            /// [`crate::State::new`].
            pub fn $new(
                $($dim: usize,)*
                counters: *mut i64,
                counters_len: usize,
                norms: *mut u64,
                norms_len: usize,
                entries: *mut u64,
                entries_len: usize,
                counts: *mut i64,
                counts_len: usize,
            ) -> Answered<$shape>;
            /// [`crate::State::clear`].
            pub fn $clear(
                header: Header<$shape>,
                counters: *mut i64,
                counters_len: usize,
                norms: *mut u64,
                norms_len: usize,
                entries: *mut u64,
                entries_len: usize,
                counts: *mut i64,
                counts_len: usize,
            ) -> Answered<$shape>;
            /// [`crate::State::update_weighted`], with the header by value.
            pub fn $update(
                header: Header<$shape>,
                counters: *mut i64,
                counters_len: usize,
                norms: *mut u64,
                norms_len: usize,
                entries: *mut u64,
                entries_len: usize,
                counts: *mut i64,
                counts_len: usize,
                record: *const u64,
                record_len: usize,
                weight: i64,
                list: *mut u64,
                list_len: usize,
            ) -> Answered<$shape>;
            /// [`crate::State::update_weighted_terminal`], with the header by value.
            pub fn $terminal(
                header: Header<$shape>,
                counters: *mut i64,
                counters_len: usize,
                norms: *mut u64,
                norms_len: usize,
                entries: *mut u64,
                entries_len: usize,
                counts: *mut i64,
                counts_len: usize,
                record: *const u64,
                record_len: usize,
                weight: i64,
                list: *mut u64,
                list_len: usize,
            ) -> Answered<$shape>;
            /// [`crate::State::update_weighted`]: the header's lengths and flags are lent, 19 of each, the rest of
            /// it goes as numbers.
            pub fn $update_lent(
                shape: $shape,
                total_weight: u64,
                total_updates: u64,
                mode: u64,
                lens: *mut usize,
                lens_len: usize,
                flags: *mut bool,
                flags_len: usize,
                counters: *mut i64,
                counters_len: usize,
                norms: *mut u64,
                norms_len: usize,
                entries: *mut u64,
                entries_len: usize,
                counts: *mut i64,
                counts_len: usize,
                record: *const u64,
                record_len: usize,
                weight: i64,
                list: *mut u64,
                list_len: usize,
            ) -> Step;
            /// [`crate::State::update_weighted_terminal`], lent in the same way.
            pub fn $terminal_lent(
                shape: $shape,
                total_weight: u64,
                total_updates: u64,
                mode: u64,
                lens: *mut usize,
                lens_len: usize,
                flags: *mut bool,
                flags_len: usize,
                counters: *mut i64,
                counters_len: usize,
                norms: *mut u64,
                norms_len: usize,
                entries: *mut u64,
                entries_len: usize,
                counts: *mut i64,
                counts_len: usize,
                record: *const u64,
                record_len: usize,
                weight: i64,
                list: *mut u64,
                list_len: usize,
            ) -> Step;
            /// [`crate::State::merge`].
            pub fn $merge(
                header: Header<$shape>,
                counters: *mut i64,
                counters_len: usize,
                norms: *mut u64,
                norms_len: usize,
                entries: *mut u64,
                entries_len: usize,
                counts: *mut i64,
                counts_len: usize,
                other: Header<$shape>,
                other_counters: *const i64,
                other_counters_len: usize,
                other_norms: *const u64,
                other_norms_len: usize,
                other_entries: *const u64,
                other_entries_len: usize,
                other_counts: *const i64,
                other_counts_len: usize,
                list: *mut u64,
                list_len: usize,
            ) -> Answered<$shape>;
            /// [`crate::State::estimate_l1`].
            pub fn $l1(header: Header<$shape>) -> Answer;
            /// [`crate::State::estimate_l2`].
            pub fn $l2(header: Header<$shape>, norms: *const u64, norms_len: usize) -> Answer;
            /// [`crate::State::estimate_g_sum`]; `g` is the number of a [`crate::G`], another is refused with 9.
            pub fn $g_sum(
                header: Header<$shape>,
                counters: *const i64,
                counters_len: usize,
                norms: *const u64,
                norms_len: usize,
                entries: *const u64,
                entries_len: usize,
                counts: *const i64,
                counts_len: usize,
                g: u64,
                count_every_key: bool,
            ) -> Answer;
            /// [`crate::State::estimate_cardinality`].
            pub fn $cardinality(
                header: Header<$shape>,
                counters: *const i64,
                counters_len: usize,
                norms: *const u64,
                norms_len: usize,
                entries: *const u64,
                entries_len: usize,
                counts: *const i64,
                counts_len: usize,
            ) -> Answer;
        }

        impl Calls for $shape {
            fn check_shape(self) -> u64 {
                // SAFETY: numbers in, a number out.
                unsafe { $check_shape($(self.$dim),*) }
            }

            unsafe fn new(self, slices: Slices) -> Answered<Self> {
                let Slices(a, b, c, d, e, f, g, h) = slices;
                $new($(self.$dim,)* a, b, c, d, e, f, g, h)
            }

            unsafe fn clear(header: Header<Self>, slices: Slices) -> Answered<Self> {
                let Slices(a, b, c, d, e, f, g, h) = slices;
                $clear(header, a, b, c, d, e, f, g, h)
            }

            unsafe fn update_weighted(header: Header<Self>, slices: Slices, record: &[u64], weight: i64, list: &mut [u64]) -> Answered<Self> {
                let Slices(a, b, c, d, e, f, g, h) = slices;
                $update(header, a, b, c, d, e, f, g, h, record.as_ptr(), record.len(), weight, list.as_mut_ptr(), list.len())
            }

            unsafe fn update_weighted_terminal(header: Header<Self>, slices: Slices, record: &[u64], weight: i64, list: &mut [u64]) -> Answered<Self> {
                let Slices(a, b, c, d, e, f, g, h) = slices;
                $terminal(header, a, b, c, d, e, f, g, h, record.as_ptr(), record.len(), weight, list.as_mut_ptr(), list.len())
            }

            #[inline]
            unsafe fn update_weighted_lent(
                shape: Self, total_weight: u64, total_updates: u64, mode: u64, lens: &mut [usize], flags: &mut [bool], slices: Slices, record: &[u64], weight: i64, list: &mut [u64],
            ) -> Step {
                let Slices(a, b, c, d, e, f, g, h) = slices;
                $update_lent(
                    shape, total_weight, total_updates, mode, lens.as_mut_ptr(), lens.len(), flags.as_mut_ptr(), flags.len(),
                    a, b, c, d, e, f, g, h, record.as_ptr(), record.len(), weight, list.as_mut_ptr(), list.len(),
                )
            }

            #[inline]
            unsafe fn update_weighted_terminal_lent(
                shape: Self, total_weight: u64, total_updates: u64, mode: u64, lens: &mut [usize], flags: &mut [bool], slices: Slices, record: &[u64], weight: i64, list: &mut [u64],
            ) -> Step {
                let Slices(a, b, c, d, e, f, g, h) = slices;
                $terminal_lent(
                    shape, total_weight, total_updates, mode, lens.as_mut_ptr(), lens.len(), flags.as_mut_ptr(), flags.len(),
                    a, b, c, d, e, f, g, h, record.as_ptr(), record.len(), weight, list.as_mut_ptr(), list.len(),
                )
            }

            unsafe fn merge(header: Header<Self>, slices: Slices, other: Header<Self>, others: Slices, list: &mut [u64]) -> Answered<Self> {
                let Slices(a, b, c, d, e, f, g, h) = slices;
                let Slices(i, j, k, l, m, n, o, p) = others;
                $merge(header, a, b, c, d, e, f, g, h, other, i, j, k, l, m, n, o, p, list.as_mut_ptr(), list.len())
            }

            fn estimate_l1(header: Header<Self>) -> Answer {
                // SAFETY: values in, values out.
                unsafe { $l1(header) }
            }

            fn estimate_l2(header: Header<Self>, norms: &[u64]) -> Answer {
                // SAFETY: pointer and length are the slice's.
                unsafe { $l2(header, norms.as_ptr(), norms.len()) }
            }

            unsafe fn estimate_g_sum(header: Header<Self>, slices: Slices, g_number: u64, count_every_key: bool) -> Answer {
                let Slices(a, b, c, d, e, f, g, h) = slices;
                $g_sum(header, a, b, c, d, e, f, g, h, g_number, count_every_key)
            }

            unsafe fn estimate_cardinality(header: Header<Self>, slices: Slices) -> Answer {
                let Slices(a, b, c, d, e, f, g, h) = slices;
                $cardinality(header, a, b, c, d, e, f, g, h)
            }
        }
    };
}

calls! {
    Shape, univmon_check_shape, univmon_new(heap_size, rows, cols, layers), univmon_clear, univmon_update_weighted,
    univmon_update_weighted_terminal, univmon_update_weighted_lent, univmon_update_weighted_terminal_lent, univmon_merge,
    univmon_estimate_l1, univmon_estimate_l2, univmon_estimate_g_sum, univmon_estimate_cardinality
}

calls! {
    TwoTierShape, univmon_two_tier_check_shape,
    univmon_two_tier_new(heap_size, elephant_layers, elephant_rows, elephant_cols, mouse_rows, mouse_cols, layers),
    univmon_two_tier_clear, univmon_two_tier_update_weighted, univmon_two_tier_update_weighted_terminal,
    univmon_two_tier_update_weighted_lent, univmon_two_tier_update_weighted_terminal_lent, univmon_two_tier_merge,
    univmon_two_tier_estimate_l1, univmon_two_tier_estimate_l2, univmon_two_tier_estimate_g_sum,
    univmon_two_tier_estimate_cardinality
}

extern "C" {
    /// [`crate::bottom_layer_for_hash`].
    pub fn univmon_bottom_layer_for_hash(hash: u64, layers: usize) -> Bottom;
    /// [`crate::State::apply_delta`]; `fidelity` is the number of a [`crate::Fidelity`], another is refused
    /// with 9.
    pub fn univmon_apply_delta(
        header: Header,
        counters: *mut i64,
        counters_len: usize,
        norms: *mut u64,
        norms_len: usize,
        entries: *mut u64,
        entries_len: usize,
        counts: *mut i64,
        counts_len: usize,
        record: *const u64,
        record_len: usize,
        layer: usize,
        row: usize,
        col: usize,
        count: i32,
        fidelity: u64,
        list: *mut u64,
        list_len: usize,
    ) -> Answered;
    /// [`crate::State::set_total_weight`].
    pub fn univmon_set_total_weight(header: Header, weight: u64) -> Answered;
    /// [`crate::State::mark_candidates_incomplete`].
    pub fn univmon_mark_candidates_incomplete(header: Header) -> Answered;
    /// [`crate::State::mark_layer_candidates_incomplete`].
    pub fn univmon_mark_layer_candidates_incomplete(header: Header, layer: usize) -> Answered;
    /// [`crate::State::panel_answer`].
    pub fn univmon_panel_answer(
        header: Header,
        counters: *const i64,
        counters_len: usize,
        norms: *const u64,
        norms_len: usize,
        entries: *const u64,
        entries_len: usize,
        counts: *const i64,
        counts_len: usize,
    ) -> Panel;
    /// [`crate::State::check`].
    pub fn univmon_check_state(
        header: Header,
        counters: *const i64,
        counters_len: usize,
        norms: *const u64,
        norms_len: usize,
        entries: *const u64,
        entries_len: usize,
        counts: *const i64,
        counts_len: usize,
    ) -> bool;
    /// [`crate::State::write_text`].
    pub fn univmon_write_state(
        header: Header,
        counters: *const i64,
        counters_len: usize,
        norms: *const u64,
        norms_len: usize,
        entries: *const u64,
        entries_len: usize,
        counts: *const i64,
        counts_len: usize,
        out: *mut u8,
        out_len: usize,
    ) -> Written;
    /// [`crate::State::read_text`].
    pub fn univmon_read_state(
        text: *const u8,
        text_len: usize,
        counters: *mut i64,
        counters_len: usize,
        norms: *mut u64,
        norms_len: usize,
        entries: *mut u64,
        entries_len: usize,
        counts: *mut i64,
        counts_len: usize,
    ) -> Answered;
}
