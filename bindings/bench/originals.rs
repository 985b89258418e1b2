//! Both types of the original under one trait, each with the shape that a state of this library has for it, so that
//! they go through the same comparison and the same bench.
#![allow(dead_code)]

use asap_sketchlib::{CountSketchWithL2Norm, DataInput, TopKHeap, UnivMon, UnivMonTwoTier};
use univmon::{Shape, Tiers, TwoTierShape, G};

pub trait Original: Clone {
    type Shape: Tiers;

    fn fresh(shape: Self::Shape) -> Self;
    fn update(&mut self, key: u64, weight: i64, terminal: bool);
    fn merge_in(&mut self, other: &Self);
    fn empty(&mut self);

    fn l1(&self) -> f64;
    fn l2(&self) -> f64;
    fn cardinality(&self) -> f64;
    fn g_sum(&self, g: G, every: bool) -> f64;

    fn weight(&self) -> usize;
    fn add_weight(&mut self, weight: usize);
    fn mode(&self) -> u64;
    fn flags(&self) -> &[bool];
    fn sketch(&self, layer: usize) -> &CountSketchWithL2Norm;
    fn heap(&self, layer: usize) -> &TopKHeap;
    fn parts(&mut self, layer: usize) -> (&mut CountSketchWithL2Norm, &mut TopKHeap);
}

macro_rules! original {
    ($type:ident, $shape:ident($($dim:ident),*), $flags:ident) => {
        impl Original for $type {
            type Shape = $shape;

            fn fresh(shape: $shape) -> Self {
                $type::new($(shape.$dim),*)
            }

            fn update(&mut self, key: u64, weight: i64, terminal: bool) {
                if terminal {
                    self.update_weighted_terminal(&DataInput::U64(key), weight);
                } else {
                    self.update_weighted(&DataInput::U64(key), weight);
                }
            }

            fn merge_in(&mut self, other: &Self) {
                self.merge(other);
            }

            fn empty(&mut self) {
                self.clear();
            }

            fn l1(&self) -> f64 {
                self.estimate_l1()
            }

            fn l2(&self) -> f64 {
                self.estimate_l2()
            }

            fn cardinality(&self) -> f64 {
                self.estimate_cardinality()
            }

            fn g_sum(&self, g: G, every: bool) -> f64 {
                match g {
                    G::One => self.estimate_g_sum(|_| 1.0, every),
                    G::Value => self.estimate_g_sum(|x| x, every),
                    G::Square => self.estimate_g_sum(|x| x * x, every),
                }
            }

            fn weight(&self) -> usize {
                self.total_weight
            }

            fn add_weight(&mut self, weight: usize) {
                self.total_weight += weight;
            }

            fn mode(&self) -> u64 {
                self.oracle_mode().into()
            }

            fn flags(&self) -> &[bool] {
                self.$flags()
            }

            fn sketch(&self, layer: usize) -> &CountSketchWithL2Norm {
                &self.layer_sketches[layer]
            }

            fn heap(&self, layer: usize) -> &TopKHeap {
                &self.layer_heaps[layer]
            }

            fn parts(&mut self, layer: usize) -> (&mut CountSketchWithL2Norm, &mut TopKHeap) {
                (&mut self.layer_sketches[layer], &mut self.layer_heaps[layer])
            }
        }
    };
}

original!(UnivMon, Shape(heap_size, rows, cols, layers), candidates_complete);
original!(
    UnivMonTwoTier,
    TwoTierShape(heap_size, elephant_layers, elephant_rows, elephant_cols, mouse_rows, mouse_cols, layers),
    oracle_flags
);
