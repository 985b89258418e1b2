//! Slices to read texts into, and what holds of every reading.
use univmon::ffi::{univmon_read_state, univmon_write_state};
use univmon::{Answered, Header, Shape, Written, MAX_LAYERS};

/// The header of a refused reading.
pub const NO_HEADER: Header = Header {
    shape: Shape { heap_size: 0, rows: 0, cols: 0, layers: 0 },
    weight: 0,
    updates: 0,
    mode: 0,
    lens: [0; MAX_LAYERS],
    flags: [false; MAX_LAYERS],
};

/// What stands in the slices before a reading and in the space before a writing: no text gives it.
const MARK: i64 = i64::MIN + 77;
pub const BYTE: u8 = 0xAA;

#[derive(Clone, Debug, PartialEq)]
pub struct Slices {
    pub counters: Vec<i64>,
    pub norms: Vec<u64>,
    pub entries: Vec<u64>,
    pub counts: Vec<i64>,
}

impl Slices {
    /// Slices of these lengths, filled with the mark.
    pub fn marked([counters, norms, entries, counts]: [usize; 4]) -> Self {
        Slices {
            counters: vec![MARK; counters],
            norms: vec![MARK as u64; norms],
            entries: vec![MARK as u64; entries],
            counts: vec![MARK; counts],
        }
    }

    pub fn of(shape: Shape) -> Self {
        let want = shape.lengths().unwrap();
        Self::marked([want.counters, want.norms, want.entries, want.counts])
    }

    pub fn lengths(&self) -> [usize; 4] {
        [self.counters.len(), self.norms.len(), self.entries.len(), self.counts.len()]
    }

    fn is_marked(&self) -> bool {
        let signed = |xs: &[i64]| xs.iter().all(|&x| x == MARK);
        let words = |xs: &[u64]| xs.iter().all(|&x| x == MARK as u64);
        signed(&self.counters) && words(&self.norms) && words(&self.entries) && signed(&self.counts)
    }

    /// The call as it is, header and all.
    pub fn read(&mut self, text: &[u8]) -> Answered {
        // SAFETY: each pointer and length is a slice's, and no two slices overlap.
        unsafe {
            univmon_read_state(
                text.as_ptr(),
                text.len(),
                self.counters.as_mut_ptr(),
                self.counters.len(),
                self.norms.as_mut_ptr(),
                self.norms.len(),
                self.entries.as_mut_ptr(),
                self.entries.len(),
                self.counts.as_mut_ptr(),
                self.counts.len(),
            )
        }
    }

    /// The call as it is.
    pub fn write(&self, header: Header, out: &mut [u8]) -> Written {
        // SAFETY: as in `read`.
        unsafe {
            univmon_write_state(
                header,
                self.counters.as_ptr(),
                self.counters.len(),
                self.norms.as_ptr(),
                self.norms.len(),
                self.entries.as_ptr(),
                self.entries.len(),
                self.counts.as_ptr(),
                self.counts.len(),
                out.as_mut_ptr(),
                out.len(),
            )
        }
    }

    /// The answer of a reading into marked slices, which are marked again after it. A refused one has changed
    /// nothing; an accepted text is written again to the same bytes, and nothing past them.
    pub fn judge(&mut self, text: &[u8]) -> u64 {
        let shown = || String::from_utf8_lossy(text);
        let a = self.read(text);
        if a.refusal != 0 {
            assert!(matches!(a.refusal, 1..=4 | 15 | 16), "refusal {} of {}", a.refusal, shown());
            assert_eq!(a.header, NO_HEADER, "{}", shown());
            assert!(self.is_marked(), "a refused reading changed a slice: {}", shown());
            return a.refusal;
        }
        let mut out = vec![BYTE; text.len() + 3];
        let w = self.write(a.header, &mut out);
        assert_eq!((w.refusal, w.bytes), (0, text.len()), "{}", shown());
        assert!(out.starts_with(text) && out[text.len()..] == [BYTE; 3], "written otherwise: {}", shown());
        *self = Self::marked(self.lengths());
        0
    }
}
