//! The number of a refusal, and its words.
use core::error::Error;
use core::fmt::{self, Display, Formatter};

/// The number of a refusal, 1 to 12 or 14 to 16; 13 is the program `panel`'s own. The call that it was
/// answered by changed nothing.
///
/// ```
/// use univmon::Refused;
///
/// assert_eq!(Refused(5).to_string(), "refused 5: negative weight");
/// let error: &dyn core::error::Error = &Refused(5);
/// assert!(error.source().is_none());
/// ```
#[derive(Clone, Copy, Debug, PartialEq, Eq, Hash)]
pub struct Refused(
    /// The number.
    pub u64,
);

impl Refused {
    /// When a call is refused with this number.
    pub const fn words(self) -> &'static str {
        match self.0 {
            1 => "a dimension is 0",
            2 => "layers or elephant_layers above 19",
            3 => "hash bits above 128",
            4 => "rows above 20, cols above 4096 or heap size above 1024",
            5 => "negative weight",
            6 => "mode mixed in update or merge, or weight set in terminal mode",
            7 => "weight would pass 2^52",
            8 => "layer, row or column outside the shape",
            9 => {
                "wrong slice length; header out of range; a cell, norm or candidate that the call reads is \
                 out of range; a norm below the square it gives up; a number that stands for no mode, \
                 fidelity or g"
            }
            10 => "dimensions differ in merge",
            11 => "a counter would leave -2^52 to 2^52",
            12 => "record length wrong",
            13 => "program line unreadable, or before a shape",
            14 => "updates would pass 2^52",
            15 => "not the text of a state that passes the check",
            16 => "lent text space or list too short, or state slices not of the first line's lengths",
            _ => "no refusal has this number",
        }
    }
}

/// The number and its words, on one line.
impl Display for Refused {
    fn fmt(&self, f: &mut Formatter<'_>) -> fmt::Result {
        write!(f, "refused {}: {}", self.0, self.words())
    }
}

impl Error for Refused {}
