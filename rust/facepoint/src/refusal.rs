//! Document 01's table of refusals.

use std::error::Error;
use std::fmt;

/// Makes the table: a name, its number, the document's words.
macro_rules! refusals {
    ($($name:ident = $number:literal, $words:literal;)+) => {
        /// Why a call gives no answer: the number of document 01's table, under a name.
        ///
        /// A call makes its checks in the order of the numbers and refuses by the first
        /// that fails, over all rings ('a ring', 'a join': any one).
        #[derive(Clone, Copy, Debug, PartialEq, Eq, PartialOrd, Ord, Hash)]
        #[repr(u32)]
        #[non_exhaustive]
        pub enum Refusal {
            $(
                #[doc = concat!(stringify!($number), ": ", $words, ".")]
                $name = $number,
            )+
        }

        impl Refusal {
            /// Every refusal, in the order of the numbers, the first of which is 1.
            pub const ALL: &'static [Refusal] = &[$(Refusal::$name),+];

            /// The document's words.
            pub const fn words(self) -> &'static str {
                match self {
                    $(Refusal::$name => $words,)+
                }
            }
        }
    };
}

refusals! {
    Length = 1, "under 8 bytes, or length field ≠ bytes after it";
    Version = 2, "version ≠ 1";
    KindOrSense = 3, "kind above 6 or sense above 2";
    RingCount = 4, "ring count 0 or above 16";
    Blocks = 5, "plane or ring blocks overrun the end or leave bytes over";
    CoedgeCount = 6, "a ring with 0 coedges, or over 128 in total";
    Number = 7, "not finite; or magnitude above: 2^20 chart coordinate or origin, 2 axis component; or deviation below 0 or not below 0.002";
    Phase = 8, "phase not 0 or 1; 1 off a torus; plane pick off kind 0";
    Output = 9, "chart: output shorter than 2 × points";
    Images = 10, "image list not 3 × (points + 1) long, or an entry not finite or above 2^30 in magnitude";
    Band = 11, "torus band with v scale ≥ PI";
    Scale = 12, "u or v scale ≤ 1e-12";
    Join = 13, "a join above 1e-4";
    NoneClear = 14, "no covered grid point with clearance above 0.01";
    TooClose = 15, "picks: physical clearance not above larger-of(8 × greatest deviation, 1e-7)";
    Argument = 16, "a number not finite (triangle and fallbacks: or above 2^20 in magnitude), r not above 0, sense above 2, n above 16";
    Side = 17, "circle centre or radius off by over r × 1e-6; sweep over PI; an evaluated end off its end, or an end off the sphere, by over r × 1e-5; `unit` fails";
    Gap = 18, "a side's end direction over 1e-5 from the next's start";
    NoInterior = 19, "`unit` of the sum fails, sense 0, or a triple product ≤ 1e-6";
    CornerCount = 20, "corner list not in threes, fewer than 3 or over 128 corners";
    NoTriple = 21, "no triple serves";
    Heights = 22, "no heights, over 256 of either, spread ≤ 1e-6";
    Middle = 23, "middle unclear";
    NotFinite = 24, "`placed`: result not finite";
}

impl Refusal {
    /// The table's number.
    pub const fn number(self) -> u32 {
        self as u32
    }

    /// The refusal of this number; none for 0, the status of an answer, and for a
    /// number that is not in the table.
    pub fn from_number(number: u32) -> Option<Refusal> {
        let place = usize::try_from(number).ok()?.checked_sub(1)?;
        Refusal::ALL.get(place).copied()
    }
}

impl fmt::Display for Refusal {
    fn fmt(&self, f: &mut fmt::Formatter) -> fmt::Result {
        write!(f, "refusal {}: {}", self.number(), self.words())
    }
}

impl Error for Refusal {}

#[cfg(test)]
mod tests {
    use super::Refusal;

    #[test]
    fn numbers_go_up_from_one() {
        let numbers = Refusal::ALL.iter().map(|refusal| refusal.number());
        assert!(numbers.eq(1..=24));
        for &refusal in Refusal::ALL {
            assert_eq!(Refusal::from_number(refusal.number()), Some(refusal));
        }
        for none in [0, 25, u32::MAX] {
            assert_eq!(Refusal::from_number(none), None);
        }
    }

    #[test]
    fn words_are_the_documents() {
        let paper = include_str!("../../../docs/papers/01-scope.md");
        for refusal in Refusal::ALL {
            let (number, words) = (refusal.number(), refusal.words());
            let said = match number {
                // Each call has its own words for it; these are the pieces.
                16 => words.split([',', '(', ')', ':']).all(|piece| {
                    let piece = piece.trim();
                    let ours = ["triangle and fallbacks", ""];
                    ours.contains(&piece) || paper.contains(piece.trim_start_matches("or "))
                }),
                1..=15 | 24 => paper.contains(&format!("|{number}|{words}|")),
                _ => paper.contains(words),
            };
            assert!(said, "{refusal}");
        }
    }

    #[test]
    fn shows_number_and_words() {
        let shown = Refusal::NoneClear.to_string();
        let words = "no covered grid point with clearance above 0.01";
        assert_eq!(shown, format!("refusal 14: {words}"));
    }
}
