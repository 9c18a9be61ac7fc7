//! The differences that are meant. Each stands in docs/DIFFERENCES.md under its number; any other difference fails the run.

#[derive(Clone, Copy, Debug, PartialEq, Eq, PartialOrd, Ord)]
pub enum Explained {
    InfiniteEnds,
    OneNan,
    Zeros,
}

impl Explained {
    pub const ALL: [Explained; 3] = [Explained::InfiniteEnds, Explained::OneNan, Explained::Zeros];

    /// The row's number in docs/DIFFERENCES.md.
    pub fn number(self) -> usize {
        match self {
            Explained::InfiniteEnds => 1,
            Explained::OneNan => 4,
            Explained::Zeros => 5,
        }
    }

    /// A word of that row.
    pub fn word(self) -> &'static str {
        match self {
            Explained::InfiniteEnds => "infinite ends",
            Explained::OneNan => "NaN",
            Explained::Zeros => "zeros",
        }
    }

    pub fn text(self) -> &'static str {
        match self {
            Explained::InfiniteEnds => {
                "a ray with infinite ends is valid within infinite bounds, where the Rust demands finite ends"
            }
            Explained::OneNan => "the port has one NaN, where the Rust tells NaNs apart by their bits",
            Explained::Zeros => {
                "zeros of opposite sign: which of those given normalising keeps, and which one `max` and `min` keep, is left open"
            }
        }
    }
}
