//! Why a call is refused, and who can put it right.
use std::fmt;

/// Document 01's headings: whose input a refusal is about.
#[derive(Clone, Copy, Debug, Eq, PartialEq)]
pub enum Blame {
    BlankAuthor,
    ToolAndChordAuthor,
    BudgetSetter,
    CallingProgram,
}

macro_rules! refusals {
    ($($name:ident = $number:literal, $blame:ident, $text:literal;)*) => {
        /// The refusals by cause, of document 01 and of the requests of document 02.
        ///
        /// 4, once `Resolution`, is retired: no description gets it, and an arm for it can go.
        #[derive(Clone, Copy, Debug, Eq, PartialEq)]
        #[repr(u32)]
        pub enum Refusal {
            $(#[doc = $text] $name = $number,)*
        }

        impl Refusal {
            pub(crate) fn of(number: u32) -> Refusal {
                match number {
                    $($number => Refusal::$name,)*
                    _ => unreachable!("the library gives no refusal {number}"),
                }
            }

            /// Who is to blame.
            pub fn blame(self) -> Blame {
                match self {
                    $(Refusal::$name => Blame::$blame,)*
                }
            }
        }

        impl fmt::Display for Refusal {
            fn fmt(&self, f: &mut fmt::Formatter<'_>) -> fmt::Result {
                let text = match self {
                    $(Refusal::$name => $text,)*
                };
                write!(f, "refused {}: {text}", *self as u32)
            }
        }
    };
}

refusals! {
    Description = 1, BlankAuthor, "the blank's description is out of its limits";
    TooManyRays = 2, BlankAuthor, "an axis has more cells, or all grids more rays, than max_rays";
    TooFewIntervals = 3, BlankAuthor, "twice the rays exceed max_intervals";
    Beam = 5, ToolAndChordAuthor, "a beam is no tool";
    Tool = 6, ToolAndChordAuthor, "a number of the tool is out of its limits";
    Chord = 7, ToolAndChordAuthor, "a number of a chord, or the guard, is out of its limits";
    Visits = 8, BudgetSetter, "a visit is beyond the budget";
    ChangedRays = 9, BudgetSetter, "more rays would change than are allowed";
    Intervals = 10, BudgetSetter, "more intervals would stand than max_intervals";
    Unsound = 11, CallingProgram, "a list or the store is not sound, or part of an item is over";
    Short = 12, CallingProgram, "a buffer is shorter than needed";
    Change = 13, CallingProgram, "a change is turned away";
    BaseGeneration = 14, CallingProgram, "the base generation differs";
    LastGeneration = 15, CallingProgram, "the generation is at its maximum";
    LogFull = 16, BudgetSetter, "the log is full at a hit";
    NoRay = 17, CallingProgram, "a log entry names no ray";
    Place = 19, CallingProgram, "the place is a NaN";
}

impl std::error::Error for Refusal {}
