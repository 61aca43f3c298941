//! The refusals of documents 01 and 02: numbers and messages, in one list.

use std::fmt;

/// Makes the enum, its numbers and its messages of one list.
macro_rules! refusals {
    ($($name:ident = $number:literal, $message:literal;)*) => {
        /// Why a call or a job was refused.
        ///
        /// 1 to 8 are the caller's: the call is answered so and changes nothing. 11 to 17 are by the supplier's data,
        /// 21 to 27 by the equation: the board takes such a job like any other, and the number is the sealed status
        /// of its record. [`Request::new`](crate::Request::new) gives 11 to 17 at once.
        ///
        /// ```
        /// use peng_robinson_board::Refusal;
        ///
        /// assert_eq!(Refusal::from(17), Refusal::SumOfFractions);
        /// assert_eq!(Refusal::SumOfFractions.to_string(), "refused by 17: the fractions do not add up to 1");
        /// assert_eq!(Refusal::from(1000), Refusal::Other(1000));
        /// ```
        #[derive(Clone, Copy, Debug, PartialEq, Eq, Hash)]
        #[non_exhaustive]
        pub enum Refusal {
            $(
                #[doc = concat!(stringify!($number), ": ", $message, ".")]
                $name,
            )*
            /// A number that this version has no name for. `From<u64>` makes it of such numbers only.
            Other(u64),
        }

        impl Refusal {
            /// Every refusal that has a name, by ascending number.
            pub const ALL: &'static [Refusal] = &[$(Refusal::$name),*];

            /// The refusal's number in documents 01 and 02.
            pub const fn number(self) -> u64 {
                match self {
                    $(Refusal::$name => $number,)*
                    Refusal::Other(number) => number,
                }
            }

            /// What is wrong, in plain words.
            pub const fn message(self) -> &'static str {
                match self {
                    $(Refusal::$name => $message,)*
                    Refusal::Other(_) => "a number that this version has no name for",
                }
            }
        }

        /// The refusal of a number; one without a name is kept as [`Refusal::Other`].
        impl From<u64> for Refusal {
            fn from(number: u64) -> Refusal {
                match number {
                    $($number => Refusal::$name,)*
                    number => Refusal::Other(number),
                }
            }
        }
    };
}

refusals! {
    Queue = 1, "the queue is above 3";
    Kind = 2, "the kind is not 1 to 9";
    Components = 3, "the number of components is not 1 to 8, or not 2 in kinds 7 to 9";
    QueueFull = 4, "the queue holds eight jobs";
    RecordLength = 5, "the record buffer is under 64 bytes";
    Board = 6, "the board is not 24,584 bytes, or a number stored in it is out of its range";
    NoRunningJob = 7, "the queue has no running job";
    BlockLength = 8, "the block is not 640 bytes";
    Pairs = 11, "offsets or lengths in the block, or the length of a list, do not fit the number of components";
    Coefficients = 12, "critical values are not finite and positive, the acentric factor or kappa is not finite, \
                        or a or b is not finite and positive";
    Interactions = 13, "an interaction is not finite";
    Fractions = 14, "a fraction is not finite or has a minus sign";
    Conditions = 15, "a used temperature is not finite and positive, or a used pressure or start is not finite";
    Choice = 16, "the choice is out of range, or the maximum density is not finite and positive";
    SumOfFractions = 17, "the fractions do not add up to 1";
    StartingDensity = 21, "the starting density is 0 or below";
    NotConverged = 22, "the search did not converge";
    IterationFailed = 23, "the iteration failed";
    BothPhasesFailed = 24, "the searches of both phases failed";
    WrongBranch = 25, "the search ended on the wrong branch";
    Supercritical = 26, "no spinodal was found, as above the critical temperature";
    NotFinite = 27, "a number of the search left the finite range";
}

impl fmt::Display for Refusal {
    fn fmt(&self, f: &mut fmt::Formatter<'_>) -> fmt::Result {
        write!(f, "refused by {}: {}", self.number(), self.message())
    }
}

impl std::error::Error for Refusal {}

/// The result of a call whose answer is 0 or a refusal.
pub(crate) fn accepted(number: u64) -> Result<(), Refusal> {
    match number {
        0 => Ok(()),
        number => Err(number.into()),
    }
}
