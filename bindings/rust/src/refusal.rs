//! The refusals: one list, of which everything here is made.

use std::error::Error;
use std::fmt;

/// Makes the enum and all that depends on the list. A row is a name, its
/// number, whether the check is of the `table` or of the other arguments of a
/// `call`, and the check in words.
macro_rules! refusals {
    ($($name:ident = $number:literal, $of:ident, $words:literal;)*) => {
        /// Why a call wrote no answer: the first of its checks that caught.
        ///
        /// A call makes its checks in the checking order, in which the
        /// variants stand here and in [`Refusal::ALL`], and each covers the
        /// whole table, or the whole list, before the next begins. That order
        /// is a list of its own: a smaller number does not say that its check
        /// came first, and so refusals can't be compared by `<`. The table's
        /// checks, of which the calls speak, are those for which
        /// [`Refusal::is_of_table`] is true: just those of
        /// [`check_table`](crate::check_table).
        ///
        /// Later versions of the library may have further refusals, anywhere
        /// in that order.
        #[derive(Clone, Copy, Debug, PartialEq, Eq, Hash)]
        #[non_exhaustive]
        #[repr(u32)]
        pub enum Refusal {
            $(
                #[doc = concat!($number, ": ", $words, ".")]
                $name = $number,
            )*
        }

        impl Refusal {
            /// All refusals, in checking order.
            pub const ALL: &'static [Refusal] = &[$(Refusal::$name),*];

            /// The refusal of a number, where there is one.
            ///
            /// ```
            /// use keeper::Refusal;
            /// assert_eq!(Refusal::from_number(4), Some(Refusal::WrongLength));
            /// assert_eq!(Refusal::from_number(0), None);
            /// assert_eq!(Refusal::from_number(1_000), None);
            /// ```
            pub fn from_number(number: u32) -> Option<Refusal> {
                match number {
                    $($number => Some(Refusal::$name),)*
                    _ => None,
                }
            }

            /// Whether the check is of the table itself, and not of the other
            /// arguments of a call.
            ///
            /// ```
            /// use keeper::Refusal;
            /// assert!(Refusal::WrongLength.is_of_table());
            /// assert!(!Refusal::AnswerTooShort.is_of_table());
            /// ```
            pub fn is_of_table(self) -> bool {
                match self {
                    $(Refusal::$name => refusals!(@is_of_table $of),)*
                }
            }

            /// The check in words.
            ///
            /// ```
            /// assert_eq!(keeper::Refusal::TooManyMessages.words(), "M is above 4,096");
            /// ```
            pub fn words(self) -> &'static str {
                match self {
                    $(Refusal::$name => $words,)*
                }
            }
        }
    };
    (@is_of_table table) => {
        true
    };
    (@is_of_table call) => {
        false
    };
}

// Rows as docs/refusals.txt has them, in its order: tests/refusals/compare.sh.
refusals! {
    TableTooShort = 1, table, "the table has fewer than 4 bytes";
    ProcessesOutOfRange = 2, table, "N is 0 or above 32";
    TooManyMessages = 3, table, "M is above 4,096";
    WrongLength = 4, table, "the length differs from 4 + 2N + 8M";
    CountOutOfRange = 5, table, "a count is 0 or above 4,096";
    UnknownProcessInMessage = 6, table, "a sender or receiver is N or above";
    MessageToItsSender = 7, table, "a message has the same sender and receiver";
    SendNumberTooHigh = 8, table, "a send number is not below the sender's count";
    ReceiptNumberTooHigh = 9, table, "a receipt number is above the receiver's count";
    ChannelOutOfOrder = 23, table, "of two messages with the same sender and receiver the later one has a smaller send \
                                    number, or is received while the earlier one waits, or, where both are received, has a \
                                    smaller receipt number";
    UnknownProcess = 10, call, "a process named in a send, save or receipt is N or above";
    SendToItself = 11, call, "a send names one process twice";
    TooManySets = 25, call, "there are more than 256 sets";
    UnknownProcessInSet = 12, call, "a set has a bit at N or above";
    WrongCeilingCount = 17, call, "the list of ceilings does not have N numbers";
    CeilingTooHigh = 18, call, "a ceiling is above its process's count";
    UnequalLists = 20, call, "the lists of named processes and of their states are of unequal length";
    BadNamedProcess = 21, call, "a named process is N or above, or not above the one before it";
    NamedStateTooHigh = 22, call, "a named state is not below its process's count";
    BadList = 13, call, "the list of a save or receipt has a position of M or above, or not above the one before it, \
                         or of a message not waiting for that process";
    MessagePassedOver = 24, call, "the list of a save or receipt passes over an older waiting message with the same \
                                   sender and receiver";
    TableFull = 14, call, "a send meets M = 4,096, or a save meets a count of 4,096";
    MarksTooShort = 19, call, "the mark buffer is shorter than (sum of counts + N) / 8 bytes, rounded up";
    ScratchTooShort = 15, call, "the scratch is shorter than N × N numbers";
    AnswerTooShort = 16, call, "the answer buffer is shorter than the answer";
}

impl Refusal {
    /// The number, as the archive answers it.
    ///
    /// ```
    /// assert_eq!(keeper::Refusal::TableTooShort.number(), 1);
    /// assert_eq!(keeper::Refusal::AnswerTooShort.number(), 16);
    /// ```
    pub fn number(self) -> u32 {
        self as u32
    }
}

impl fmt::Display for Refusal {
    fn fmt(&self, to: &mut fmt::Formatter<'_>) -> fmt::Result {
        write!(to, "refused {}: {}", self.number(), self.words())
    }
}

impl Error for Refusal {}

/// What a returned number and a length written say.
pub(crate) fn outcome(number: u32, written: usize) -> Result<usize, Refusal> {
    match Refusal::from_number(number) {
        None if number == 0 => Ok(written),
        None => unreachable!("the library answered {number}, which is no refusal's number"),
        Some(refusal) => Err(refusal),
    }
}

#[cfg(test)]
mod tests {
    use super::*;

    #[test]
    fn numbers_and_words() {
        for &refusal in Refusal::ALL {
            let number = refusal.number();
            assert_eq!(Refusal::from_number(number), Some(refusal));
            let text = format!("refused {number}: {}", refusal.words());
            assert_eq!(refusal.to_string(), text);
            assert_eq!(outcome(number, 7), Err(refusal));
        }
        assert_eq!(outcome(0, 7), Ok(7));
    }
}
