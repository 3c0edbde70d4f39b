//! What is bad of a zone or a record.

use core::fmt;

/// Defines the reasons from one list: code, name, the name in the header, and the text.
macro_rules! reasons {
    ($($(#[$about:meta])* $code:literal $case:ident, $header:ident, $text:literal;)*) => {
        /// What is bad of a zone, by [`Refusal::BadZone`](crate::Refusal::BadZone), or of a record, by
        /// [`Refusal::BadRecord`](crate::Refusal::BadRecord): the first of these. A zone of a report is tested for 1 to 7, zone 0's record for
        /// [`format`](crate::format()) for 0 to 7, and the record of a failure, which may start anywhere, for 0 and 2 to 9.
        #[derive(Clone, Copy, Debug, PartialEq, Eq, Hash)]
        #[non_exhaustive]
        pub enum Reason {
            $(
                #[doc = concat!("Reason ", $code, ":")]
                $(#[$about])*
                $case,
            )*
            /// A code that has no name here, as it stood in the answer. This library gives none.
            Other(u64),
        }

        impl Reason {
            /// The code that stands for it in words.
            pub const fn code(self) -> u64 {
                match self {
                    $(Reason::$case => $code,)*
                    Reason::Other(code) => code,
                }
            }

            /// What a code stands for.
            pub const fn from_code(code: u64) -> Reason {
                match code {
                    $($code => Reason::$case,)*
                    _ => Reason::Other(code),
                }
            }
        }

        /// What is bad, in a few words that go on from "it is bad:".
        impl fmt::Display for Reason {
            fn fmt(&self, formatter: &mut fmt::Formatter<'_>) -> fmt::Result {
                match self {
                    $(Reason::$case => formatter.write_str($text),)*
                    Reason::Other(code) => write!(formatter, "reason {code}"),
                }
            }
        }

        #[cfg(test)]
        pub(crate) const REASONS: &[(&str, u64)] = &[$((stringify!($header), $code)),*];
    };
}

reasons! {
    /// the record isn't 64 bytes long, so it has no field to name.
    0 NoRecord, REASON_NO_RECORD, "it isn't 64 bytes long";
    /// the first zone doesn't start at 0, or another not where the one before it ends.
    1 Start, REASON_START, "its start";
    /// the length is 0 or not whole blocks.
    2 Length, REASON_LENGTH, "its length";
    /// the capacity is 0, not whole blocks, above the length or, in a conventional zone, not the length.
    3 Capacity, REASON_CAPACITY, "its capacity";
    /// start and length come to more than 2^40 sectors.
    4 End, REASON_END, "its end";
    /// the type is not 1, 2 or 3; condition and pointer aren't looked at then.
    5 Type, REASON_TYPE, "its type";
    /// the condition is none of its type's: conventional 0, 13, 15; sequential 1 to 4, 13, 14, 15.
    6 Condition, REASON_CONDITION, "its condition";
    /// in a sequential zone under the conditions 1 to 4, the write pointer is outside start..start + capacity, or on no block.
    7 Pointer, REASON_POINTER, "its write pointer";
    /// the record isn't of the file's zone: for seq another kind, start or capacity; for cnv another kind, or not within the file.
    8 OtherZone, REASON_OTHER_ZONE, "it isn't of the file's zone";
    /// the condition is better than a seq file's; from best to worst: healthy, read-only, offline.
    9 BetterCondition, REASON_BETTER_CONDITION, "its condition is better than the file's";
}
