//! Values that stand in words by a code.

/// Defines an enum of codes, each with its name in the header, and lists them for the test that holds them to it.
macro_rules! codes {
    ($(
        $(#[$about:meta])*
        $name:ident {
            $($(#[$detail:meta])* $case:ident = $code:literal, $header:ident;)*
        }
    )*) => {
        $(
            $(#[$about])*
            #[derive(Clone, Copy, Debug, PartialEq, Eq, Hash)]
            pub enum $name {
                $($(#[$detail])* $case = $code,)*
            }

            impl $name {
                /// The code that stands for it in words.
                pub const fn code(self) -> u64 {
                    self as u64
                }

                /// What a code stands for; `None` if it is no code.
                pub const fn from_code(code: u64) -> Option<$name> {
                    match code {
                        $($code => Some($name::$case),)*
                        _ => None,
                    }
                }
            }
        )*
        #[cfg(test)]
        pub(crate) const CODES: &[(&str, u64)] = &[$($((stringify!($header), $name::$case.code()),)*)*];
    };
}

codes! {
    /// The kind of a file, by which its table is chosen.
    FileKind {
        /// A conventional zone, or a run of them: read and written anywhere.
        Conventional = 0, CNV;
        /// A sequential zone: written at its size only, in whole blocks.
        Sequential = 1, SEQ;
    }

    /// What the disk has to do.
    CommandKind {
        /// Read the bytes at the address.
        Read = 0, COMMAND_READ;
        /// Write bytes at the address.
        Write = 1, COMMAND_WRITE;
        /// Reset the zone at the address: its write pointer goes to its start.
        Reset = 2, COMMAND_RESET;
        /// Finish the zone at the address: its write pointer goes to its capacity.
        Finish = 3, COMMAND_FINISH;
        /// Flush.
        Flush = 4, COMMAND_FLUSH;
        /// Open the zone at the address: its write pointer stays.
        Open = 5, COMMAND_OPEN;
        /// Close the zone at the address: its write pointer stays.
        Close = 6, COMMAND_CLOSE;
    }

    /// The condition of a file's zones.
    Condition {
        /// All is well.
        Healthy = 0, HEALTHY;
        /// Can't be written any more.
        ReadOnly = 1, ZONE_READ_ONLY;
        /// Can't be read any more.
        Offline = 2, OFFLINE;
    }

    /// What may be done with a file.
    Access {
        /// Nothing.
        None = 0, ACCESS_NONE;
        /// Reading.
        Read = 1, ACCESS_READ;
        /// Reading and writing.
        Write = 2, ACCESS_WRITE;
    }

    /// What a failure does to its file and to the mount: the option `errors=`.
    #[non_exhaustive]
    Policy {
        /// `remount-ro`: the whole mount becomes read-only.
        RemountReadOnly = 0, REMOUNT_RO;
        /// `zone-ro`: the file becomes read-only.
        ZoneReadOnly = 1, ZONE_RO;
        /// `zone-offline`: the file goes offline.
        ZoneOffline = 2, ZONE_OFFLINE;
        /// `repair`: the file takes the size that the disk has, and goes on.
        Repair = 3, REPAIR;
    }
}
