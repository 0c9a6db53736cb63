//! Stand-in for the one type of `noodles` that methylation.rs uses: the kind of a CIGAR operation.

pub mod sam {
    pub mod alignment {
        pub mod record {
            pub mod cigar {
                pub mod op {
                    /// The operations of SAM v1, in the order of their BAM codes 0 to 8.
                    #[derive(Clone, Copy, Debug, PartialEq, Eq)]
                    pub enum Kind {
                        Match,
                        Insertion,
                        Deletion,
                        Skip,
                        SoftClip,
                        HardClip,
                        Pad,
                        SequenceMatch,
                        SequenceMismatch,
                    }

                    impl Kind {
                        /// SAM v1, table of CIGAR operations, column "consumes query".
                        #[must_use]
                        pub fn consumes_read(self) -> bool {
                            use Kind::{Insertion, Match, SequenceMatch, SequenceMismatch, SoftClip};
                            matches!(self, Match | Insertion | SoftClip | SequenceMatch | SequenceMismatch)
                        }

                        /// SAM v1, table of CIGAR operations, column "consumes reference".
                        #[must_use]
                        pub fn consumes_reference(self) -> bool {
                            use Kind::{Deletion, Match, SequenceMatch, SequenceMismatch, Skip};
                            matches!(self, Match | Deletion | Skip | SequenceMatch | SequenceMismatch)
                        }
                    }
                }
            }
        }
    }
}
