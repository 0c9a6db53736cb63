//! Stand-ins for two things that the originals take from their own crate.

/// Chemistry, as `fgumi-consensus`'s lib.rs declares it.
#[derive(Debug, Clone, Copy, PartialEq, Eq, Default)]
pub enum MethylationMode {
    #[default]
    Disabled,
    EmSeq,
    Taps,
}

/// `SourceRead` with the one field that methylation.rs looks at.
pub mod vanilla_caller {
    pub(crate) struct SourceRead {
        pub(crate) bases: Vec<u8>,
    }
}
