//! How tightly operators bind, by which formulas are both read and printed. A tighter operator has a greater level.

/// Looser than every operator.
pub(crate) const LOOSEST: u8 = 0;

/// The operators of state formulas.
pub(crate) mod state {
    pub(crate) const BINDER: u8 = 1;
    pub(crate) const IMPLIES: u8 = 2;
    pub(crate) const OR: u8 = 3;
    pub(crate) const AND: u8 = 4;
    /// Modalities and `!`.
    pub(crate) const PREFIX: u8 = 5;
}

/// The operators inside a modality: first those of regular formulas, then those of action formulas.
pub(crate) mod steps {
    pub(crate) const CHOICE: u8 = 1;
    pub(crate) const SEQUENCE: u8 = 2;
    pub(crate) const REPETITION: u8 = 3;
    pub(crate) const IMPLIES: u8 = 4;
    pub(crate) const OR: u8 = 5;
    pub(crate) const AND: u8 = 6;
    pub(crate) const NOT: u8 = 7;
}
