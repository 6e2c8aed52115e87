//! The three numbers that bound a path.

/// The most bytes in a component, components in a path, and bytes in a path. Zero is allowed for each.
///
/// Any numbers can be put in; a call that gets one over [`Limits::BOUNDS`] refuses with
/// [`BadLimits`](crate::Refusal::BadLimits).
///
/// ```
/// use wotskrale::{reading, Limits, Refusal};
///
/// assert_eq!(reading::test_component(Limits::new(2, 2, 4096), b"ab"), Ok(()));
/// assert_eq!(reading::test_component(Limits::new(2, 2, 4097), b"ab"), Err(Refusal::BadLimits));
/// ```
#[derive(Clone, Copy, Debug, PartialEq, Eq, Hash)]
pub struct Limits {
    /// The most bytes in a component.
    pub mcl: u64,
    /// The most components in a path.
    pub mcc: u64,
    /// The most bytes in a path, over all its components.
    pub mpl: u64,
}

impl Limits {
    /// The greatest limits that the core takes.
    pub const BOUNDS: Limits = Limits::new(1024, 1024, 4096);

    /// Limits of these three numbers.
    pub const fn new(mcl: u64, mcc: u64, mpl: u64) -> Self {
        Limits { mcl, mcc, mpl }
    }

    /// Whether no number is over its bound.
    pub const fn within_bounds(self) -> bool {
        self.mcl <= Self::BOUNDS.mcl && self.mcc <= Self::BOUNDS.mcc && self.mpl <= Self::BOUNDS.mpl
    }

    /// A length that holds every packed path under these limits: 8 × (MCC + 1) + MPL bytes. A buffer of this length is never
    /// too small. For limits over the bounds it is 0, since no path is written under them.
    ///
    /// ```
    /// use wotskrale::Limits;
    ///
    /// assert_eq!(Limits::new(2, 2, 3).longest_packed(), 27);
    /// assert_eq!(Limits::new(u64::MAX, 2, 3).longest_packed(), 0);
    /// ```
    pub const fn longest_packed(self) -> usize {
        if self.within_bounds() {
            (8 * (self.mcc + 1) + self.mpl) as usize
        } else {
            0
        }
    }
}
