use lupaniele::{Mark, Pair, Stamp};

/// A stamp, as in 1.1.0; `none` for no stamp.
///
/// ```
/// use lupaniele::Stamp;
/// assert_eq!(forms::stamp(Stamp::new(1, 1, 0)), "1.1.0");
/// assert_eq!(forms::stamp(Stamp::NONE), "none");
/// ```
#[must_use]
pub fn stamp(stamp: Stamp) -> String {
    match stamp {
        Stamp::NONE => "none".into(),
        stamp => stamp.to_string(),
    }
}

/// A pair, as in (1.1.0, none).
///
/// ```
/// use lupaniele::Pair;
/// assert_eq!(forms::pair(Pair::NONE), "(none, none)");
/// ```
#[must_use]
pub fn pair(pair: Pair) -> String {
    format!("({}, {})", stamp(pair.s), stamp(pair.x))
}

/// A commit mark, as in (5, 7); `none` for no mark.
///
/// ```
/// use lupaniele::Mark;
/// assert_eq!(forms::mark(Mark::new(5, 7)), "(5, 7)");
/// assert_eq!(forms::mark(Mark::NONE), "none");
/// ```
#[must_use]
pub fn mark(mark: Mark) -> String {
    match mark {
        Mark::NONE => "none".into(),
        mark => mark.to_string(),
    }
}
