use std::fmt;

/// A place of a text that cannot be read, and what would be right there.
///
/// ```
/// let wrong = forms::read_image("cards 1 rom 16").unwrap_err();
/// assert_eq!(wrong.to_string(), "line 1, column 9: `room` is due, not `rom`");
/// ```
#[derive(Clone, Debug, PartialEq, Eq)]
pub struct Wrong {
    /// The line, from 1.
    pub line: usize,
    /// The column, in characters from 1.
    pub column: usize,
    /// What is wrong there.
    pub told: String,
}

/// What was read, or why not.
pub type Got<T> = Result<T, Wrong>;

impl Wrong {
    /// This is wrong at that place.
    ///
    /// ```
    /// assert_eq!(forms::Wrong::new(2, 1, "no card").to_string(), "line 2, column 1: no card");
    /// ```
    pub fn new(line: usize, column: usize, told: impl Into<String>) -> Wrong {
        let told = told.into();
        Wrong { line, column, told }
    }
}

impl fmt::Display for Wrong {
    fn fmt(&self, to: &mut fmt::Formatter) -> fmt::Result {
        let Wrong { line, column, told } = self;
        write!(to, "line {line}, column {column}: {told}")
    }
}

impl std::error::Error for Wrong {}
