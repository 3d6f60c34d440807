use std::fmt::Display;

/// What is to be printed, and the exit status: 0 or 1; and whether a file may be changed, which the last line says.
#[derive(Debug)]
pub struct Done {
    pub out: Vec<u8>,
    pub status: u8,
    pub changed: bool,
}

/// Why nothing is printed.
#[derive(Debug)]
pub enum Failed {
    /// Something is refused or unsound: exit status 1.
    Refused(String),
    /// Wrong use, or a file that cannot be read or written: exit status 2.
    Unusable(String),
}

pub type Outcome = Result<Done, Failed>;

impl Done {
    /// This is printed, and all is well.
    pub fn well(out: impl Into<Vec<u8>>) -> Outcome {
        Done::saying(out, true)
    }

    /// This is printed, and all is well or not.
    pub fn saying(out: impl Into<Vec<u8>>, well: bool) -> Outcome {
        let (out, status) = (out.into(), u8::from(!well));
        let changed = false;
        Ok(Done {
            out,
            status,
            changed,
        })
    }

    /// The same, of a file that may be changed.
    pub fn changed(out: impl Into<Vec<u8>>, well: bool) -> Outcome {
        let changed = true;
        Done::saying(out, well).map(|done| Done { changed, ..done })
    }

    /// The last line of what is printed.
    pub fn last_line(&self) -> String {
        let out = String::from_utf8_lossy(&self.out);
        out.lines().next_back().unwrap_or_default().into()
    }
}

/// For what is asked whether it is right: that it is not is an answer, to be printed.
pub fn verdict<T>(asked: Result<T, Failed>) -> Result<Result<T, Done>, Failed> {
    match asked {
        Ok(right) => Ok(Ok(right)),
        Err(Failed::Refused(told)) => Done::saying(format!("{told}\n"), false).map(Err),
        Err(unusable) => Err(unusable),
    }
}

/// So many of something: `1 card`, `2 cards`.
pub fn some(count: impl Into<u64>, what: &str) -> String {
    match count.into() {
        1 => format!("1 {what}"),
        count => format!("{count} {what}s"),
    }
}

impl Failed {
    /// The same as a wrong use: a list or a text that is refused is none.
    pub fn wrong_use(self) -> Failed {
        match self {
            Failed::Refused(told) | Failed::Unusable(told) => Failed::Unusable(told),
        }
    }

    /// The same, with the rule by which it is refused.
    pub fn by_rule(self, rule: &str) -> Failed {
        match self {
            Failed::Refused(told) => Failed::Refused(format!("{told} (rule {rule})")),
            unusable => unusable,
        }
    }

    /// What was called for cannot be done.
    pub fn unusable(told: impl Display) -> Failed {
        Failed::Unusable(told.to_string())
    }

    /// What was called for is refused.
    pub fn refused(told: impl Display) -> Failed {
        Failed::Refused(told.to_string())
    }
}
