//! What stands behind a 1.
use crate::fields::Fields;
use lekchnam_host::body::ProtocolError;
use std::fmt::{self, Display, Formatter};

#[derive(Clone, Debug, Eq, PartialEq)]
pub enum Cause {
    None,
    End {
        offset: usize,
        missing: usize,
    },
    Trailing {
        count: usize,
    },
    Invalid(String),
    TooLarge {
        actual: usize,
        maximum: usize,
    },
    Admission,
    /// One that no rule has.
    Other(String),
}

impl Cause {
    pub fn parse(text: &str) -> Result<Self, String> {
        let mut fields = Fields::split(text, ':');
        let cause = match fields.next("CAUSE")? {
            "-" => Self::None,
            "end" => Self::End { offset: fields.number("OFFSET")?, missing: fields.number("MISSING")? },
            "trailing" => Self::Trailing { count: fields.number("COUNT")? },
            "invalid" => Self::Invalid(fields.next("TEXT")?.replace('_', " ")),
            "large" => Self::TooLarge { actual: fields.number("ACTUAL")?, maximum: fields.number("MAXIMUM")? },
            "admission" => Self::Admission,
            "other" => Self::Other(fields.next("TEXT")?.replace('_', " ")),
            other => return Err(format!("unknown cause {other:?}")),
        };
        fields.end()?;
        Ok(cause)
    }

    /// The text without the numbers.
    pub fn kind(&self) -> String {
        match self {
            Self::Invalid(_) => self.to_string(),
            _ => self.to_string().split(':').next().unwrap_or_default().to_owned(),
        }
    }
}

impl Display for Cause {
    fn fmt(&self, f: &mut Formatter<'_>) -> fmt::Result {
        match self {
            Self::None => write!(f, "-"),
            Self::End { offset, missing } => write!(f, "end:{offset}:{missing}"),
            Self::Trailing { count } => write!(f, "trailing:{count}"),
            Self::Invalid(text) => write!(f, "invalid:{}", text.replace(' ', "_")),
            Self::TooLarge { actual, maximum } => write!(f, "large:{actual}:{maximum}"),
            Self::Admission => write!(f, "admission"),
            Self::Other(text) => write!(f, "other:{}", text.replace(' ', "_")),
        }
    }
}

impl From<ProtocolError> for Cause {
    fn from(error: ProtocolError) -> Self {
        match error {
            ProtocolError::UnexpectedEnd { offset, needed } => Self::End { offset, missing: needed },
            ProtocolError::TrailingBytes { remaining } => Self::Trailing { count: remaining },
            ProtocolError::Invalid(invalid) => Self::Invalid(invalid.text().to_owned()),
            ProtocolError::TooLarge { actual, maximum } => Self::TooLarge { actual, maximum },
            ProtocolError::Admission => Self::Admission,
        }
    }
}
