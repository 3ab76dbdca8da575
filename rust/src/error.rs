//! Why a text is refused.

use std::error;
use std::fmt;

/// Why a text is refused. What is displayed is the message of the library, one line.
#[derive(Debug)]
pub struct Error {
    kind: ErrorKind,
}

/// Which kind of refusal it is.
#[derive(Debug)]
pub enum ErrorKind {
    /// The text means nothing, and this is the message.
    Expression(String),
}

impl fmt::Display for Error {
    fn fmt(&self, f: &mut fmt::Formatter<'_>) -> fmt::Result {
        let ErrorKind::Expression(message) = &self.kind;
        f.write_str(message)
    }
}

impl error::Error for Error {}

impl From<ErrorKind> for Error {
    fn from(kind: ErrorKind) -> Error {
        Error { kind }
    }
}
