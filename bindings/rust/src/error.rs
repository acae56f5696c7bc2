//! Why something was not parsed.

use std::error::Error;
use std::fmt;
use std::io;

use crate::ffi;

type BoxedError = Box<dyn Error + Send + Sync + 'static>;

/// The result of a call of this crate: a value, or why there is none.
pub type ParseResult<T> = Result<T, ParseError>;

/// Why something was not parsed: a kind, and possibly a message or an error from outside.
#[derive(Debug)]
pub struct ParseError {
    code: ErrorKind,
    source: Source,
}

/// What an error has besides its kind.
#[derive(Debug)]
enum Source {
    None,
    /// A message of this crate, for which no memory is needed.
    Message(Message),
    Outside(BoxedError),
}

/// The kinds of errors.
#[derive(Copy, Clone, Debug, Eq, PartialEq, Hash)]
#[non_exhaustive]
pub enum ErrorKind {
    /// Bytes are missing: at the front of a record that is cut short, or because nothing is left.
    Eof,

    /// A size or a length of the record contradicts another.
    InvalidRecord,

    /// The configuration has a read format that does not fit what is read, or a byte order that is
    /// neither little nor big endian.
    UnsupportedConfig,

    /// The bytes contain something that this version does not read.
    UnsupportedData,

    /// The buffer failed, or a `Parse` type of your own refused.
    External,
}

impl ErrorKind {
    fn text(self) -> &'static str {
        match self {
            ErrorKind::Eof => "unexpected EOF during parsing",
            ErrorKind::InvalidRecord => "invalid record",
            ErrorKind::UnsupportedConfig => "unsupported config",
            ErrorKind::UnsupportedData => "unsupported serialized data",
            ErrorKind::External => "user-provided error",
        }
    }
}

/// A message as an error.
#[derive(Debug)]
struct Message(&'static str);

impl fmt::Display for Message {
    fn fmt(&self, f: &mut fmt::Formatter<'_>) -> fmt::Result {
        f.write_str(self.0)
    }
}

impl Error for Message {}

/// Why there is no record, besides the kind: `enum ped_reason`.
#[derive(Copy, Clone)]
pub(crate) enum Reason {
    SmallHeader = 1,
    NoRoomForId = 2,
    SingleRead = 5,
    GroupRead = 6,
    ReadFormat = 7,
    AttributeSize = 9,
    AttributeTail = 10,
}

/// The message of a reason, if there is one.
fn message(reason: u16) -> Option<&'static str> {
    Some(match reason {
        1 => "header size was too small to be valid",
        2 => {
            "config has sample_id_all bit set but record does not have enough data to store the \
             sample_id"
        }
        3 => "build_id had invalid length",
        4 => "stack dyn_size was greater than the record size",
        5 => "attempted to parse a SingleRead with a config that has GROUP set in read_format",
        6 => {
            "attempted to parse a GroupRead with a config that does not have GROUP set in \
             read_format"
        }
        7 => "read_format contains unsupported flags",
        8 => "number of elements in group read was too large for data type",
        9 => "not a valid size for a perf_event_attr struct",
        10 => {
            "serialized perf_event_attr contains fields not supported by this version of \
             perf-event-data"
        }
        _ => return None,
    })
}

impl ParseError {
    /// Makes an error of the kind [`ErrorKind::External`], from an error or a text.
    #[cold]
    pub fn new<E>(error: E) -> Self
    where
        E: Into<BoxedError>,
    {
        Self::from(error.into())
    }

    /// Makes an error of the kind [`ErrorKind::Eof`].
    #[cold]
    pub fn eof() -> Self {
        Self {
            code: ErrorKind::Eof,
            source: Source::None,
        }
    }

    /// Returns the kind.
    #[inline]
    pub fn kind(&self) -> ErrorKind {
        self.code
    }

    #[cold]
    pub(crate) fn custom(code: ErrorKind, message: &'static str) -> Self {
        Self {
            code,
            source: Source::Message(Message(message)),
        }
    }

    #[cold]
    pub(crate) fn because(reason: Reason) -> Self {
        let code = match reason {
            Reason::SmallHeader | Reason::NoRoomForId | Reason::AttributeSize => {
                ErrorKind::InvalidRecord
            }
            Reason::SingleRead | Reason::GroupRead | Reason::ReadFormat => {
                ErrorKind::UnsupportedConfig
            }
            Reason::AttributeTail => ErrorKind::UnsupportedData,
        };
        Self::custom(code, message(reason as u16).unwrap_or_default())
    }

    /// The error of a refused frame.
    #[cold]
    pub(crate) fn refused(frame: &ffi::Frame) -> Self {
        let code = match frame.refusal {
            1 => ErrorKind::Eof,
            2 => ErrorKind::InvalidRecord,
            3 => ErrorKind::UnsupportedConfig,
            _ => ErrorKind::UnsupportedData,
        };
        match message(frame.reason) {
            Some(text) => Self::custom(code, text),
            None => Self {
                code,
                source: Source::None,
            },
        }
    }
}

impl fmt::Display for ParseError {
    fn fmt(&self, f: &mut fmt::Formatter<'_>) -> fmt::Result {
        f.write_str(self.code.text())?;
        match self.source() {
            Some(source) => write!(f, ": {source}"),
            None => Ok(()),
        }
    }
}

impl Error for ParseError {
    fn source(&self) -> Option<&(dyn Error + 'static)> {
        match &self.source {
            Source::None => None,
            Source::Message(message) => Some(message),
            Source::Outside(error) => Some(&**error),
        }
    }
}

impl From<BoxedError> for ParseError {
    #[cold]
    fn from(error: BoxedError) -> Self {
        Self {
            code: ErrorKind::External,
            source: Source::Outside(error),
        }
    }
}

impl From<io::Error> for ParseError {
    #[cold]
    fn from(error: io::Error) -> Self {
        Self::new(error)
    }
}
