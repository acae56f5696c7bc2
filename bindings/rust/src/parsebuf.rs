//! Where a parser gets its bytes from.

use std::borrow::Cow;
use std::io::{BufRead, BufReader, Read};
use std::ops::Deref;

use crate::error::{ParseError, ParseResult};

/// The next bytes of a [`ParseBuf`].
///
/// What is parsed of [`External`](Self::External) bytes is borrowed; of
/// [`Temporary`](Self::Temporary) ones it is copied.
#[derive(Copy, Clone, Debug)]
pub enum ParseBufChunk<'tmp, 'ext: 'tmp> {
    /// Bytes of the buffer itself, which are there until it is advanced.
    Temporary(&'tmp [u8]),

    /// Bytes that stay when the buffer is dropped.
    External(&'ext [u8]),
}

impl<'tmp, 'ext: 'tmp> ParseBufChunk<'tmp, 'ext> {
    /// The first `len` of the bytes, or all if there are fewer.
    #[inline]
    pub(crate) fn first(self, len: usize) -> Self {
        match self {
            Self::Temporary(bytes) => Self::Temporary(&bytes[..len.min(bytes.len())]),
            Self::External(bytes) => Self::External(&bytes[..len.min(bytes.len())]),
        }
    }

    /// The bytes from one offset up to another.
    #[inline]
    pub(crate) fn part(self, from: usize, to: usize) -> Cow<'ext, [u8]> {
        match self {
            Self::Temporary(bytes) => Cow::Owned(bytes[from..to].to_vec()),
            Self::External(bytes) => Cow::Borrowed(&bytes[from..to]),
        }
    }

    /// All of the bytes.
    #[inline]
    pub(crate) fn to_cow(self) -> Cow<'ext, [u8]> {
        self.part(0, self.len())
    }

    /// The bytes of a list that may be borrowed.
    #[inline]
    pub(crate) fn of(bytes: &'tmp Cow<'ext, [u8]>) -> Self {
        match bytes {
            Cow::Borrowed(bytes) => Self::External(bytes),
            Cow::Owned(bytes) => Self::Temporary(bytes),
        }
    }
}

impl<'tmp, 'ext: 'tmp> Deref for ParseBufChunk<'tmp, 'ext> {
    type Target = [u8];

    #[inline]
    fn deref(&self) -> &Self::Target {
        match *self {
            Self::Temporary(bytes) | Self::External(bytes) => bytes,
        }
    }
}

/// Bytes for a [`Parser`](crate::parse::Parser), which it takes in chunks: a slice, a
/// [`BufReader`], or a type of your own.
///
/// # Safety
/// Nothing in this crate depends on an implementation for its memory safety. The trait is unsafe so
/// that implementations written for other versions of this crate compile. One that does not meet
/// what its methods state gives wrong values, or panics.
pub unsafe trait ParseBuf<'p> {
    /// Returns the next bytes, at least one, and the same ones until [`advance`](Self::advance) is
    /// called.
    ///
    /// At the end it returns [`ParseError::eof`].
    fn chunk(&mut self) -> ParseResult<ParseBufChunk<'_, 'p>>;

    /// Takes `count` bytes, which [`chunk`](Self::chunk) returned.
    fn advance(&mut self, count: usize);

    /// Returns how many bytes are left, if the buffer knows it.
    fn remaining_hint(&self) -> Option<usize> {
        None
    }
}

// SAFETY: the trait has no requirement.
unsafe impl<'p> ParseBuf<'p> for &'p [u8] {
    #[inline]
    fn chunk(&mut self) -> ParseResult<ParseBufChunk<'_, 'p>> {
        if self.is_empty() {
            Err(ParseError::eof())
        } else {
            Ok(ParseBufChunk::External(self))
        }
    }

    #[inline]
    fn advance(&mut self, count: usize) {
        *self = &self[count..];
    }

    #[inline]
    fn remaining_hint(&self) -> Option<usize> {
        Some(self.len())
    }
}

// SAFETY: the trait has no requirement.
unsafe impl<'p, R: Read> ParseBuf<'p> for BufReader<R> {
    #[inline]
    fn chunk(&mut self) -> ParseResult<ParseBufChunk<'_, 'p>> {
        let bytes = self.fill_buf()?;
        if bytes.is_empty() {
            Err(ParseError::eof())
        } else {
            Ok(ParseBufChunk::Temporary(bytes))
        }
    }

    #[inline]
    fn advance(&mut self, count: usize) {
        self.consume(count);
    }
}

/// The bytes of a record, without its header and its sample id.
pub(crate) struct ParseBufCursor<'p> {
    bytes: Cow<'p, [u8]>,
    taken: usize,
}

impl<'p> ParseBufCursor<'p> {
    pub(crate) fn new(bytes: Cow<'p, [u8]>) -> Self {
        Self { bytes, taken: 0 }
    }
}

// SAFETY: the trait has no requirement.
unsafe impl<'p> ParseBuf<'p> for ParseBufCursor<'p> {
    #[inline]
    fn chunk(&mut self) -> ParseResult<ParseBufChunk<'_, 'p>> {
        if self.taken == self.bytes.len() {
            return Err(ParseError::eof());
        }
        Ok(match &self.bytes {
            Cow::Borrowed(bytes) => ParseBufChunk::External(&bytes[self.taken..]),
            Cow::Owned(bytes) => ParseBufChunk::Temporary(&bytes[self.taken..]),
        })
    }

    #[inline]
    fn advance(&mut self, count: usize) {
        assert!(
            count <= self.bytes.len() - self.taken,
            "advanced past the end of the buffer"
        );
        self.taken += count;
    }

    #[inline]
    fn remaining_hint(&self) -> Option<usize> {
        Some(self.bytes.len() - self.taken)
    }
}
