//! A frame as the C library reads it, with the bytes that its spans refer to.

use std::borrow::Cow;

use crate::endian::Order;
use crate::error::{ErrorKind, ParseError, ParseResult};
use crate::ffi::{self, Config, End, Frame, Place, Span};
use crate::flags::{AuxFlags, BpfEventType, KSymbolFlags, KSymbolType};
use crate::parsebuf::ParseBufChunk;
use crate::records::NamespaceEntry;

/// How many bytes a header has.
pub(crate) const HEADER: usize = 8;

/// How many bytes a body has at most: a header's size has 16 bits.
pub(crate) const MAX_BODY: usize = u16::MAX as usize - HEADER;

/// Values that consist of numbers of eight bytes, with nothing between them.
///
/// # Safety
/// Any `COUNT` times eight bytes must be a value, with the size of it.
pub(crate) unsafe trait Words: Copy {
    /// How many numbers a value has.
    const COUNT: usize;

    /// The value of these numbers, in the order of the bytes.
    fn of(numbers: impl Fn(usize) -> u64) -> Self;
}

// SAFETY: any eight bytes are a number.
unsafe impl Words for u64 {
    const COUNT: usize = 1;

    #[inline]
    fn of(numbers: impl Fn(usize) -> u64) -> Self {
        numbers(0)
    }
}

/// The bytes as values of a type, if they are aligned for it and a whole number of values.
///
/// # Safety
/// Any bytes of the right number must be a value.
#[inline]
pub(crate) unsafe fn in_place<T: Copy>(bytes: &[u8]) -> Option<&[T]> {
    // SAFETY: any bytes are a value, as the caller states.
    let (before, values, after) = unsafe { bytes.align_to::<T>() };
    (before.is_empty() && after.is_empty()).then_some(values)
}

/// Values in place, if they are aligned and in this machine's order.
#[inline]
fn words_in_place<T: Words>(bytes: &[u8], order: Order) -> Option<&[T]> {
    if !order.is_native() {
        return None;
    }
    // SAFETY: any bytes are a value, by the contract of `Words`.
    unsafe { in_place(bytes) }
}

/// A copy of values.
fn words_copied<T: Words>(bytes: &[u8], order: Order) -> Vec<T> {
    bytes
        .chunks_exact(8 * T::COUNT)
        .map(|value| {
            T::of(|i| {
                let mut number = [0; 8];
                number.copy_from_slice(&value[8 * i..8 * i + 8]);
                order.eight(number)
            })
        })
        .collect()
}

/// The last number of the types.
macro_rules! last_number {
    ($($variant:ident($content:ty) $visit:ident $name:ident = $number:literal;)*) => {{
        let numbers = [$($number),*];
        numbers[numbers.len() - 1]
    }};
}

/// The highest type that this crate has a record of.
const LAST_TYPE: u32 = each_type!(last_number);

/// Why no frame was written.
#[cold]
fn why_no_frame(end: End) -> ParseError {
    let data = ErrorKind::UnsupportedData;
    match end {
        End::NoHeader => ParseError::eof(),
        End::NotRead => ParseError::custom(data, "the linked library has another version"),
        End::LongBody => ParseError::custom(
            data,
            "a record has no more than 65,527 bytes after its header",
        ),
    }
}

/// Why a frame has no record here.
#[cold]
fn why_no_record(frame: &Frame) -> ParseError {
    match frame.refusal {
        0 => ParseError::custom(
            ErrorKind::UnsupportedData,
            "the linked library has more types of records",
        ),
        _ => ParseError::refused(frame),
    }
}

/// The frame that was written, if it has a record here.
#[inline]
fn accepted(written: Result<&Frame, End>) -> ParseResult<&Frame> {
    match written {
        Ok(frame) if frame.refusal == 0 && frame.read <= LAST_TYPE => Ok(frame),
        Ok(frame) => Err(why_no_record(frame)),
        Err(end) => Err(why_no_frame(end)),
    }
}

/// Copies parts to bytes of the same length, one after another.
fn join(parts: [&[u8]; 3], bytes: &mut [u8]) {
    let mut left = bytes;
    for part in parts {
        let (first, rest) = left.split_at_mut(part.len());
        first.copy_from_slice(part);
        left = rest;
    }
}

/// An accepted frame, and the bytes that its spans refer to.
pub(crate) struct Flat<'tmp, 'ext: 'tmp> {
    /// The frame.
    pub(crate) frame: &'tmp Frame,
    /// The configuration under which it was read.
    pub(crate) config: &'tmp Config,
    /// The order of its numbers.
    order: Order,
    /// The bytes: of the frame, or those after a part of it.
    bytes: ParseBufChunk<'tmp, 'ext>,
    /// How many bytes of the frame come before them.
    before: usize,
}

impl<'tmp, 'ext: 'tmp> Flat<'tmp, 'ext> {
    /// The frame at the front of these bytes, which is written to `place`.
    #[inline]
    pub(crate) fn first(
        config: &'tmp Config,
        order: Order,
        bytes: ParseBufChunk<'tmp, 'ext>,
        place: &'tmp mut Place,
    ) -> ParseResult<Self> {
        Ok(Self {
            frame: accepted(ffi::read(config, &bytes, place))?,
            config,
            order,
            bytes,
            before: 0,
        })
    }

    /// The frame of a header and a body, without a sample id.
    #[inline]
    pub(crate) fn of_body(
        config: &'tmp Config,
        order: Order,
        header: (u32, u16),
        bytes: ParseBufChunk<'tmp, 'ext>,
        place: &'tmp mut Place,
    ) -> ParseResult<Self> {
        Ok(Self {
            frame: accepted(ffi::read_body(config, header, &bytes, place))?,
            config,
            order,
            bytes,
            before: HEADER,
        })
    }

    /// The frame of a header and a body, of which `more` come before the chunk.
    #[inline]
    pub(crate) fn of_part(
        config: &'tmp Config,
        order: Order,
        header: (u32, u16),
        more: &[u8],
        bytes: ParseBufChunk<'tmp, 'ext>,
        place: &'tmp mut Place,
    ) -> ParseResult<Self> {
        if more.is_empty() {
            Self::of_body(config, order, header, bytes, place)
        } else {
            Self::after_header(config, order, header, more, bytes, place)
        }
    }

    /// The frame of a header with these bytes after it, of which `more` come before the chunk.
    pub(crate) fn after_header(
        config: &'tmp Config,
        order: Order,
        (type_, misc): (u32, u16),
        more: &[u8],
        bytes: ParseBufChunk<'tmp, 'ext>,
        place: &'tmp mut Place,
    ) -> ParseResult<Self> {
        let before = HEADER + more.len();
        let size = u16::try_from(before + bytes.len()).map_err(|_| ParseError::eof())?;
        let header = order.header(type_, misc, size);
        let parts = [&header[..], more, &bytes];
        // most frames need no memory
        let mut few = [0; 512];
        let many;
        let whole = match few.get_mut(..usize::from(size)) {
            Some(whole) => {
                join(parts, whole);
                &*whole
            }
            None => {
                many = parts.concat();
                &many
            }
        };
        Ok(Self {
            frame: accepted(ffi::read(config, whole, place))?,
            config,
            order,
            bytes,
            before,
        })
    }

    /// The bytes of a span.
    #[inline]
    pub(crate) fn part(&self, span: usize) -> Cow<'ext, [u8]> {
        let Span { at, len } = self.frame.spans[span];
        if len == 0 {
            return Cow::Borrowed(&[]);
        }
        let from = at as usize - self.before;
        self.bytes.part(from, from + len as usize)
    }

    /// The values of a span: borrowed if their bytes are, aligned and in this machine's order.
    #[inline]
    pub(crate) fn words<T: Words>(&self, span: usize) -> Cow<'ext, [T]> {
        let Span { at, len } = self.frame.spans[span];
        if len == 0 {
            return Cow::Borrowed(&[]);
        }
        let from = at as usize - self.before;
        let to = from + len as usize;
        if let ParseBufChunk::External(bytes) = self.bytes {
            if let Some(values) = words_in_place(&bytes[from..to], self.order) {
                return Cow::Borrowed(values);
            }
        }
        Cow::Owned(words_copied(&self.bytes[from..to], self.order))
    }

    /// A number of the record.
    #[inline]
    pub(crate) fn number(&self, at: usize) -> u64 {
        self.frame.numbers[at]
    }

    /// A number of the record that has four bytes.
    #[inline]
    pub(crate) fn half(&self, at: usize) -> u32 {
        self.frame.numbers[at] as u32
    }

    /// The number of eight bytes at an offset after the header.
    pub(crate) fn stored(&self, at: usize) -> u64 {
        let from = HEADER + at - self.before;
        let mut number = [0; 8];
        number.copy_from_slice(&self.bytes[from..from + 8]);
        self.order.eight(number)
    }
}

/// A field of a record, which is at a place among the numbers of a frame or its spans.
pub(crate) trait Field<'a> {
    fn of(flat: &Flat<'_, 'a>, at: usize) -> Self;
}

macro_rules! fields {
    ($( $type:ty: $flat:ident, $at:ident => $value:expr; )*) => {
        $(
            impl<'a> Field<'a> for $type {
                #[inline]
                fn of($flat: &Flat<'_, 'a>, $at: usize) -> Self {
                    $value
                }
            }
        )*
    };
}

fields! {
    u16: flat, at => flat.number(at) as u16;
    u32: flat, at => flat.half(at);
    u64: flat, at => flat.number(at);
    AuxFlags: flat, at => AuxFlags::from_bits_retain(flat.number(at));
    BpfEventType: flat, at => BpfEventType(flat.number(at) as u16);
    KSymbolFlags: flat, at => KSymbolFlags::from_bits_retain(flat.number(at) as u16);
    KSymbolType: flat, at => KSymbolType(flat.number(at) as u16);
    [u8; 8]: flat, at => flat.part(at)[..].try_into().unwrap_or_default();
    Cow<'a, [u8]>: flat, at => flat.part(at);
    Cow<'a, [NamespaceEntry]>: flat, at => flat.words(at);
}
