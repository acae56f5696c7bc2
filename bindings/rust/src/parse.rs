//! Parsing of records, and of types of your own.
//!
//! A [`Parser`] combines a buffer with a [`ParseConfig`]. [`Record`] is the type to
//! begin with:
//!
//! ```
//! use perf_event_data::endian::Little;
//! use perf_event_data::parse::{ParseConfig, Parser};
//! use perf_event_data::Record;
//!
//! # fn main() -> perf_event_data::parse::ParseResult<()> {
//! // a LOST_SAMPLES record: eight samples were lost
//! let data: &[u8] = &[13, 0, 0, 0, 0, 0, 16, 0, 8, 0, 0, 0, 0, 0, 0, 0];
//! let mut parser = Parser::new(data, ParseConfig::<Little>::default());
//! match parser.parse()? {
//!     Record::LostSamples(record) => assert_eq!(record.lost, 8),
//!     other => panic!("another record: {other:?}"),
//! }
//! # Ok(())
//! # }
//! ```
//!
//! A type of your own implements [`Parse`]; [`Parser::parse_metadata`] takes the header and the
//! sample id off a record, and the type then reads the bytes between them:
//!
//! ```
//! use perf_event_data::endian::{Endian, Little};
//! use perf_event_data::parse::{Parse, ParseBuf, ParseConfig, ParseResult, Parser};
//!
//! struct Place {
//!     ip: u64,
//!     tid: u32,
//! }
//!
//! impl<'p> Parse<'p> for Place {
//!     fn parse<B, E>(p: &mut Parser<B, E>) -> ParseResult<Self>
//!     where
//!         B: ParseBuf<'p>,
//!         E: Endian,
//!     {
//!         let ip = p.parse()?;
//!         p.parse_u32()?;
//!         Ok(Place { ip, tid: p.parse()? })
//!     }
//! }
//!
//! # fn main() -> perf_event_data::parse::ParseResult<()> {
//! let data: &[u8] = &[
//!     9, 0, 0, 0, 0, 0, 24, 0, 1, 0, 0, 0, 0, 0, 0, 0, 2, 0, 0, 0, 3, 0, 0, 0,
//! ];
//! let mut parser = Parser::new(data, ParseConfig::<Little>::default());
//! let (mut body, metadata) = parser.parse_metadata()?;
//! assert_eq!(metadata.ty(), 9);
//! let place: Place = body.parse()?;
//! assert_eq!((place.ip, place.tid), (1, 3));
//! # Ok(())
//! # }
//! ```

use std::borrow::Cow;
use std::mem::size_of;

use crate::endian::{Endian, Native};
use crate::error::Reason;
use crate::ffi::{Config, Place};
use crate::flat::{in_place, Flat, HEADER, MAX_BODY};
use crate::parsebuf::ParseBufCursor;
use crate::records::{Record, SampleId};
use crate::sys::{self, perf_event_attr, perf_event_header, SAMPLE_ID_ALL};
use crate::visitor::{visit, RecordMetadata, RecordVisitor, Visitor};

pub use crate::config::ParseConfig;
pub use crate::error::{ErrorKind, ParseError, ParseResult};
pub use crate::parsebuf::{ParseBuf, ParseBufChunk};

/// A type that can be parsed.
pub trait Parse<'p>: Sized {
    /// Parses a value.
    fn parse<B, E>(p: &mut Parser<B, E>) -> ParseResult<Self>
    where
        E: Endian,
        B: ParseBuf<'p>;
}

/// Reads values from a buffer, under a configuration.
///
/// [`ErrorKind::Eof`] has two meanings for a record: nothing is left, or the record is cut short,
/// and others may follow. To read all records, loop by [`frames`](crate::frames) or
/// [`read_records`](crate::read_records), which tell the two apart.
///
/// After an error it is not stated how many bytes were taken, except that a record takes those of
/// its own frame: a refused record affects no other.
#[derive(Clone)]
pub struct Parser<B, E> {
    config: ParseConfig<E>,
    data: B,
}

/// Which bytes a body takes of those that come next.
pub(crate) enum Extent {
    /// A fixed number.
    Fixed(usize),
    /// All of them.
    Rest,
    /// As many as this returns for the record.
    Until(fn(&Flat<'_, '_>) -> usize),
}

impl<'p, B, E> Parser<B, E>
where
    E: Endian,
    B: ParseBuf<'p>,
{
    /// Returns a parser of the bytes in a buffer.
    #[inline]
    pub fn new(data: B, mut config: ParseConfig<E>) -> Self {
        config.complete();
        Self { config, data }
    }

    /// Returns the configuration.
    #[inline]
    pub fn config(&self) -> &ParseConfig<E> {
        &self.config
    }

    /// Returns the byte order.
    #[inline]
    pub fn endian(&self) -> &E {
        self.config.endian()
    }

    /// Reads the attribute at the front, and returns a parser of the bytes after it, under the
    /// attribute's configuration and in the same byte order.
    pub fn after_attribute(mut self) -> ParseResult<Self> {
        let attr: perf_event_attr = self.parse()?;
        let config = ParseConfig::<Native>::from(attr).with_endian(self.endian().clone());
        Ok(Self::new(self.data, config))
    }

    /// Whether no byte is left.
    pub(crate) fn is_at_end(&mut self) -> ParseResult<bool> {
        match self.data.chunk() {
            Ok(chunk) => Ok(chunk.is_empty()),
            Err(error) if error.kind() == ErrorKind::Eof => Ok(true),
            Err(error) => Err(error),
        }
    }

    /// Parses a value of a type.
    #[inline]
    pub fn parse<P: Parse<'p>>(&mut self) -> ParseResult<P> {
        P::parse(self)
    }

    /// Calls a function with this parser, and returns its result.
    pub fn parse_with<F, R>(&mut self, func: F) -> ParseResult<R>
    where
        F: FnOnce(&mut Self) -> ParseResult<R>,
    {
        func(self)
    }

    /// Parses a value of a type if `parse` is true; otherwise nothing is read.
    pub fn parse_if<P: Parse<'p>>(&mut self, parse: bool) -> ParseResult<Option<P>> {
        self.parse_if_with(parse, P::parse)
    }

    /// Calls a function with this parser if `parse` is true; otherwise nothing is read.
    pub fn parse_if_with<F, R>(&mut self, parse: bool, func: F) -> ParseResult<Option<R>>
    where
        F: FnOnce(&mut Self) -> ParseResult<R>,
    {
        if parse {
            func(self).map(Some)
        } else {
            Ok(None)
        }
    }

    /// Parses a `u8`.
    pub fn parse_u8(&mut self) -> ParseResult<u8> {
        let [byte] = self.parse_array()?;
        Ok(byte)
    }

    /// Parses a `u16`.
    pub fn parse_u16(&mut self) -> ParseResult<u16> {
        let bytes = self.parse_array()?;
        Ok(self.endian().convert_u16(bytes))
    }

    /// Parses a `u32`.
    pub fn parse_u32(&mut self) -> ParseResult<u32> {
        let bytes = self.parse_array()?;
        Ok(self.endian().convert_u32(bytes))
    }

    /// Parses a `u64`.
    pub fn parse_u64(&mut self) -> ParseResult<u64> {
        let bytes = self.parse_array()?;
        Ok(self.endian().convert_u64(bytes))
    }

    #[inline]
    pub(crate) fn parse_array<const N: usize>(&mut self) -> ParseResult<[u8; N]> {
        let mut array = [0; N];
        if N == 0 {
            return Ok(array);
        }
        let chunk = self.data.chunk()?;
        match chunk.get(..N) {
            Some(bytes) => array.copy_from_slice(bytes),
            None => return self.parse_array_in_pieces(),
        }
        self.data.advance(N);
        Ok(array)
    }

    /// The same of bytes that are in several chunks, or cut off.
    #[cold]
    fn parse_array_in_pieces<const N: usize>(&mut self) -> ParseResult<[u8; N]> {
        let mut array = [0; N];
        let mut filled = 0;
        while filled < N {
            let chunk = self.data.chunk()?.first(N - filled);
            let count = chunk.len();
            if count == 0 {
                return Err(ParseError::eof());
            }
            array[filled..filled + count].copy_from_slice(&chunk);
            self.data.advance(count);
            filled += count;
        }
        Ok(array)
    }

    /// Returns the next `len` bytes, borrowed if the buffer has all of them as one
    /// [`External`](ParseBufChunk::External) chunk.
    pub fn parse_bytes(&mut self, len: usize) -> ParseResult<Cow<'p, [u8]>> {
        let (bytes, missing) = self.up_to(len)?;
        if missing {
            Err(ParseError::eof())
        } else {
            Ok(bytes)
        }
    }

    /// Returns all bytes that are left, borrowed if the buffer has them as one
    /// [`External`](ParseBufChunk::External) chunk.
    pub fn parse_rest(&mut self) -> ParseResult<Cow<'p, [u8]>> {
        Ok(self.up_to(usize::MAX)?.0)
    }

    /// Returns all bytes that are left, without the zero bytes at their end.
    pub fn parse_rest_trim_nul(&mut self) -> ParseResult<Cow<'p, [u8]>> {
        let mut rest = self.parse_rest()?;
        let len = rest
            .iter()
            .rposition(|&byte| byte != 0)
            .map_or(0, |at| at + 1);
        match &mut rest {
            Cow::Borrowed(bytes) => *bytes = &bytes[..len],
            Cow::Owned(bytes) => bytes.truncate(len),
        }
        Ok(rest)
    }

    /// The next `len` bytes or as many as there are, and whether some are missing.
    fn up_to(&mut self, len: usize) -> ParseResult<(Cow<'p, [u8]>, bool)> {
        let mut bytes = Cow::Borrowed(&[][..]);
        while bytes.len() < len {
            let chunk = match self.data.chunk() {
                Ok(chunk) => chunk.first(len - bytes.len()),
                Err(error) if error.kind() == ErrorKind::Eof => return Ok((bytes, true)),
                Err(error) => return Err(error),
            };
            let count = chunk.len();
            if count == 0 {
                return Ok((bytes, true));
            }
            if bytes.is_empty() {
                bytes = chunk.to_cow();
            } else {
                bytes.to_mut().extend_from_slice(&chunk);
            }
            self.data.advance(count);
        }
        Ok((bytes, false))
    }

    /// Returns the next `len` values in place, or `None` if they are not in this machine's order,
    /// not aligned, or not in one [`External`](ParseBufChunk::External) chunk; then nothing is
    /// taken.
    ///
    /// # Safety
    /// Any bytes of its size must be a value of the type.
    pub unsafe fn parse_slice_direct<T>(&mut self, len: usize) -> ParseResult<Option<&'p [T]>>
    where
        T: Copy,
    {
        let bytes = match (self.endian().is_native(), len.checked_mul(size_of::<T>())) {
            (true, Some(0)) | (false, _) | (_, None) => return Ok(None),
            (true, Some(bytes)) => bytes,
        };
        let values = match self.data.chunk()? {
            ParseBufChunk::External(chunk) if chunk.len() >= bytes => {
                // SAFETY: any bytes are a value, as the caller states.
                unsafe { in_place(&chunk[..bytes]) }
            }
            _ => None,
        };
        if values.is_some() {
            self.data.advance(bytes);
        }
        Ok(values)
    }

    /// Returns the next `len` values, in place if [`parse_slice_direct`](Self::parse_slice_direct)
    /// can; otherwise they are parsed.
    ///
    /// # Safety
    /// Any bytes of its size must be a value of the type.
    pub unsafe fn parse_slice<T>(&mut self, len: usize) -> ParseResult<Cow<'p, [T]>>
    where
        T: Parse<'p> + Copy,
    {
        if len == 0 {
            return Ok(Cow::Borrowed(&[]));
        }
        // SAFETY: as the caller states.
        match unsafe { self.parse_slice_direct(len)? } {
            Some(values) => Ok(Cow::Borrowed(values)),
            None => Ok(Cow::Owned(self.parse_repeated(len)?)),
        }
    }

    /// Parses `len` values, one after another.
    pub fn parse_repeated<T: Parse<'p>>(&mut self, len: usize) -> ParseResult<Vec<T>> {
        // no more memory than the bytes that are left may need
        let bytes = self.data.remaining_hint().unwrap_or(1 << 14);
        let mut values = Vec::with_capacity(len.min(bytes / size_of::<T>().max(1)));
        for _ in 0..len {
            values.push(self.parse()?);
        }
        Ok(values)
    }

    /// Returns the metadata of the next record, and a parser of the bytes between its header and
    /// its sample id.
    ///
    /// That parser has the same configuration; the record's `misc` is in the metadata alone.
    pub fn parse_metadata(
        &mut self,
    ) -> ParseResult<(Parser<impl ParseBuf<'p>, E>, RecordMetadata)> {
        let header = self.parse()?;
        self.parse_metadata_with_header(header)
    }

    /// Does the same as [`parse_metadata`](Self::parse_metadata), for a record whose header was
    /// parsed before.
    pub fn parse_metadata_with_header(
        &mut self,
        header: perf_event_header,
    ) -> ParseResult<(Parser<impl ParseBuf<'p>, E>, RecordMetadata)> {
        let mut body = self.rest_of_frame(header)?;
        let body_len = body
            .len()
            .checked_sub(self.config.id_len(header.type_))
            .ok_or_else(|| ParseError::because(Reason::NoRoomForId))?;
        let sample_id = self.sample_id(&body[body_len..])?;
        match &mut body {
            Cow::Borrowed(bytes) => *bytes = &bytes[..body_len],
            Cow::Owned(bytes) => bytes.truncate(body_len),
        }
        let metadata = RecordMetadata::from_parts(header.type_, header.misc, sample_id);
        let parser = Parser::new(ParseBufCursor::new(body), self.config.clone());
        Ok((parser, metadata))
    }

    /// The bytes after a header that are of the same frame.
    fn rest_of_frame(&mut self, header: perf_event_header) -> ParseResult<Cow<'p, [u8]>> {
        match usize::from(header.size).checked_sub(HEADER) {
            Some(len) => self.parse_bytes(len),
            None => Err(ParseError::because(Reason::SmallHeader)),
        }
    }

    /// The sample id in these bytes: that of a record without a body.
    pub(crate) fn sample_id(&self, bytes: &[u8]) -> ParseResult<SampleId> {
        if bytes.is_empty() {
            return Ok(SampleId::default());
        }
        let order = self.config.order()?;
        let header = (sys::PERF_RECORD_SWITCH, 0);
        let bytes = ParseBufChunk::Temporary(bytes);
        let mut place = Place::new();
        let fields = self.config.fields();
        let flat = Flat::after_header(fields, order, header, &[], bytes, &mut place)?;
        Ok(SampleId::of(flat.frame))
    }

    /// Parses the next record, and hands it to a visitor.
    #[inline]
    pub fn parse_record<V: Visitor<'p>>(&mut self, visitor: V) -> ParseResult<V::Output> {
        self.next_record(|flat| visit(flat, visitor))
    }

    /// Parses the next record: what is made of it.
    #[inline]
    pub(crate) fn next_record<T>(
        &mut self,
        make: impl FnOnce(&Flat<'_, 'p>) -> T,
    ) -> ParseResult<T> {
        let order = self.config.order()?;
        let chunk = self.data.chunk()?;
        let whole = match *chunk {
            [_, _, _, _, _, _, a, b, ..] => usize::from(order.two([a, b])).max(HEADER),
            _ => usize::MAX,
        };
        if whole > chunk.len() {
            return self.next_record_in_pieces(make);
        }
        let mut place = Place::new();
        let fields = self.config.fields();
        let flat = match Flat::first(fields, order, chunk.first(whole), &mut place) {
            Ok(flat) => flat,
            Err(error) => {
                self.data.advance(whole);
                return Err(error);
            }
        };
        let output = make(&flat);
        self.data.advance(whole);
        Ok(output)
    }

    /// The same for a record that is in several chunks, or cut off.
    #[cold]
    fn next_record_in_pieces<T>(
        &mut self,
        make: impl FnOnce(&Flat<'_, 'p>) -> T,
    ) -> ParseResult<T> {
        let order = self.config.order()?;
        let header: [u8; HEADER] = self.parse_array()?;
        let whole = usize::from(order.two([header[6], header[7]]));
        let rest = self.parse_bytes(whole.saturating_sub(HEADER))?;
        let whole = [&header[..], &rest].concat();
        let mut place = Place::new();
        let chunk = ParseBufChunk::Temporary(&whole);
        let flat = Flat::first(self.config.fields(), order, chunk, &mut place)?;
        Ok(make(&flat))
    }

    /// Does the same as [`parse_record`](Self::parse_record), for a record whose header was parsed
    /// before.
    pub fn parse_record_with_header<V: Visitor<'p>>(
        &mut self,
        visitor: V,
        header: perf_event_header,
    ) -> ParseResult<V::Output> {
        let order = self.config.order()?;
        let rest = self.rest_of_frame(header)?;
        let chunk = ParseBufChunk::of(&rest);
        let header = (header.type_, header.misc);
        let mut place = Place::new();
        let fields = self.config.fields();
        let flat = Flat::after_header(fields, order, header, &[], chunk, &mut place)?;
        Ok(visit(&flat, visitor))
    }

    /// Parses the record of a header that was parsed before. Its sample id is not read, so that
    /// nothing has to be copied if the next chunk has the whole frame.
    #[inline]
    pub(crate) fn record_after(&mut self, header: perf_event_header) -> ParseResult<Record<'p>> {
        let order = self.config.order()?;
        let len = usize::from(header.size).saturating_sub(HEADER);
        if len == 0 {
            return self.parse_record_with_header(RecordVisitor, header);
        }
        let chunk = self.data.chunk()?;
        if len > chunk.len() {
            return self.parse_record_with_header(RecordVisitor, header);
        }
        let Some(body) = len.checked_sub(self.config.id_len(header.type_)) else {
            self.data.advance(len);
            return Err(ParseError::because(Reason::NoRoomForId));
        };
        let mut place = Place::new();
        let (fields, body) = (self.config.fields(), chunk.first(body));
        let flat = match Flat::of_body(fields, order, (header.type_, header.misc), body, &mut place)
        {
            Ok(flat) => flat,
            Err(error) => {
                self.data.advance(len);
                return Err(error);
            }
        };
        let record = Record::of(&flat);
        self.data.advance(len);
        Ok(record)
    }

    /// Parses a record's body: what is made of the record of a type that has the next bytes as its
    /// body.
    pub(crate) fn parse_body<T>(
        &mut self,
        type_: u32,
        extent: Extent,
        make: impl FnOnce(&Flat<'_, 'p>) -> T,
    ) -> ParseResult<T> {
        self.parse_part(type_, |_| {}, &[], extent, make)
    }

    /// Parses a part of a record's body: of the record of a type under a changed configuration,
    /// with `more` bytes before the next ones.
    pub(crate) fn parse_part<T>(
        &mut self,
        type_: u32,
        change: impl FnOnce(&mut Config),
        more: &[u8],
        extent: Extent,
        make: impl FnOnce(&Flat<'_, 'p>) -> T,
    ) -> ParseResult<T> {
        let order = self.config.order()?;
        let mut config = *self.config.fields();
        // the next bytes have no sample id
        config.flags &= !SAMPLE_ID_ALL;
        change(&mut config);
        let header = (type_, self.config.misc());
        let mut place = Place::new();
        let length_of = match extent {
            Extent::Fixed(len) => {
                let bytes = self.up_to(len)?.0;
                let chunk = ParseBufChunk::of(&bytes);
                let flat = Flat::of_part(&config, order, header, more, chunk, &mut place)?;
                return Ok(make(&flat));
            }
            Extent::Rest => {
                let bytes = self.parse_rest()?;
                let chunk = ParseBufChunk::of(&bytes);
                let flat = Flat::of_part(&config, order, header, more, chunk, &mut place)?;
                return Ok(make(&flat));
            }
            Extent::Until(length_of) => length_of,
        };
        // Where the record ends is known after it was read. If the next chunk alone does not
        // contain it, the chunks up to there are taken and read together.
        let room = MAX_BODY - more.len();
        let mut taken = Vec::new();
        loop {
            let chunk = match self.data.chunk() {
                Ok(chunk) => chunk.first(room - taken.len()),
                Err(error) if error.kind() == ErrorKind::Eof => ParseBufChunk::External(&[]),
                Err(error) => return Err(error),
            };
            let count = chunk.len();
            let joined: Vec<u8>;
            let bytes = if taken.is_empty() {
                chunk
            } else {
                joined = [&taken[..], &chunk].concat();
                ParseBufChunk::Temporary(&joined)
            };
            match Flat::of_part(&config, order, header, more, bytes, &mut place) {
                Ok(flat) => {
                    let value = make(&flat);
                    let length = length_of(&flat) - more.len();
                    self.data.advance(length - taken.len());
                    return Ok(value);
                }
                Err(error) if error.kind() == ErrorKind::Eof && count != 0 => {
                    taken.extend_from_slice(&chunk);
                    self.data.advance(count);
                }
                Err(error) => return Err(error),
            }
        }
    }
}

/// Implements `Parse` for types, each with what makes it of a parser.
macro_rules! parse_by {
    ($( $( #[$attr:meta] )* $type:ty: $p:ident => $value:expr; )*) => {
        $(
            impl<'p> $crate::parse::Parse<'p> for $type {
                $( #[$attr] )*
                fn parse<B, E>(
                    $p: &mut $crate::parse::Parser<B, E>,
                ) -> $crate::parse::ParseResult<Self>
                where
                    E: $crate::endian::Endian,
                    B: $crate::parse::ParseBuf<'p>,
                {
                    $value
                }
            }
        )*
    };
}

pub(crate) use parse_by;

parse_by! {
    u8: p => p.parse_u8();
    u16: p => p.parse_u16();
    u32: p => p.parse_u32();
    u64: p => p.parse_u64();
}

impl<'p, const N: usize> Parse<'p> for [u8; N] {
    fn parse<B, E>(p: &mut Parser<B, E>) -> ParseResult<Self>
    where
        E: Endian,
        B: ParseBuf<'p>,
    {
        p.parse_array()
    }
}
