//! Frames in place, and lists of records.

use crate::endian::{Endian, Order};
use crate::error::{ErrorKind, ParseError, ParseResult, Reason};
use crate::ffi;
use crate::flat::HEADER;
use crate::parse::{ParseBuf, ParseConfig, Parser};
use crate::records::Record;
use crate::sys::perf_event_header;

/// One whole frame, in place: its header and the bytes after it, as many as the header's size
/// states. [`frames`] and [`FileFrame`](crate::file::FileFrame) have it.
#[derive(Copy, Clone, Debug)]
pub struct Frame<'p> {
    header: perf_event_header,
    bytes: &'p [u8],
}

impl<'p> Frame<'p> {
    /// Returns the header.
    pub fn header(&self) -> perf_event_header {
        self.header
    }

    /// Returns the bytes after the header.
    pub fn rest(&self) -> &'p [u8] {
        &self.bytes[HEADER..]
    }

    /// Parses the record.
    pub fn record<E: Endian>(&self, config: &ParseConfig<E>) -> ParseResult<Record<'p>> {
        Parser::new(self.bytes, config.clone()).parse()
    }

    /// Returns the kernel's number of the event that wrote the frame, for use before its
    /// configuration is known: if all events have `PERF_SAMPLE_IDENTIFIER`, and `sample_id_all` for
    /// frames other than a SAMPLE. `None` if the frame is too short, or of a type from 64 on.
    pub fn identifier<E: Endian>(&self, order: &E) -> Option<u64> {
        ffi::identifier(self.bytes, Order::of(order)? as u32)
    }
}

/// A header without a whole frame after it: its size is below 8, or fewer bytes are left than it
/// states.
#[derive(Copy, Clone, Debug)]
pub struct BadFrame {
    header: perf_event_header,
}

impl BadFrame {
    /// Returns the header.
    pub fn header(&self) -> perf_event_header {
        self.header
    }

    /// Returns [`ErrorKind::InvalidRecord`] if the size does not count the header, and
    /// [`ErrorKind::Eof`] if bytes are missing.
    pub fn kind(&self) -> ErrorKind {
        self.error().kind()
    }

    /// Returns the error that [`read_records`] lists for it.
    pub fn error(&self) -> ParseError {
        if usize::from(self.header.size) < HEADER {
            ParseError::because(Reason::SmallHeader)
        } else {
            ParseError::eof()
        }
    }
}

/// The frame at the front of bytes, and how many bytes it takes; `None` without a whole header.
pub(crate) fn first_frame<'p, E: Endian>(
    bytes: &'p [u8],
    order: &E,
) -> Option<(Result<Frame<'p>, BadFrame>, usize)> {
    let [a, b, c, d, e, f, g, h]: [u8; HEADER] = bytes.get(..HEADER)?.try_into().ok()?;
    let header = perf_event_header {
        type_: order.convert_u32([a, b, c, d]),
        misc: order.convert_u16([e, f]),
        size: order.convert_u16([g, h]),
    };
    let size = usize::from(header.size);
    Some(match bytes.get(..size) {
        Some(bytes) if size >= HEADER => (Ok(Frame { header, bytes }), size),
        _ => (Err(BadFrame { header }), size.max(HEADER).min(bytes.len())),
    })
}

/// How a list of frames ends.
#[derive(Copy, Clone, Debug, PartialEq, Eq)]
pub enum FramesEnd {
    /// No byte is left.
    Done,
    /// Fewer bytes are left than a header has.
    CutHeader,
}

impl FramesEnd {
    /// The end with so many bytes left, if it is one.
    pub(crate) fn with(left: usize) -> Option<Self> {
        match left {
            0 => Some(Self::Done),
            1..=7 => Some(Self::CutHeader),
            _ => None,
        }
    }
}

/// The frames of a slice, made by [`frames`].
#[derive(Clone, Debug)]
pub struct FrameIter<'p, E> {
    left: &'p [u8],
    order: E,
}

/// Returns the frames of these bytes, each once, in order: whole frames, and headers without one.
/// Nothing is copied.
///
/// A loop over them reads all records, whatever is refused on the way:
///
/// ```
/// use perf_event_data::endian::Little;
/// use perf_event_data::parse::ParseConfig;
/// use perf_event_data::{frames, Record};
///
/// // two LOST_SAMPLES records, of which the first is too short
/// let data: &[u8] = &[
///     13, 0, 0, 0, 0, 0, 8, 0, 13, 0, 0, 0, 0, 0, 16, 0, 8, 0, 0, 0, 0, 0, 0, 0,
/// ];
/// let config = ParseConfig::<Little>::default();
/// let records: Vec<_> = frames(data, Little)
///     .map(|frame| frame.map_err(|bad| bad.error())?.record(&config))
///     .collect();
/// assert!(records[0].is_err());
/// assert!(matches!(&records[1], Ok(Record::LostSamples(record)) if record.lost == 8));
/// ```
pub fn frames<E: Endian>(bytes: &[u8], order: E) -> FrameIter<'_, E> {
    FrameIter { left: bytes, order }
}

impl<'p, E> FrameIter<'p, E> {
    /// Returns the bytes after the frames that were returned so far.
    pub fn left(&self) -> &'p [u8] {
        self.left
    }

    /// Returns how the list ends, once all frames were returned, and `None` before that.
    pub fn end(&self) -> Option<FramesEnd> {
        FramesEnd::with(self.left.len())
    }
}

impl<'p, E: Endian> Iterator for FrameIter<'p, E> {
    type Item = Result<Frame<'p>, BadFrame>;

    fn next(&mut self) -> Option<Self::Item> {
        let (frame, taken) = first_frame(self.left, &self.order)?;
        self.left = &self.left[taken..];
        Some(frame)
    }
}

/// The frames that [`read_records`] read, and how that ended.
#[derive(Debug)]
pub struct Run<'p> {
    /// The header of each frame, and its record or why there is none.
    pub frames: Vec<(perf_event_header, ParseResult<Record<'p>>)>,
    /// How it ended.
    pub end: RunEnd,
}

/// How [`read_records`] ended.
#[derive(Debug)]
pub enum RunEnd {
    /// It listed as many frames as it was asked for.
    Limit,
    /// Nothing was left.
    Done,
    /// Fewer bytes were left than a header has.
    CutHeader,
    /// The buffer failed.
    Fault(ParseError),
}

/// Reads the records of the next frames, at most `limit`. A refused frame costs that one record,
/// and the next frame begins at its end.
pub fn read_records<'p, B, E>(parser: &mut Parser<B, E>, limit: usize) -> Run<'p>
where
    B: ParseBuf<'p>,
    E: Endian,
{
    let mut frames = Vec::new();
    let end = loop {
        if frames.len() == limit {
            break RunEnd::Limit;
        }
        match parser.is_at_end() {
            Ok(true) => break RunEnd::Done,
            Ok(false) => {}
            Err(fault) => break RunEnd::Fault(fault),
        }
        let header = match parser.parse::<perf_event_header>() {
            Ok(header) => header,
            Err(error) if error.kind() == ErrorKind::Eof => break RunEnd::CutHeader,
            Err(fault) => break RunEnd::Fault(fault),
        };
        match parser.record_after(header) {
            Err(fault) if fault.kind() == ErrorKind::External => break RunEnd::Fault(fault),
            answer => frames.push((header, answer)),
        }
    };
    Run { frames, end }
}
