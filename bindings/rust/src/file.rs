//! Files that `perf record` wrote.
//!
//! A [`Recording`] is opened in memory, mapped or read. Its frames are read each under the
//! configuration of its own event, in the order of the file or in that of time:
//!
//! ```no_run
//! use perf_event_data::file::Recording;
//!
//! # fn main() -> Result<(), Box<dyn std::error::Error>> {
//! let bytes = std::fs::read("perf.data")?;
//! let recording = Recording::open(&bytes)?;
//! for entry in recording.in_order() {
//!     let record = recording.frame_at(&entry).map(|frame| frame.record());
//!     println!("{} {:?} {record:?}", entry.time(), entry.owner());
//! }
//! # Ok(())
//! # }
//! ```

use std::error::Error;
use std::fmt;

use crate::endian::{Dynamic, Endian, Native};
use crate::error::{ErrorKind, ParseError, ParseResult};
use crate::ffi;
use crate::frame::{first_frame, BadFrame, Frame, FramesEnd};
use crate::parse::ParseConfig;
use crate::records::Record;
use crate::sys::perf_event_attr;

macro_rules! open_errors {
    ($( $( #[$attr:meta] )* $name:ident = $number:literal => $text:literal, )*) => {
        /// Why a file is refused: the first check that fails. Its text says what to do.
        #[derive(Copy, Clone, Debug, PartialEq, Eq)]
        #[non_exhaustive]
        pub enum OpenError {
            $( $( #[$attr] )* $name, )*
        }

        impl OpenError {
            fn of(refusal: u32) -> Self {
                match refusal {
                    $( $number => Self::$name, )*
                    _ => Self::OtherCount,
                }
            }

            fn text(self) -> &'static str {
                match self {
                    $( Self::$name => $text, )*
                }
            }
        }
    };
}

open_errors! {
    /// It has fewer than 16 bytes, or does not begin as perf writes it.
    NotPerfData = 1 => "this is no perf.data file: pass a file that `perf record` has written",
    /// It has the format before `PERFILE2`.
    OldFormat = 2 => "this file has the format that perf wrote before 2010: record again with a \
        newer perf",
    /// Its head has an unknown size, or is cut off.
    BadHead = 3 => "the head of the file is cut off, or has an unknown size: copy the file again, \
        or record again",
    /// It is one of several files of `perf record --threads`.
    Directory = 5 => "this is one of several files of `perf record --threads`: record again \
        without that option",
    /// Its frames are compressed, by `perf record -z`.
    Compressed = 6 => "the frames are compressed: run `perf inject -i perf.data -o plain.data`, \
        or record without `-z`",
    /// The attributes end beyond the file.
    CutAttributes = 7 => "the attributes end beyond the file, so it is cut off: copy it again, or \
        record again",
    /// The frames end beyond the file.
    CutFrames = 8 => "the frames end beyond the file, so it is cut off: copy it again, or record \
        again",
    /// The ids of an event end beyond the file.
    CutIds = 9 => "the ids of an event end beyond the file, so it is cut off: copy it again, or \
        record again",
    /// The attributes are not whole entries of at least 80 bytes.
    BadEntry = 10 => "the attributes are not whole entries, so the file is damaged: copy it \
        again, or record again",
    /// It has no event.
    NoEvent = 11 => "the file has no event, so it is damaged: copy it again, or record again",
    /// An attribute is damaged.
    BadAttribute = 12 => "the attribute of an event is damaged: copy the file again, or record \
        again",
    /// An attribute has fields that this library does not know.
    NewAttribute = 13 => "an event has fields of a newer kernel than this library knows: use a \
        newer version of it",
    /// The ids of an event are not whole numbers of eight bytes.
    BadIds = 14 => "the ids of an event are not whole numbers, so the file is damaged: copy it \
        again, or record again",
    /// Two parts of the file share a byte.
    Overlap = 15 => "two parts of the file share bytes, so it is damaged: copy it again, or \
        record again",
    /// There are several events without a common place of their ids.
    NoIdPlace = 16 => "the events have their ids at different places: record all of them with \
        one `perf record`",
    /// Two events have one id.
    SharedId = 17 => "two events have one id, so the file is damaged: copy it again, or record \
        again",
    /// The linked library has another version.
    OtherCount = 19 => "an array does not have as many elements as it needs",
}

impl fmt::Display for OpenError {
    fn fmt(&self, f: &mut fmt::Formatter<'_>) -> fmt::Result {
        f.write_str(self.text())
    }
}

impl Error for OpenError {}

/// Why a feature cannot be read. Its text says what to do.
#[derive(Copy, Clone, Debug, PartialEq, Eq)]
pub enum BadFeature {
    /// It ends beyond the file.
    PastEnd,
    /// It has fewer bytes than its numbers state.
    Short,
}

impl fmt::Display for BadFeature {
    fn fmt(&self, f: &mut fmt::Formatter<'_>) -> fmt::Result {
        f.write_str(match self {
            Self::PastEnd => {
                "the feature ends beyond the file, so it is cut off: copy it again, or record again"
            }
            Self::Short => "the feature is damaged: copy the file again, or record again",
        })
    }
}

impl Error for BadFeature {}

/// The text at the front of a feature, before a zero, and the bytes after it. Its length comes first.
fn first_text(order: Dynamic, bytes: &[u8]) -> Result<(&[u8], &[u8]), BadFeature> {
    let (size, left) = first_number(order, bytes)?;
    if left.len() < size {
        return Err(BadFeature::Short);
    }
    let (text, left) = left.split_at(size);
    let end = text.iter().position(|&byte| byte == 0);
    Ok((&text[..end.unwrap_or(size)], left))
}

fn first_number(order: Dynamic, bytes: &[u8]) -> Result<(usize, &[u8]), BadFeature> {
    match *bytes {
        [a, b, c, d, ref left @ ..] => Ok((order.convert_u32([a, b, c, d]) as usize, left)),
        _ => Err(BadFeature::Short),
    }
}

/// An event of a file.
#[derive(Clone, Debug)]
pub struct Event {
    ty: u32,
    event: u64,
    name: String,
    config: ParseConfig<Dynamic>,
    ids: Vec<u64>,
}

impl Event {
    /// Returns its name in ASCII, as `perf_data events` prints it: the one that was passed to
    /// `perf record`, or what perf prints for an event of the kernel's own, or else its type and
    /// its config.
    pub fn name(&self) -> &str {
        &self.name
    }

    /// Returns the kind of event, `PERF_TYPE_*`.
    pub fn ty(&self) -> u32 {
        self.ty
    }

    /// Returns which event of that kind it is: `config` of its attribute.
    pub fn event(&self) -> u64 {
        self.event
    }

    /// Returns how its frames are read.
    pub fn config(&self) -> &ParseConfig<Dynamic> {
        &self.config
    }

    /// Returns the ids by which frames name it.
    pub fn ids(&self) -> &[u64] {
        &self.ids
    }

    fn of(order: Dynamic, bytes: &[u8], event: &ffi::Event) -> Self {
        let attr = perf_event_attr {
            sample_type: event.config.sample_type,
            read_format: event.config.read_format,
            flags: event.config.flags,
            branch_sample_type: event.config.branch_sample_type,
            sample_regs_user: event.config.sample_regs_user,
            sample_regs_intr: event.config.sample_regs_intr,
            ..Default::default()
        };
        // the library has found these inside the file
        let ids = bytes[event.ids_at as usize..].chunks_exact(8);
        Self {
            ty: event.type_,
            event: event.event,
            name: ffi::event_name(event, bytes),
            config: ParseConfig::<Native>::from(attr).with_endian(order),
            ids: ids
                .take(event.ids as usize)
                .map(|id| order.convert_u64(id.try_into().unwrap_or_default()))
                .collect(),
        }
    }
}

/// Which event a frame belongs to.
#[derive(Copy, Clone, Debug, PartialEq, Eq, PartialOrd, Ord, Hash)]
pub enum Owner {
    /// The event with that number, from 0 in the order of the file. The first one also has the
    /// records that perf made in the kernel's place.
    Event(usize),
    /// None: perf wrote it for itself.
    Perf,
    /// An event that the file does not have, by its id.
    Unknown(u64),
    /// The frame is too short for an id.
    Short,
}

/// When a frame happened, where it is, and which event it belongs to: 32 bytes.
#[derive(Copy, Clone, Debug)]
pub struct Entry(ffi::Entry);

impl Entry {
    /// Returns the time, in nanoseconds of the clock of the recording; 0 for a frame without one.
    pub fn time(&self) -> u64 {
        self.0.time
    }

    /// Returns the offset in the file at which the frame's header begins.
    pub fn at(&self) -> usize {
        self.0.at as usize
    }

    /// Returns which event the frame belongs to.
    pub fn owner(&self) -> Owner {
        match self.0.owner {
            0 => Owner::Event(self.0.number as usize),
            1 => Owner::Perf,
            2 => Owner::Unknown(self.0.number),
            _ => Owner::Short,
        }
    }
}

/// A frame of a file.
#[derive(Copy, Clone, Debug)]
pub struct FileFrame<'r, 'p> {
    /// When it happened, where it is, and which event it belongs to.
    pub entry: Entry,
    /// The frame, or a header without one.
    pub frame: Result<Frame<'p>, BadFrame>,
    /// The bytes after it that it announces, or as many as there are; most frames announce none.
    pub payload: &'p [u8],
    recording: &'r Recording<'p>,
}

impl<'p> FileFrame<'_, 'p> {
    /// Returns whether the payload that the frame announces is all there: the file may end before
    /// it does.
    pub fn has_payload(&self) -> bool {
        let announced = match self.frame {
            Ok(frame) => announced(self.recording.order, frame),
            Err(_) => 0,
        };
        announced <= self.payload.len() as u64
    }

    /// Parses the record, under the configuration of its own event. One that perf wrote for itself
    /// is [`Record::Unknown`].
    pub fn record(&self) -> ParseResult<Record<'p>> {
        let frame = self.frame.map_err(|bad| bad.error())?;
        let owner = match self.entry.owner() {
            Owner::Perf => Owner::Event(0),
            other => other,
        };
        match self.recording.config(owner) {
            Some(config) => frame.record(config),
            None => Err(without_event(owner)),
        }
    }
}

/// How many bytes that are no frames a frame announces: AUXTRACE and TRACING_DATA do.
fn announced(order: Dynamic, frame: Frame<'_>) -> u64 {
    match (frame.header().type_, frame.rest()) {
        (71, &[a, b, c, d, e, f, g, h, ..]) => order.convert_u64([a, b, c, d, e, f, g, h]),
        (66, &[a, b, c, d, ..]) => (u64::from(order.convert_u32([a, b, c, d])) + 7) & !7,
        _ => 0,
    }
}

#[cold]
fn without_event(owner: Owner) -> ParseError {
    let message = match owner {
        Owner::Short => "it is too short for an id",
        _ => "its id is that of no event of the file",
    };
    ParseError::custom(ErrorKind::UnsupportedConfig, message)
}

/// A file of `perf record`, or what `perf record -o -` writes to a pipe, all of whose bytes are in
/// memory. They are borrowed.
#[derive(Clone, Debug)]
pub struct Recording<'p> {
    raw: ffi::Opened<'p>,
    order: Dynamic,
    events: Vec<Event>,
}

impl<'p> Recording<'p> {
    /// Opens a file.
    pub fn open(bytes: &'p [u8]) -> Result<Self, OpenError> {
        let raw = ffi::Opened::open(bytes).map_err(OpenError::of)?;
        let order = match raw.file.order {
            0 => Dynamic::Little,
            _ => Dynamic::Big,
        };
        let events = raw.events.iter();
        Ok(Self {
            events: events.map(|event| Event::of(order, bytes, event)).collect(),
            order,
            raw,
        })
    }

    /// Returns the byte order of its numbers.
    pub fn order(&self) -> Dynamic {
        self.order
    }

    /// Returns whether perf ended regularly. Otherwise the frames extend to the end of the file.
    pub fn is_closed(&self) -> bool {
        self.raw.file.is_closed != 0
    }

    /// Returns the bytes of a feature, by the number that perf gives it (`HEADER_*` of its
    /// `util/header.h`), or `None` if the file does not have it.
    pub fn feature(&self, feature: u8) -> Result<Option<&'p [u8]>, BadFeature> {
        self.raw.feature(feature).map_err(|_| BadFeature::PastEnd)
    }

    /// Returns the name of the machine on which was recorded.
    pub fn hostname(&self) -> Result<Option<&'p [u8]>, BadFeature> {
        self.text(3)
    }

    /// Returns the release of the kernel that ran there.
    pub fn os_release(&self) -> Result<Option<&'p [u8]>, BadFeature> {
        self.text(4)
    }

    /// Returns the words of the command that recorded, of which the first is the path of perf.
    pub fn command_line(&self) -> Result<Option<Vec<&'p [u8]>>, BadFeature> {
        let Some(bytes) = self.feature(11)? else {
            return Ok(None);
        };
        let (count, mut left) = first_number(self.order, bytes)?;
        let mut words = Vec::new();
        for _ in 0..count {
            let (word, after) = first_text(self.order, left)?;
            words.push(word);
            left = after;
        }
        Ok(Some(words))
    }

    fn text(&self, feature: u8) -> Result<Option<&'p [u8]>, BadFeature> {
        let found = self.feature(feature)?;
        found
            .map(|bytes| Ok(first_text(self.order, bytes)?.0))
            .transpose()
    }

    /// Returns its events.
    pub fn events(&self) -> &[Event] {
        &self.events
    }

    /// Returns how frames of an owner are read, if that is an event.
    pub fn config(&self, owner: Owner) -> Option<&ParseConfig<Dynamic>> {
        match owner {
            Owner::Event(event) => self.events.get(event).map(Event::config),
            _ => None,
        }
    }

    /// Returns all frames, in the order of the file.
    pub fn frames(&self) -> FileFrames<'_, 'p> {
        FileFrames {
            recording: self,
            at: self.raw.file.frames.at,
        }
    }

    /// Returns the entries of all frames by time, and at equal times in the order of the file.
    /// Frames without a time come first.
    pub fn in_order(&self) -> Vec<Entry> {
        let mut at = self.raw.file.frames.at;
        let mut entries: Vec<_> = std::iter::from_fn(|| self.raw.next(&mut at)).collect();
        ffi::sort(&mut entries);
        entries.into_iter().map(Entry).collect()
    }

    /// Returns the frame of an entry, or `None` if that is not of this file.
    pub fn frame_at(&self, entry: &Entry) -> Option<FileFrame<'_, 'p>> {
        let mut at = entry.0.at;
        self.next_frame(&mut at)
    }

    /// The frame at an offset, which moves beyond it and its payload.
    fn next_frame(&self, at: &mut u64) -> Option<FileFrame<'_, 'p>> {
        let entry = self.raw.next(at)?;
        let bytes = &self.raw.bytes[entry.at as usize..*at as usize];
        let (frame, taken) = first_frame(bytes, &self.order)?;
        Some(FileFrame {
            entry: Entry(entry),
            frame,
            payload: &bytes[taken..],
            recording: self,
        })
    }
}

/// The frames of a file in its order, made by [`Recording::frames`].
#[derive(Clone, Debug)]
pub struct FileFrames<'r, 'p> {
    recording: &'r Recording<'p>,
    at: u64,
}

impl FileFrames<'_, '_> {
    /// Returns how the frames end, once all were returned, and `None` before that.
    pub fn end(&self) -> Option<FramesEnd> {
        let frames = self.recording.raw.file.frames;
        FramesEnd::with((frames.at + frames.size - self.at) as usize)
    }
}

impl<'r, 'p> Iterator for FileFrames<'r, 'p> {
    type Item = FileFrame<'r, 'p>;

    fn next(&mut self) -> Option<Self::Item> {
        self.recording.next_frame(&mut self.at)
    }
}
