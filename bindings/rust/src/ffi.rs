//! The C interface. All structs are plain numbers.

use std::mem::MaybeUninit;

/// How records are to be read: `struct ped_config`.
#[repr(C)]
#[derive(Copy, Clone, Debug, Default)]
pub(crate) struct Config {
    pub(crate) version: u32,
    pub(crate) order: u32,
    pub(crate) sample_type: u64,
    pub(crate) read_format: u64,
    pub(crate) flags: u64,
    pub(crate) branch_sample_type: u64,
    pub(crate) sample_regs_user: u64,
    pub(crate) sample_regs_intr: u64,
}

/// A place in a frame: `struct ped_span`.
#[repr(C)]
#[derive(Copy, Clone, Debug, Default)]
pub(crate) struct Span {
    pub(crate) at: u32,
    pub(crate) len: u32,
}

/// A frame as plain numbers: `struct ped_frame`.
#[repr(C)]
#[derive(Copy, Clone, Debug, Default)]
pub(crate) struct Frame {
    pub(crate) type_: u32,
    pub(crate) misc: u16,
    pub(crate) size: u16,
    pub(crate) read: u32,
    pub(crate) refusal: u16,
    pub(crate) reason: u16,
    pub(crate) present: u64,
    pub(crate) pid: u32,
    pub(crate) tid: u32,
    pub(crate) time: u64,
    pub(crate) id: u64,
    pub(crate) stream_id: u64,
    pub(crate) cpu: u32,
    pub(crate) read_format: u32,
    pub(crate) numbers: [u64; 24],
    pub(crate) spans: [Span; 8],
}

/// A part of a file: `struct ped_part`.
#[repr(C)]
#[derive(Copy, Clone, Debug, Default)]
pub(crate) struct Part {
    pub(crate) at: u64,
    pub(crate) size: u64,
}

/// What is known of a file before its events are read: `struct ped_file`.
#[repr(C)]
#[derive(Copy, Clone, Debug, Default)]
pub(crate) struct File {
    pub(crate) order: u32,
    pub(crate) is_closed: u32,
    pub(crate) frames: Part,
    pub(crate) events: u64,
    pub(crate) ids: u64,
}

/// An event of a file: `struct ped_event`.
#[repr(C)]
#[derive(Copy, Clone, Debug, Default)]
pub(crate) struct Event {
    pub(crate) config: Config,
    pub(crate) type_: u32,
    pub(crate) event: u64,
    pub(crate) ids_at: u64,
    pub(crate) ids: u64,
    pub(crate) name: Part,
}

/// Room for the name of an event: `struct ped_name`.
#[repr(C)]
#[derive(Copy, Clone, Debug, Default)]
pub(crate) struct Name {
    kind: u64,
    number: u64,
    name: Part,
}

/// An id, and the number of its event: `struct ped_id`.
#[repr(C)]
#[derive(Copy, Clone, Debug, Default)]
pub(crate) struct Id {
    id: u64,
    event: u64,
}

/// A frame of a file: `struct ped_entry`.
#[repr(C)]
#[derive(Copy, Clone, Debug, Default)]
pub(crate) struct Entry {
    pub(crate) time: u64,
    pub(crate) at: u64,
    pub(crate) number: u64,
    pub(crate) owner: u32,
}

/// The version of these structs, `PED_VERSION`.
pub(crate) const VERSION: u32 = 1;

/// Why a call wrote no frame: `enum ped_end`.
#[derive(Copy, Clone, Debug, Eq, PartialEq)]
pub(crate) enum End {
    /// The bytes are fewer than a header has.
    NoHeader,
    /// The library reads no configuration of this version.
    NotRead,
    /// A body is longer than that of any frame.
    LongBody,
}

impl End {
    #[cold]
    fn of(end: u32) -> Self {
        match end {
            1 | 2 => End::NoHeader,
            5 => End::LongBody,
            _ => End::NotRead,
        }
    }
}

/// Room for a frame.
pub(crate) struct Place(MaybeUninit<Frame>);

impl Place {
    #[inline]
    pub(crate) fn new() -> Self {
        Self(MaybeUninit::uninit())
    }
}

#[cfg(not(all(
    any(target_arch = "x86_64", target_arch = "aarch64"),
    target_pointer_width = "64",
    target_endian = "little"
)))]
compile_error!(
    "perf-event-data is for x86-64 and arm64, with pointers of 64 bits and the lowest byte first"
);

const _: () = assert!(std::mem::size_of::<Config>() == 56);
const _: () = assert!(std::mem::size_of::<Frame>() == 320);
const _: () = assert!(std::mem::size_of::<File>() == 40);
const _: () = assert!(std::mem::size_of::<Event>() == 104);
const _: () = assert!(std::mem::size_of::<Name>() == 32);
const _: () = assert!(std::mem::size_of::<Entry>() == 32);

extern "C" {
    fn ped_read(config: *const Config, bytes: *const u8, len: usize, frame: *mut Frame) -> u32;

    fn ped_read_body(
        config: *const Config,
        type_: u32,
        misc: u16,
        body: *const u8,
        len: usize,
        frame: *mut Frame,
    ) -> u32;

    fn ped_identifier(
        bytes: *const u8,
        len: usize,
        order: u32,
        sample_id_all: u32,
        id: *mut u64,
    ) -> u32;

    fn ped_file_open(bytes: *const u8, len: usize, file: *mut File) -> u32;

    fn ped_file_events(
        bytes: *const u8,
        len: usize,
        events: *mut Event,
        event_count: usize,
        parts: *mut Part,
        part_count: usize,
        ids: *mut Id,
        id_count: usize,
    ) -> u32;

    fn ped_file_names(
        bytes: *const u8,
        len: usize,
        events: *mut Event,
        event_count: usize,
        ids: *const Id,
        id_count: usize,
        names: *mut Name,
        name_count: usize,
    ) -> u32;

    fn ped_file_feature(bytes: *const u8, len: usize, feature: u8, place: *mut Part) -> u32;

    fn ped_event_name(
        event: *const Event,
        bytes: *const u8,
        len: usize,
        text: *mut u8,
        room: usize,
    ) -> usize;

    fn ped_file_next(
        file: *const File,
        bytes: *const u8,
        len: usize,
        events: *const Event,
        event_count: usize,
        ids: *const Id,
        id_count: usize,
        at: *mut u64,
        entry: *mut Entry,
    ) -> u32;

    fn ped_file_sort(entries: *mut Entry, count: usize);
}

/// What a call returns that wrote a whole frame, accepted or refused: `PED_LIMIT`.
const WRITTEN: u32 = 0;

/// The frame at the front of bytes.
#[inline]
pub(crate) fn read<'f>(
    config: &Config,
    bytes: &[u8],
    place: &'f mut Place,
) -> Result<&'f Frame, End> {
    let frame = place.0.as_mut_ptr();
    // SAFETY: the declaration and the structs are those of the header `perf_event_data.h`. Each
    // pointer comes from a reference, so it is aligned and not null, and `frame` overlaps nothing;
    // the bytes are borrowed during the call, so they do not change.
    let end = unsafe { ped_read(config, bytes.as_ptr(), bytes.len(), frame) };
    match end {
        // SAFETY: the call wrote the whole frame.
        WRITTEN => Ok(unsafe { place.0.assume_init_ref() }),
        _ => Err(End::of(end)),
    }
}

/// The frame of a body that was taken out of its frame: its spans count from the header, which would
/// be right before it.
#[inline]
pub(crate) fn read_body<'f>(
    config: &Config,
    (type_, misc): (u32, u16),
    body: &[u8],
    place: &'f mut Place,
) -> Result<&'f Frame, End> {
    let frame = place.0.as_mut_ptr();
    // SAFETY: as in `read`.
    let end = unsafe { ped_read_body(config, type_, misc, body.as_ptr(), body.len(), frame) };
    match end {
        // SAFETY: the call wrote the whole frame.
        WRITTEN => Ok(unsafe { place.0.assume_init_ref() }),
        _ => Err(End::of(end)),
    }
}

/// The kernel's number of the event that wrote the frame at the front of bytes, if it has one.
pub(crate) fn identifier(bytes: &[u8], order: u32) -> Option<u64> {
    let mut id = 0;
    // SAFETY: as in `read`.
    let found = unsafe { ped_identifier(bytes.as_ptr(), bytes.len(), order, 1, &mut id) };
    (found != 0).then_some(id)
}

/// An opened file: its bytes, and what the library wrote for them.
#[derive(Clone, Debug)]
pub(crate) struct Opened<'p> {
    pub(crate) bytes: &'p [u8],
    pub(crate) file: File,
    pub(crate) events: Vec<Event>,
    ids: Vec<Id>,
}

impl<'p> Opened<'p> {
    /// Opens a file, or returns the number of its refusal.
    pub(crate) fn open(bytes: &'p [u8]) -> Result<Self, u32> {
        let mut file = File::default();
        // SAFETY: as in `read`.
        match unsafe { ped_file_open(bytes.as_ptr(), bytes.len(), &mut file) } {
            0 => {}
            refusal => return Err(refusal),
        }
        // the library states no more than the file has bytes for
        let mut events = vec![Event::default(); file.events as usize];
        let mut parts = vec![Part::default(); events.len() + 3];
        let mut ids = vec![Id::default(); file.ids as usize];
        // SAFETY: as in `read`; the lengths are those of the lists.
        let refusal = unsafe {
            ped_file_events(
                bytes.as_ptr(),
                bytes.len(),
                events.as_mut_ptr(),
                events.len(),
                parts.as_mut_ptr(),
                parts.len(),
                ids.as_mut_ptr(),
                ids.len(),
            )
        };
        if refusal == 0 {
            let mut names = vec![Name::default(); events.len()];
            // SAFETY: as before.
            unsafe {
                ped_file_names(
                    bytes.as_ptr(),
                    bytes.len(),
                    events.as_mut_ptr(),
                    events.len(),
                    ids.as_ptr(),
                    ids.len(),
                    names.as_mut_ptr(),
                    names.len(),
                );
            }
        }
        match refusal {
            0 => Ok(Self {
                bytes,
                file,
                events,
                ids,
            }),
            refusal => Err(refusal),
        }
    }

    /// The bytes of a feature, `None` if the file does not have it, or the number of its refusal.
    pub(crate) fn feature(&self, feature: u8) -> Result<Option<&'p [u8]>, u32> {
        let mut place = Part::default();
        // SAFETY: as in `read`.
        let found =
            unsafe { ped_file_feature(self.bytes.as_ptr(), self.bytes.len(), feature, &mut place) };
        match found {
            0 => {
                // the library has found it inside the file
                let (start, size) = (place.at as usize, place.size as usize);
                Ok(Some(&self.bytes[start..start + size]))
            }
            20 => Ok(None),
            refusal => Err(refusal),
        }
    }

    /// The entry of the frame at an offset, which moves beyond the frame and its payload; `None`
    /// if no whole header of this file's frames is there.
    pub(crate) fn next(&self, at: &mut u64) -> Option<Entry> {
        let Part { at: start, size } = self.file.frames;
        let offset = at.checked_sub(start)?;
        if size.checked_sub(8)? < offset {
            return None;
        }
        let mut entry = Entry::default();
        // SAFETY: as in `read`; the lists are those that the library wrote for these bytes, which
        // are borrowed and so did not change.
        let end = unsafe {
            ped_file_next(
                &self.file,
                self.bytes.as_ptr(),
                self.bytes.len(),
                self.events.as_ptr(),
                self.events.len(),
                self.ids.as_ptr(),
                self.ids.len(),
                at,
                &mut entry,
            )
        };
        (end == WRITTEN).then_some(entry)
    }
}

/// The name of an event of a file with these bytes.
pub(crate) fn event_name(event: &Event, bytes: &[u8]) -> String {
    // four for a byte of the name, and enough for two numbers
    let mut text = vec![0; 4 * event.name.size as usize + 64];
    // SAFETY: as in `read`.
    let len = unsafe {
        ped_event_name(
            event,
            bytes.as_ptr(),
            bytes.len(),
            text.as_mut_ptr(),
            text.len(),
        )
    };
    text.truncate(len);
    String::from_utf8_lossy(&text).into_owned()
}

/// Sorts entries by time, and at equal times by their offsets.
pub(crate) fn sort(entries: &mut [Entry]) {
    // SAFETY: as in `read`.
    unsafe { ped_file_sort(entries.as_mut_ptr(), entries.len()) }
}
