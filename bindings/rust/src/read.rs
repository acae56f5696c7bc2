//! What was read of counters.

use std::borrow::Cow;
use std::fmt;
use std::iter::FusedIterator;
use std::slice::ChunksExact;

use crate::debug::present;
use crate::error::{ParseError, Reason};
use crate::flags::{ReadFormat, SampleFlags};
use crate::flat::Flat;
use crate::parse::{parse_by, Extent};
use crate::records::owned;
use crate::sys;

/// The kernel read a counter of a task (`PERF_RECORD_READ`), which it does if the attribute has
/// `inherit_stat`.
#[derive(Clone, Debug)]
pub struct Read {
    /// The process.
    pub pid: u32,
    /// The thread.
    pub tid: u32,
    /// What was read.
    pub values: ReadValue,
}

impl Read {
    #[inline]
    pub(crate) fn of(flat: &Flat<'_, '_>) -> Self {
        Self {
            pid: flat.half(0),
            tid: flat.half(1),
            values: ReadValue::of(flat),
        }
    }
}

/// Numbers that the read format selects.
macro_rules! selected {
    ($( $( #[$attr:meta] )* $name:ident, with $flag:expr; )*) => {
        $(
            $( #[$attr] )*
            pub fn $name(&self) -> Option<u64> {
                self.read_format.contains($flag).then_some(self.$name)
            }
        )*
    };
}

/// What was read of one counter: its value, and the numbers that the read format selects.
#[derive(Clone)]
pub struct ReadValue {
    read_format: ReadFormat,
    value: u64,
    time_enabled: u64,
    time_running: u64,
    id: u64,
    lost: u64,
}

impl ReadValue {
    /// The value of a READ.
    fn of(flat: &Flat<'_, '_>) -> Self {
        Self::at(flat, [2, 3, 4, 5, 6])
    }

    /// The value whose numbers are at these places.
    #[inline]
    fn at(flat: &Flat<'_, '_>, places: [usize; 5]) -> Self {
        let read_format = ReadFormat::from_bits_retain(flat.frame.read_format.into());
        let [value, time_enabled, time_running, id, lost] = places.map(|at| flat.number(at));
        Self::from_parts(read_format, value, time_enabled, time_running, id, lost)
    }

    /// How many bytes it has under a read format.
    fn length(read_format: ReadFormat) -> usize {
        let others = read_format & ReadFormat::all() & !ReadFormat::GROUP;
        8 + 8 * others.bits().count_ones() as usize
    }

    /// Returns the read of these numbers. Those whose bits the read format lacks do not matter.
    pub fn from_parts(
        read_format: ReadFormat,
        value: u64,
        time_enabled: u64,
        time_running: u64,
        id: u64,
        lost: u64,
    ) -> Self {
        Self {
            read_format,
            value,
            time_enabled,
            time_running,
            id,
            lost,
        }
    }

    /// Returns an entry of a group as the read of one counter, with the times of the group.
    pub fn from_group_and_entry(group: &ReadGroup<'_>, entry: &GroupEntry) -> Self {
        Self {
            read_format: group.read_format - ReadFormat::GROUP,
            value: entry.value,
            time_enabled: group.time_enabled,
            time_running: group.time_running,
            id: entry.id,
            lost: entry.lost,
        }
    }

    /// Returns the counter's value.
    pub fn value(&self) -> u64 {
        self.value
    }

    selected! {
        /// Returns how long the event was enabled, in nanoseconds, if it is present.
        time_enabled, with ReadFormat::TOTAL_TIME_ENABLED;
        /// Returns how long the event ran, in nanoseconds, if it is present.
        time_running, with ReadFormat::TOTAL_TIME_RUNNING;
        /// Returns the kernel's id of the event, if it is present.
        id, with ReadFormat::ID;
        /// Returns how many samples of the event were lost, if it is present.
        lost, with ReadFormat::LOST;
    }
}

impl TryFrom<ReadGroup<'_>> for ReadValue {
    type Error = TryFromGroupError;

    fn try_from(group: ReadGroup<'_>) -> Result<Self, Self::Error> {
        let mut entries = group.entries();
        match (entries.next(), entries.next()) {
            (Some(entry), None) => Ok(Self::from_group_and_entry(&group, &entry)),
            _ => Err(TryFromGroupError(())),
        }
    }
}

impl fmt::Debug for ReadValue {
    fn fmt(&self, f: &mut fmt::Formatter<'_>) -> fmt::Result {
        let mut all = f.debug_struct("ReadValue");
        all.field("value", &self.value);
        present(&mut all, "time_enabled", self.time_enabled());
        present(&mut all, "time_running", self.time_running());
        present(&mut all, "id", self.id());
        present(&mut all, "lost", self.lost());
        all.finish_non_exhaustive()
    }
}

/// The numbers of the counters of a group.
#[derive(Clone)]
enum Numbers<'a> {
    List(Cow<'a, [u64]>),
    /// Those of one counter: as many as the read format gives it.
    One([u64; 3]),
}

/// What was read of a group of counters at once (`PERF_FORMAT_GROUP`): an entry for each.
#[derive(Clone)]
pub struct ReadGroup<'a> {
    read_format: ReadFormat,
    time_enabled: u64,
    time_running: u64,
    data: Numbers<'a>,
}

impl<'a> ReadGroup<'a> {
    /// The counters of a SAMPLE that has some. The read of one counter is a group of one.
    #[inline]
    pub(crate) fn of(flat: &Flat<'_, 'a>) -> Self {
        let read_format = ReadFormat::from_bits_retain(flat.frame.read_format.into());
        if !read_format.contains(ReadFormat::GROUP) {
            return ReadValue::at(flat, [16, 13, 14, 17, 18]).into();
        }
        Self {
            read_format,
            time_enabled: flat.number(13),
            time_running: flat.number(14),
            data: Numbers::List(flat.words(2)),
        }
    }

    /// How many bytes the counters of a SAMPLE have.
    pub(crate) fn length(flat: &Flat<'_, '_>) -> usize {
        let read_format = ReadFormat::from_bits_retain(flat.frame.read_format.into());
        if read_format.contains(ReadFormat::GROUP) {
            let times = ReadFormat::TOTAL_TIME_ENABLED | ReadFormat::TOTAL_TIME_RUNNING;
            let times = (read_format & times).bits().count_ones() as usize;
            8 + 8 * times + flat.frame.spans[2].len as usize
        } else {
            ReadValue::length(read_format)
        }
    }

    /// Returns the group of these numbers: for each counter its value, and its id and its lost
    /// samples if the read format has them.
    ///
    /// # Panics
    /// If the list is no whole number of counters.
    pub fn from_parts(
        read_format: ReadFormat,
        time_enabled: u64,
        time_running: u64,
        data: Cow<'a, [u64]>,
    ) -> Self {
        assert_eq!(
            data.len() % read_format.element_len(),
            0,
            "a counter is incomplete"
        );
        Self {
            read_format,
            time_enabled,
            time_running,
            data: Numbers::List(data),
        }
    }

    /// Returns the number of counters in the group.
    pub fn len(&self) -> usize {
        self.entries().len()
    }

    /// Returns whether the group has no counters.
    pub fn is_empty(&self) -> bool {
        self.len() == 0
    }

    /// Returns the group with a list of its own.
    pub fn into_owned(self) -> ReadGroup<'static> {
        ReadGroup {
            data: match self.data {
                Numbers::List(data) => Numbers::List(owned(data)),
                Numbers::One(numbers) => Numbers::One(numbers),
            },
            ..self
        }
    }

    selected! {
        /// Returns how long the group was enabled, in nanoseconds, if it is present.
        time_enabled, with ReadFormat::TOTAL_TIME_ENABLED;
        /// Returns how long the group ran, in nanoseconds, if it is present.
        time_running, with ReadFormat::TOTAL_TIME_RUNNING;
    }

    /// Returns the entry at an index, if there is one.
    pub fn get(&self, index: usize) -> Option<GroupEntry> {
        self.entries().nth(index)
    }

    /// Returns the first entry with an id, if there is one.
    pub fn get_by_id(&self, id: u64) -> Option<GroupEntry> {
        self.entries().find(|entry| entry.id() == Some(id))
    }

    /// Returns the entries, in order.
    pub fn entries(&self) -> GroupIter<'_> {
        let each = self.read_format.element_len();
        let numbers = match &self.data {
            Numbers::List(data) => data,
            Numbers::One(numbers) => &numbers[..each],
        };
        GroupIter {
            numbers: numbers.chunks_exact(each),
            read_format: self.read_format,
        }
    }
}

impl<'a> From<ReadValue> for ReadGroup<'a> {
    fn from(read: ReadValue) -> Self {
        // its id is before the number of lost samples, if both are present
        let others = match read.id() {
            Some(id) => [id, read.lost],
            None => [read.lost, 0],
        };
        Self {
            read_format: read.read_format | ReadFormat::GROUP,
            time_enabled: read.time_enabled,
            time_running: read.time_running,
            data: Numbers::One([read.value, others[0], others[1]]),
        }
    }
}

impl fmt::Debug for ReadGroup<'_> {
    fn fmt(&self, f: &mut fmt::Formatter<'_>) -> fmt::Result {
        let mut all = f.debug_struct("ReadGroup");
        present(&mut all, "time_enabled", self.time_enabled());
        present(&mut all, "time_running", self.time_running());
        let entries: Vec<GroupEntry> = self.entries().collect();
        all.field("entries", &entries).finish_non_exhaustive()
    }
}

/// What the read of a group contains for one counter.
#[derive(Copy, Clone)]
pub struct GroupEntry {
    read_format: ReadFormat,
    value: u64,
    id: u64,
    lost: u64,
}

impl GroupEntry {
    /// The entry of these numbers, as many as the read format gives each counter.
    fn of(read_format: ReadFormat, numbers: &[u64]) -> Self {
        let last = numbers[numbers.len() - 1];
        let id = if read_format.contains(ReadFormat::ID) {
            numbers[1]
        } else {
            0
        };
        Self {
            read_format,
            value: numbers[0],
            id,
            lost: last,
        }
    }

    /// Returns the counter's value.
    pub fn value(&self) -> u64 {
        self.value
    }

    selected! {
        /// Returns the kernel's id of the event, if it is present.
        id, with ReadFormat::ID;
        /// Returns how many samples of the event were lost, if it is present.
        lost, with ReadFormat::LOST;
    }
}

impl fmt::Debug for GroupEntry {
    fn fmt(&self, f: &mut fmt::Formatter<'_>) -> fmt::Result {
        let mut all = f.debug_struct("GroupEntry");
        all.field("value", &self.value);
        present(&mut all, "id", self.id());
        present(&mut all, "lost", self.lost());
        all.finish_non_exhaustive()
    }
}

/// The entries of a group, first to last, and also from the back.
#[derive(Clone)]
pub struct GroupIter<'a> {
    numbers: ChunksExact<'a, u64>,
    read_format: ReadFormat,
}

impl Iterator for GroupIter<'_> {
    type Item = GroupEntry;

    fn next(&mut self) -> Option<GroupEntry> {
        Some(GroupEntry::of(self.read_format, self.numbers.next()?))
    }

    fn size_hint(&self) -> (usize, Option<usize>) {
        self.numbers.size_hint()
    }

    fn count(self) -> usize {
        self.numbers.count()
    }

    fn nth(&mut self, n: usize) -> Option<GroupEntry> {
        Some(GroupEntry::of(self.read_format, self.numbers.nth(n)?))
    }

    fn last(mut self) -> Option<GroupEntry> {
        self.next_back()
    }
}

impl DoubleEndedIterator for GroupIter<'_> {
    fn next_back(&mut self) -> Option<GroupEntry> {
        Some(GroupEntry::of(self.read_format, self.numbers.next_back()?))
    }

    fn nth_back(&mut self, n: usize) -> Option<GroupEntry> {
        Some(GroupEntry::of(self.read_format, self.numbers.nth_back(n)?))
    }
}

impl ExactSizeIterator for GroupIter<'_> {}

impl FusedIterator for GroupIter<'_> {}

parse_by! {
    Read: p => {
        let length = 8 + ReadValue::length(p.config().read_format());
        p.parse_body(sys::PERF_RECORD_READ, Extent::Fixed(length), |flat| {
            Read::of(flat)
        })
    };
    ReadValue: p => {
        let read_format = p.config().read_format();
        if read_format.contains(ReadFormat::GROUP) {
            return Err(ParseError::because(Reason::SingleRead));
        }
        if !ReadFormat::all().contains(read_format) {
            return Err(ParseError::because(Reason::ReadFormat));
        }
        // as in a READ, after its process and thread
        let extent = Extent::Fixed(ReadValue::length(read_format));
        p.parse_part(
            sys::PERF_RECORD_READ,
            |_| {},
            &[0; 8],
            extent,
            |flat| ReadValue::of(flat),
        )
    };
    ReadGroup<'p>: p => {
        let read_format = p.config().read_format();
        if !read_format.contains(ReadFormat::GROUP) {
            return Err(ParseError::because(Reason::GroupRead));
        }
        if !ReadFormat::all().contains(read_format) {
            return Err(ParseError::because(Reason::ReadFormat));
        }
        // as in a SAMPLE that has nothing else
        p.parse_part(
            sys::PERF_RECORD_SAMPLE,
            |config| config.sample_type = SampleFlags::READ.bits(),
            &[],
            Extent::Until(ReadGroup::length),
            ReadGroup::of,
        )
    };
}

/// A group without entries, or with several, was to become the read of one counter.
#[derive(Clone, Debug)]
pub struct TryFromGroupError(());

impl fmt::Display for TryFromGroupError {
    fn fmt(&self, f: &mut fmt::Formatter<'_>) -> fmt::Result {
        f.write_str("can only convert groups with a single element to ReadValues")
    }
}

impl std::error::Error for TryFromGroupError {}
