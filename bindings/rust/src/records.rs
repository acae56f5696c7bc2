//! The records, except for samples and reads of counters.

use std::borrow::Cow;

use crate::endian::Endian;
use crate::ffi;
use crate::flags::{AuxFlags, BpfEventType, KSymbolFlags, KSymbolType, SampleFlags};
use crate::flat::{Field, Flat, Words};
use crate::parse::{parse_by, Extent, ParseBuf, ParseConfig, ParseResult, Parser};
use crate::read::Read;
use crate::sample::Sample;
use crate::sys::{self, perf_event_header};
use crate::visitor::{visit, RecordVisitor};

parse_by! {
    Mmap<'p>: p => p.parse_body(sys::PERF_RECORD_MMAP, Extent::Rest, Self::of);
    Lost: p => p.parse_body(sys::PERF_RECORD_LOST, Extent::Fixed(16), Self::of);
    Comm<'p>: p => p.parse_body(sys::PERF_RECORD_COMM, Extent::Rest, Self::of);
    Exit: p => p.parse_body(sys::PERF_RECORD_EXIT, Extent::Fixed(24), Self::of);
    Throttle: p => p.parse_body(sys::PERF_RECORD_THROTTLE, Extent::Fixed(24), Self::of);
    Mmap2<'p>: p => p.parse_body(sys::PERF_RECORD_MMAP2, Extent::Rest, Self::of);
    Aux: p => p.parse_body(sys::PERF_RECORD_AUX, Extent::Fixed(24), Self::of);
    ITraceStart: p => p.parse_body(sys::PERF_RECORD_ITRACE_START, Extent::Fixed(8), Self::of);
    LostSamples: p => p.parse_body(sys::PERF_RECORD_LOST_SAMPLES, Extent::Fixed(8), Self::of);
    SwitchCpuWide: p => p.parse_body(sys::PERF_RECORD_SWITCH_CPU_WIDE, Extent::Fixed(8), Self::of);
    Namespaces<'p>: p => p.parse_body(sys::PERF_RECORD_NAMESPACES, Extent::Until(Self::length), Self::of);
    KSymbol<'p>: p => p.parse_body(sys::PERF_RECORD_KSYMBOL, Extent::Rest, Self::of);
    BpfEvent: p => p.parse_body(sys::PERF_RECORD_BPF_EVENT, Extent::Fixed(16), Self::of);
    CGroup<'p>: p => p.parse_body(sys::PERF_RECORD_CGROUP, Extent::Rest, Self::of);
    TextPoke<'p>: p => p.parse_body(sys::PERF_RECORD_TEXT_POKE, Extent::Until(Self::length), Self::of);
    AuxOutputHwId: p => p.parse_body(sys::PERF_RECORD_AUX_OUTPUT_HW_ID, Extent::Fixed(8), Self::of);
    NamespaceEntry: p => Ok(Self {
        dev: p.parse()?,
        inode: p.parse()?,
    });
    SampleId: p => {
        let bytes = p.parse_bytes(Self::estimate_len(p.config()))?;
        p.sample_id(&bytes)
    };
    #[inline]
    Record<'p>: p => p.next_record(Record::of);
}

/// Makes a record that has nothing but fields from a flat frame.
macro_rules! of_frame {
    (fields $record:ident $( <$life:lifetime> )? {
        $( $name:ident: $at:tt $( as $text:ident )?, )*
    }) => {
        impl<'a> $record $( <$life> )? {
            #[inline]
            pub(crate) fn of(flat: &Flat<'_, 'a>) -> Self {
                Self {
                    $( $name: Field::of(flat, $at), )*
                }
            }
        }
    };
    ($( $other:tt )*) => {};
}

each_record!(of_frame);

/// Implements what records with a byte string have for it: a copy, and a name as the system has it.
macro_rules! with_bytes {
    ($( $record:ident.$name:ident $( as $os:ident )?, )*) => {
        $(
            impl $record<'_> {
                $(
                    #[doc = concat!("Returns `", stringify!($name), "` as a string of the system.")]
                    #[cfg(unix)]
                    pub fn $os(&self) -> &std::ffi::OsStr {
                        std::os::unix::ffi::OsStrExt::from_bytes(&self.$name)
                    }
                )?

                /// Returns the record with bytes of its own.
                pub fn into_owned(self) -> $record<'static> {
                    $record {
                        $name: owned(self.$name),
                        ..self
                    }
                }
            }
        )*
    };
}

with_bytes! {
    Mmap.filename as filename_os, Mmap2.filename as filename_os, Comm.comm as comm_os,
    KSymbol.name, CGroup.path,
}

/// A process mapped something into its memory (`PERF_RECORD_MMAP`).
#[derive(Clone)]
pub struct Mmap<'a> {
    /// The process.
    pub pid: u32,
    /// Its thread.
    pub tid: u32,
    /// The address of the mapping.
    pub addr: u64,
    /// Its length in bytes.
    pub len: u64,
    /// Its offset in the file, in bytes.
    pub pgoff: u64,
    /// The path of the file, or a name in its place, such as `[stack]` or `//anon`.
    pub filename: Cow<'a, [u8]>,
}

impl<'a> From<Mmap2<'a>> for Mmap<'a> {
    fn from(record: Mmap2<'a>) -> Self {
        record.into_mmap()
    }
}

/// A list that does not borrow.
pub(crate) fn owned<T: Clone>(list: Cow<'_, [T]>) -> Cow<'static, [T]> {
    Cow::Owned(list.into_owned())
}

/// Events were lost, because the ring buffer was full (`PERF_RECORD_LOST`).
#[derive(Copy, Clone)]
pub struct Lost {
    /// The kernel's id of the event.
    pub id: u64,
    /// How many were lost.
    pub lost: u64,
}

/// A task changed its name (`PERF_RECORD_COMM`), for example by `execve(2)` or `prctl(2)`.
#[derive(Clone)]
pub struct Comm<'a> {
    /// The process.
    pub pid: u32,
    /// The thread.
    pub tid: u32,
    /// The new name.
    pub comm: Cow<'a, [u8]>,
}

/// A task ended (`PERF_RECORD_EXIT`), or was created (`PERF_RECORD_FORK`).
#[derive(Clone)]
pub struct Exit {
    /// The process.
    pub pid: u32,
    /// Its parent process.
    pub ppid: u32,
    /// The thread.
    pub tid: u32,
    /// Its parent thread.
    pub ptid: u32,
    /// When it happened, in nanoseconds of the event's clock.
    pub time: u64,
}

/// A task was created by `fork(2)` or `clone(2)` (`PERF_RECORD_FORK`).
pub type Fork = Exit;

/// The kernel stopped an event that occurred too often (`PERF_RECORD_THROTTLE`), or resumed it
/// (`PERF_RECORD_UNTHROTTLE`).
#[derive(Clone)]
pub struct Throttle {
    /// When it happened, in nanoseconds of the event's clock.
    pub time: u64,
    /// The kernel's id of the event, or of its group's leader.
    pub id: u64,
    /// The kernel's id of the event itself.
    pub stream_id: u64,
}

/// A process mapped something into its memory (`PERF_RECORD_MMAP2`): as [`Mmap`], and which file it
/// was.
#[derive(Clone)]
pub struct Mmap2<'a> {
    /// The process.
    pub pid: u32,
    /// Its thread.
    pub tid: u32,
    /// The address of the mapping.
    pub addr: u64,
    /// Its length in bytes.
    pub len: u64,
    /// Its offset in the file, in bytes.
    pub pgoff: u64,
    /// How the memory may be accessed, as for `mmap(2)`.
    pub prot: u32,
    /// The flags of the mapping, as for `mmap(2)`.
    pub flags: u32,
    /// The path of the file, or a name in its place, such as `[stack]` or `//anon`.
    pub filename: Cow<'a, [u8]>,

    detail: MmapDetail,
}

/// Which file was mapped.
#[derive(Copy, Clone)]
enum MmapDetail {
    Inode {
        maj: u32,
        min: u32,
        ino: u64,
        ino_generation: u64,
    },
    BuildId {
        build_id: [u8; 20],
        len: usize,
    },
}

impl MmapDetail {
    #[inline]
    fn of(flat: &Flat<'_, '_>) -> Self {
        if u32::from(flat.frame.misc) & sys::PERF_RECORD_MISC_MMAP_BUILD_ID != 0 {
            let bytes = flat.part(1);
            let mut build_id = [0; 20];
            build_id[..bytes.len()].copy_from_slice(&bytes);
            let len = bytes.len();
            Self::BuildId { build_id, len }
        } else {
            Self::Inode {
                maj: flat.half(7),
                min: flat.half(8),
                ino: flat.number(9),
                ino_generation: flat.number(10),
            }
        }
    }
}

macro_rules! of_inode {
    ($( $( #[$attr:meta] )* $name:ident: $type:ty; )*) => {
        $(
            $( #[$attr] )*
            pub fn $name(&self) -> Option<$type> {
                match self.detail {
                    MmapDetail::Inode { $name, .. } => Some($name),
                    MmapDetail::BuildId { .. } => None,
                }
            }
        )*
    };
}

impl<'a> Mmap2<'a> {
    #[inline]
    pub(crate) fn of(flat: &Flat<'_, 'a>) -> Self {
        Self {
            pid: flat.half(0),
            tid: flat.half(1),
            addr: flat.number(2),
            len: flat.number(3),
            pgoff: flat.number(4),
            prot: flat.half(5),
            flags: flat.half(6),
            filename: flat.part(0),
            detail: MmapDetail::of(flat),
        }
    }

    of_inode! {
        /// Returns the major number of the file's device, if the record has an inode.
        maj: u32;
        /// Returns the minor number of the file's device, if the record has an inode.
        min: u32;
        /// Returns the number of the inode, if the record has one.
        ino: u64;
        /// Returns the generation of the inode, if the record has one.
        ino_generation: u64;
    }

    /// Returns the build id of the program, if the record has one.
    pub fn build_id(&self) -> Option<&[u8]> {
        match &self.detail {
            MmapDetail::Inode { .. } => None,
            MmapDetail::BuildId { build_id, len } => Some(&build_id[..*len]),
        }
    }

    /// Returns the MMAP record of the same mapping.
    pub fn to_mmap(&self) -> Mmap<'a> {
        self.clone().into_mmap()
    }

    /// Returns the MMAP record of the same mapping.
    #[inline]
    pub fn into_mmap(self) -> Mmap<'a> {
        Mmap {
            pid: self.pid,
            tid: self.tid,
            addr: self.addr,
            len: self.len,
            pgoff: self.pgoff,
            filename: self.filename,
        }
    }
}

/// There is new data in the AUX buffer (`PERF_RECORD_AUX`).
#[derive(Clone)]
pub struct Aux {
    /// Where it begins in the buffer.
    pub aux_offset: u64,
    /// How many bytes it has.
    pub aux_size: u64,
    /// What happened to it.
    pub flags: AuxFlags,
}

/// An instruction trace began (`PERF_RECORD_ITRACE_START`).
#[derive(Clone)]
pub struct ITraceStart {
    /// The process.
    pub pid: u32,
    /// The thread.
    pub tid: u32,
}

/// Hardware samples were lost (`PERF_RECORD_LOST_SAMPLES`).
#[derive(Clone)]
pub struct LostSamples {
    /// How many may have been lost.
    pub lost: u64,
}

/// The processor switched from one task to another (`PERF_RECORD_SWITCH_CPU_WIDE`), as a CPU-wide
/// event records it.
///
/// It is `Out` if `PERF_RECORD_MISC_SWITCH_OUT` is set in the record's `misc`.
#[derive(Copy, Clone, Debug)]
pub enum SwitchCpuWide {
    /// To the task of the event.
    In {
        /// The process of the previous task.
        pid: u32,
        /// The thread of the previous task.
        tid: u32,
    },

    /// Away from the task of the event.
    Out {
        /// The process of the next task.
        pid: u32,
        /// The thread of the next task.
        tid: u32,
    },
}

impl SwitchCpuWide {
    #[inline]
    pub(crate) fn of(flat: &Flat<'_, '_>) -> Self {
        let (pid, tid) = (flat.half(0), flat.half(1));
        if flat.number(2) != 0 {
            Self::Out { pid, tid }
        } else {
            Self::In { pid, tid }
        }
    }

    /// Returns the process of the other task.
    pub fn pid(&self) -> u32 {
        match *self {
            Self::In { pid, .. } | Self::Out { pid, .. } => pid,
        }
    }

    /// Returns the thread of the other task.
    pub fn tid(&self) -> u32 {
        match *self {
            Self::In { tid, .. } | Self::Out { tid, .. } => tid,
        }
    }
}

/// The namespaces of a task (`PERF_RECORD_NAMESPACES`), when it was created or changed one of them.
#[derive(Clone)]
pub struct Namespaces<'a> {
    /// The process.
    pub pid: u32,
    /// The thread.
    pub tid: u32,
    /// The namespaces, indexed by the kernel's `NET_NS_INDEX` and so on.
    pub namespaces: Cow<'a, [NamespaceEntry]>,
}

/// A namespace, identified by the file in `/proc/PID/ns` that represents it.
#[derive(Copy, Clone, Debug, Eq, PartialEq, Hash)]
#[repr(C)]
pub struct NamespaceEntry {
    /// The device of the file.
    pub dev: u64,
    /// Its inode.
    pub inode: u64,
}

// SAFETY: it consists of two numbers, with nothing between them.
unsafe impl Words for NamespaceEntry {
    const COUNT: usize = 2;

    #[inline]
    fn of(numbers: impl Fn(usize) -> u64) -> Self {
        Self {
            dev: numbers(0),
            inode: numbers(1),
        }
    }
}

macro_rules! listed {
    ($( $( #[$attr:meta] )* $name:ident at $at:expr; )*) => {
        $(
            $( #[$attr] )*
            pub fn $name(&self) -> Option<&NamespaceEntry> {
                self.namespaces.get($at)
            }
        )*
    };
}

impl Namespaces<'_> {
    /// How many bytes the body has.
    fn length(flat: &Flat<'_, '_>) -> usize {
        16 + flat.frame.spans[0].len as usize
    }

    listed! {
        /// Returns the network namespace, if it is listed.
        network at 0;
        /// Returns the namespace of the host name, if it is listed.
        uts at 1;
        /// Returns the namespace of shared memory, semaphores and message queues, if it is listed.
        ipc at 2;
        /// Returns the namespace of process ids, if it is listed.
        pid at 3;
        /// Returns the namespace of user ids, if it is listed.
        user at 4;
        /// Returns the namespace of control groups, if it is listed.
        cgroup at 6;
    }
}

/// A kernel symbol was registered or unregistered (`PERF_RECORD_KSYMBOL`).
#[derive(Clone)]
pub struct KSymbol<'a> {
    /// Its address.
    pub addr: u64,
    /// The length of its code in bytes.
    pub len: u32,
    /// Its kind.
    pub ksym_type: KSymbolType,
    /// Whether it was unregistered.
    pub flags: KSymbolFlags,
    /// Its name.
    pub name: Cow<'a, [u8]>,
}

/// A BPF program was loaded or unloaded (`PERF_RECORD_BPF_EVENT`).
#[derive(Copy, Clone)]
pub struct BpfEvent {
    /// What happened.
    pub ty: BpfEventType,
    /// Flags, of which the kernel has none so far.
    pub flags: u16,
    /// The id of the program.
    pub id: u32,
    /// The tag of the program.
    pub tag: [u8; 8],
}

/// A control group was created (`PERF_RECORD_CGROUP`).
#[derive(Clone)]
pub struct CGroup<'a> {
    /// Its id.
    pub id: u64,
    /// Its path, from the root of the control groups.
    pub path: Cow<'a, [u8]>,
}

impl<'a> CGroup<'a> {
    /// Returns the path.
    #[cfg(unix)]
    pub fn path_os(&self) -> &std::path::Path {
        let path: &std::ffi::OsStr = std::os::unix::ffi::OsStrExt::from_bytes(&self.path);
        path.as_ref()
    }
}

/// The kernel changed its own code (`PERF_RECORD_TEXT_POKE`).
#[derive(Clone)]
pub struct TextPoke<'a> {
    /// The address of the change.
    pub addr: u64,
    /// The bytes before the change.
    pub old_bytes: Cow<'a, [u8]>,
    /// The bytes after the change.
    pub new_bytes: Cow<'a, [u8]>,
}

impl<'a> TextPoke<'a> {
    /// How many bytes the body has: whole words of eight bytes.
    fn length(flat: &Flat<'_, '_>) -> usize {
        let spans = &flat.frame.spans;
        (12 + spans[0].len as usize + spans[1].len as usize).next_multiple_of(8)
    }

    /// Returns the record with bytes of its own.
    // this name is the original's
    #[allow(clippy::wrong_self_convention)]
    pub fn to_owned(self) -> TextPoke<'static> {
        TextPoke {
            addr: self.addr,
            old_bytes: owned(self.old_bytes),
            new_bytes: owned(self.new_bytes),
        }
    }
}

/// The hardware's id of an event whose data is in the AUX buffer (`PERF_RECORD_AUX_OUTPUT_HW_ID`).
#[derive(Copy, Clone)]
pub struct AuxOutputHwId {
    /// The id.
    pub hw_id: u64,
}

/// Which task and event a record belongs to (`struct sample_id`).
///
/// The configuration determines which numbers are present: without `sample_id_all`, and for a
/// SAMPLE, none is.
#[derive(Copy, Clone, Default)]
pub struct SampleId {
    present: u32,
    pid: u32,
    tid: u32,
    cpu: u32,
    time: u64,
    id: u64,
    stream_id: u64,
}

/// The flags of a sample type that a sample id has.
const ID_FLAGS: SampleFlags = SampleFlags::TID
    .union(SampleFlags::TIME)
    .union(SampleFlags::ID)
    .union(SampleFlags::STREAM_ID)
    .union(SampleFlags::CPU)
    .union(SampleFlags::IDENTIFIER);

macro_rules! sample_id {
    ($( $( #[$attr:meta] )* $name:ident: $type:ty, with $flags:expr; )*) => {
        $(
            $( #[$attr] )*
            #[inline]
            pub fn $name(&self) -> Option<$type> {
                self.has($flags).then_some(self.$name)
            }
        )*
    };
}

impl SampleId {
    /// The sample id without numbers.
    pub(crate) const NONE: Self = Self {
        present: 0,
        pid: 0,
        tid: 0,
        cpu: 0,
        time: 0,
        id: 0,
        stream_id: 0,
    };

    #[inline]
    pub(crate) fn of(frame: &ffi::Frame) -> Self {
        Self {
            present: frame.present as u32,
            pid: frame.pid,
            tid: frame.tid,
            cpu: frame.cpu,
            time: frame.time,
            id: frame.id,
            stream_id: frame.stream_id,
        }
    }

    /// Returns the sample id with these numbers.
    ///
    /// The process and the thread are one field of a sample type, so both are present if one of
    /// them is.
    pub fn from_parts(
        pid: Option<u32>,
        tid: Option<u32>,
        time: Option<u64>,
        id: Option<u64>,
        stream_id: Option<u64>,
        cpu: Option<u32>,
    ) -> Self {
        let mut present = SampleFlags::empty();
        present.set(SampleFlags::TID, pid.is_some() || tid.is_some());
        present.set(SampleFlags::TIME, time.is_some());
        present.set(SampleFlags::ID, id.is_some());
        present.set(SampleFlags::STREAM_ID, stream_id.is_some());
        present.set(SampleFlags::CPU, cpu.is_some());
        Self {
            present: present.bits() as u32,
            pid: pid.unwrap_or(0),
            tid: tid.unwrap_or(0),
            cpu: cpu.unwrap_or(0),
            time: time.unwrap_or(0),
            id: id.unwrap_or(0),
            stream_id: stream_id.unwrap_or(0),
        }
    }

    /// Returns the sample id with the numbers of a sample.
    pub fn from_sample(sample: &Sample<'_>) -> Self {
        sample.sample_id()
    }

    #[inline]
    fn has(&self, flags: SampleFlags) -> bool {
        u64::from(self.present) & flags.bits() != 0
    }

    sample_id! {
        /// Returns the process in which it happened, if it is present.
        pid: u32, with SampleFlags::TID;
        /// Returns the thread in which it happened, if it is present.
        tid: u32, with SampleFlags::TID;
        /// Returns when it happened, in nanoseconds of the event's clock, if it is present.
        time: u64, with SampleFlags::TIME;
        /// Returns the kernel's id of the event, or of its group's leader, if it is present.
        id: u64, with SampleFlags::ID | SampleFlags::IDENTIFIER;
        /// Returns the kernel's id of the event itself, if it is present.
        stream_id: u64, with SampleFlags::STREAM_ID;
        /// Returns the processor on which it happened, if it is present.
        cpu: u32, with SampleFlags::CPU;
    }

    /// Returns how many bytes the sample id of a record has under a configuration.
    #[inline]
    pub fn estimate_len<E: Endian>(config: &ParseConfig<E>) -> usize {
        if config.sample_id_all() {
            (config.sample_type() & ID_FLAGS).bits().count_ones() as usize * 8
        } else {
            0
        }
    }
}

impl From<&'_ Sample<'_>> for SampleId {
    fn from(sample: &Sample<'_>) -> Self {
        Self::from_sample(sample)
    }
}

impl From<Sample<'_>> for SampleId {
    fn from(sample: Sample<'_>) -> Self {
        Self::from_sample(&sample)
    }
}

/// A record of any type, as perf_event_open(2) names them.
#[derive(Clone, Debug)]
#[non_exhaustive]
pub enum Record<'a> {
    /// A process mapped something into its memory.
    Mmap(Mmap<'a>),
    /// Events were lost.
    Lost(Lost),
    /// A task changed its name.
    Comm(Comm<'a>),
    /// A task ended.
    Exit(Exit),
    /// The kernel began to throttle an event.
    Throttle(Throttle),
    /// The kernel takes samples of an event again.
    Unthrottle(Throttle),
    /// A task was created.
    Fork(Fork),
    /// A counter of a task was read.
    Read(Read),
    /// An event happened.
    Sample(Box<Sample<'a>>),
    /// A process mapped a file into its memory, and which one it is.
    Mmap2(Mmap2<'a>),
    /// There is new data in the AUX buffer.
    Aux(Aux),
    /// An instruction trace began.
    ITraceStart(ITraceStart),
    /// Samples were lost.
    LostSamples(LostSamples),
    /// A task was scheduled on its processor or off it.
    Switch,
    /// The processor switched to another task, or from it.
    SwitchCpuWide(SwitchCpuWide),
    /// The namespaces of a task.
    Namespaces(Namespaces<'a>),
    /// A kernel symbol was registered or unregistered.
    KSymbol(KSymbol<'a>),
    /// A BPF program was loaded or unloaded.
    BpfEvent(BpfEvent),
    /// A control group was created.
    CGroup(CGroup<'a>),
    /// The kernel changed its own code.
    TextPoke(TextPoke<'a>),
    /// The hardware's id of an event whose data is in the AUX buffer.
    AuxOutputHwId(AuxOutputHwId),

    /// A record of a type that the kernel does not have.
    Unknown {
        /// The type in its header.
        ty: u32,
        /// The bytes between its header and its sample id.
        data: Cow<'a, [u8]>,
    },
}

macro_rules! from_record {
    ($( $name:ident $( <$life:lifetime> )?, )*) => {
        $(
            impl<'a> From<$name $( <$life> )?> for Record<'a> {
                #[inline]
                fn from(record: $name $( <$life> )?) -> Self {
                    Record::$name(record)
                }
            }
        )*
    };
}

from_record! {
    Mmap<'a>, Lost, Comm<'a>, Read, Mmap2<'a>, Aux, ITraceStart, LostSamples, SwitchCpuWide,
    Namespaces<'a>, KSymbol<'a>, BpfEvent, CGroup<'a>, TextPoke<'a>, AuxOutputHwId,
}

impl<'a> From<Sample<'a>> for Record<'a> {
    #[inline]
    fn from(sample: Sample<'a>) -> Self {
        Record::Sample(Box::new(sample))
    }
}

impl<'p> Record<'p> {
    #[inline]
    pub(crate) fn of(flat: &Flat<'_, 'p>) -> Self {
        match flat.frame.read {
            sys::PERF_RECORD_SAMPLE => Record::Sample(Sample::boxed(flat)),
            _ => visit(flat, RecordVisitor),
        }
    }

    /// Parses a record whose header was parsed before.
    #[inline]
    pub fn parse_with_header<B, E>(
        p: &mut Parser<B, E>,
        header: perf_event_header,
    ) -> ParseResult<Self>
    where
        E: Endian,
        B: ParseBuf<'p>,
    {
        p.record_after(header)
    }
}
