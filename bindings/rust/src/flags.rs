//! Sets of flags, and numbers of which some have names.

use std::fmt;

use crate::parse::parse_by;

/// Writes a set: the names of its flags, and the bits without a name.
fn write_set(
    f: &mut fmt::Formatter<'_>,
    set: &str,
    bits: u64,
    names: &[(&str, u64)],
) -> fmt::Result {
    write!(f, "{set}(")?;
    let mut left = bits;
    let mut separator = "";
    for &(name, flag) in names {
        if bits & flag == flag && left & flag != 0 {
            write!(f, "{separator}{name}")?;
            separator = " | ";
            left &= !flag;
        }
    }
    if left != 0 || separator.is_empty() {
        write!(f, "{separator}{left:#x}")?;
    }
    f.write_str(")")
}

macro_rules! flags {
    (
        $( #[$attr:meta] )*
        $name:ident: $bits:ident $( + $also:ident )? {
            $( $( #[$flag_attr:meta] )* $flag:ident = $value:expr, )*
        }
    ) => {
        $( #[$attr] )*
        #[derive(Copy, Clone, PartialEq, Eq, Hash $( , $also )? )]
        pub struct $name($bits);

        impl $name {
            $( $( #[$flag_attr] )* pub const $flag: Self = Self($value); )*

            const NAMES: &'static [(&'static str, u64)] =
                &[$( (stringify!($flag), Self::$flag.0 as u64), )*];

            /// Returns the set without flags.
            pub const fn empty() -> Self {
                Self(0)
            }

            /// Returns the set of all flags that have a name.
            pub const fn all() -> Self {
                Self(0 $( | $value )*)
            }

            /// Returns all bits, also those without a name.
            pub const fn bits(&self) -> $bits {
                self.0
            }

            /// Returns the set with these bits, or `None` if one of them has no name.
            pub const fn from_bits(bits: $bits) -> Option<Self> {
                if bits & !Self::all().0 == 0 {
                    Some(Self(bits))
                } else {
                    None
                }
            }

            /// Returns the set with those of these bits that have a name.
            pub const fn from_bits_truncate(bits: $bits) -> Self {
                Self(bits & Self::all().0)
            }

            /// Returns the set with these bits, also those without a name.
            pub const fn from_bits_retain(bits: $bits) -> Self {
                Self(bits)
            }

            /// Returns the flag with this name, if there is one.
            pub fn from_name(name: &str) -> Option<Self> {
                let (_, bits) = Self::NAMES.iter().find(|(known, _)| *known == name)?;
                Some(Self(*bits as $bits))
            }

            /// Returns whether no bit is set.
            pub const fn is_empty(&self) -> bool {
                self.0 == 0
            }

            /// Returns whether all flags that have a name are set.
            pub const fn is_all(&self) -> bool {
                self.contains(Self::all())
            }

            /// Returns whether a bit is set in both.
            pub const fn intersects(&self, other: Self) -> bool {
                self.0 & other.0 != 0
            }

            /// Returns whether all bits of the other set are set.
            pub const fn contains(&self, other: Self) -> bool {
                self.0 & other.0 == other.0
            }

            /// Sets the bits of the other set.
            pub fn insert(&mut self, other: Self) {
                self.0 |= other.0;
            }

            /// Clears the bits of the other set.
            pub fn remove(&mut self, other: Self) {
                self.0 &= !other.0;
            }

            /// Changes the bits of the other set.
            pub fn toggle(&mut self, other: Self) {
                self.0 ^= other.0;
            }

            /// Sets or clears the bits of the other set.
            pub fn set(&mut self, other: Self, value: bool) {
                if value {
                    self.insert(other);
                } else {
                    self.remove(other);
                }
            }

            /// Returns the bits that are set in both.
            #[must_use]
            pub const fn intersection(self, other: Self) -> Self {
                Self(self.0 & other.0)
            }

            /// Returns the bits that are set in either.
            #[must_use]
            pub const fn union(self, other: Self) -> Self {
                Self(self.0 | other.0)
            }

            /// Returns the bits that are not set in the other.
            #[must_use]
            pub const fn difference(self, other: Self) -> Self {
                Self(self.0 & !other.0)
            }

            /// Returns the bits that are set in one alone.
            #[must_use]
            pub const fn symmetric_difference(self, other: Self) -> Self {
                Self(self.0 ^ other.0)
            }

            /// Returns the flags with a name that are not set.
            #[must_use]
            pub const fn complement(self) -> Self {
                Self::from_bits_truncate(!self.0)
            }

            /// Returns the flags with a name that are set, each with its name.
            pub fn iter_names(&self) -> impl Iterator<Item = (&'static str, Self)> {
                let set = *self;
                let mut left = set;
                Self::NAMES
                    .iter()
                    .map(|&(name, bits)| (name, Self(bits as $bits)))
                    .filter(move |&(_, flag)| {
                        let is_next = set.contains(flag) && left.intersects(flag);
                        if is_next {
                            left.remove(flag);
                        }
                        is_next
                    })
            }

            /// Returns the flags with a name that are set, and then all other bits at once, if there
            /// are some.
            pub fn iter(&self) -> impl Iterator<Item = Self> {
                let mut left = *self;
                for (_, flag) in self.iter_names() {
                    left.remove(flag);
                }
                let left = (!left.is_empty()).then_some(left);
                self.iter_names().map(|(_, flag)| flag).chain(left)
            }
        }

        impl IntoIterator for $name {
            type Item = Self;
            type IntoIter = std::vec::IntoIter<Self>;

            fn into_iter(self) -> Self::IntoIter {
                self.iter().collect::<Vec<_>>().into_iter()
            }
        }

        impl fmt::Debug for $name {
            fn fmt(&self, f: &mut fmt::Formatter<'_>) -> fmt::Result {
                write_set(f, stringify!($name), self.0 as u64, Self::NAMES)
            }
        }

        impl fmt::Binary for $name {
            fn fmt(&self, f: &mut fmt::Formatter<'_>) -> fmt::Result {
                fmt::Binary::fmt(&self.0, f)
            }
        }

        impl fmt::Octal for $name {
            fn fmt(&self, f: &mut fmt::Formatter<'_>) -> fmt::Result {
                fmt::Octal::fmt(&self.0, f)
            }
        }

        impl fmt::LowerHex for $name {
            fn fmt(&self, f: &mut fmt::Formatter<'_>) -> fmt::Result {
                fmt::LowerHex::fmt(&self.0, f)
            }
        }

        impl fmt::UpperHex for $name {
            fn fmt(&self, f: &mut fmt::Formatter<'_>) -> fmt::Result {
                fmt::UpperHex::fmt(&self.0, f)
            }
        }

        impl std::ops::BitOr for $name {
            type Output = Self;

            fn bitor(self, other: Self) -> Self {
                self.union(other)
            }
        }

        impl std::ops::BitOrAssign for $name {
            fn bitor_assign(&mut self, other: Self) {
                self.insert(other);
            }
        }

        impl std::ops::BitAnd for $name {
            type Output = Self;

            fn bitand(self, other: Self) -> Self {
                self.intersection(other)
            }
        }

        impl std::ops::BitAndAssign for $name {
            fn bitand_assign(&mut self, other: Self) {
                self.0 &= other.0;
            }
        }

        impl std::ops::BitXor for $name {
            type Output = Self;

            fn bitxor(self, other: Self) -> Self {
                self.symmetric_difference(other)
            }
        }

        impl std::ops::BitXorAssign for $name {
            fn bitxor_assign(&mut self, other: Self) {
                self.toggle(other);
            }
        }

        impl std::ops::Sub for $name {
            type Output = Self;

            fn sub(self, other: Self) -> Self {
                self.difference(other)
            }
        }

        impl std::ops::SubAssign for $name {
            fn sub_assign(&mut self, other: Self) {
                self.remove(other);
            }
        }

        impl std::ops::Not for $name {
            type Output = Self;

            fn not(self) -> Self {
                self.complement()
            }
        }

        impl Extend<$name> for $name {
            fn extend<T: IntoIterator<Item = Self>>(&mut self, flags: T) {
                for flag in flags {
                    self.insert(flag);
                }
            }
        }

        impl FromIterator<$name> for $name {
            fn from_iter<T: IntoIterator<Item = Self>>(flags: T) -> Self {
                let mut set = Self::empty();
                set.extend(flags);
                set
            }
        }
    };
}

macro_rules! named {
    (
        $( #[$attr:meta] )*
        $name:ident: $number:ident {
            $( $( #[$value_attr:meta] )* $value:ident = $is:expr, )*
        }
    ) => {
        $( #[$attr] )*
        #[repr(transparent)]
        #[derive(Copy, Clone, PartialEq, Eq, Hash)]
        pub struct $name(pub $number);

        impl $name {
            $( $( #[$value_attr] )* pub const $value: Self = Self($is); )*

            /// Makes the value from its number.
            pub const fn new(value: $number) -> Self {
                Self(value)
            }
        }

        impl From<$number> for $name {
            fn from(value: $number) -> Self {
                Self(value)
            }
        }

        impl From<$name> for $number {
            fn from(value: $name) -> Self {
                value.0
            }
        }

        impl fmt::Debug for $name {
            fn fmt(&self, f: &mut fmt::Formatter<'_>) -> fmt::Result {
                match *self {
                    $( Self::$value => f.write_str(stringify!($value)), )*
                    Self(other) => write!(f, "{}({other})", stringify!($name)),
                }
            }
        }
    };
}

flags! {
    /// Which fields a sample has: the bits of `sample_type`, `PERF_SAMPLE_*`.
    SampleFlags: u64 + Default {
        /// The instruction pointer.
        IP = 1 << 0,
        /// The process and thread ids.
        TID = 1 << 1,
        /// A timestamp.
        TIME = 1 << 2,
        /// An address, such as that of a memory access.
        ADDR = 1 << 3,
        /// Counter values.
        READ = 1 << 4,
        /// The chain of callers.
        CALLCHAIN = 1 << 5,
        /// The id of the event, or of its group's leader.
        ID = 1 << 6,
        /// The processor's number.
        CPU = 1 << 7,
        /// The sampling period.
        PERIOD = 1 << 8,
        /// The id of the event itself.
        STREAM_ID = 1 << 9,
        /// Raw data of the event's source.
        RAW = 1 << 10,
        /// The last branches that were taken.
        BRANCH_STACK = 1 << 11,
        /// Registers of the user program.
        REGS_USER = 1 << 12,
        /// Part of the user stack.
        STACK_USER = 1 << 13,
        /// A weight: how costly the event was.
        WEIGHT = 1 << 14,
        /// Where accessed data came from.
        DATA_SRC = 1 << 15,
        /// The id at a fixed position.
        IDENTIFIER = 1 << 16,
        /// What a memory transaction did.
        TRANSACTION = 1 << 17,
        /// Registers at the interrupt.
        REGS_INTR = 1 << 18,
        /// A physical address.
        PHYS_ADDR = 1 << 19,
        /// Part of the AUX buffer.
        AUX = 1 << 20,
        /// The id of the control group.
        CGROUP = 1 << 21,
        /// The size of the data's page.
        DATA_PAGE_SIZE = 1 << 22,
        /// The size of the code's page.
        CODE_PAGE_SIZE = 1 << 23,
        /// A weight in several parts.
        WEIGHT_STRUCT = 1 << 24,
    }
}

flags! {
    /// What a read of a counter contains besides its value: the bits of `read_format`,
    /// `PERF_FORMAT_*`.
    ReadFormat: u64 + Default {
        /// How long the event was enabled.
        TOTAL_TIME_ENABLED = 1 << 0,
        /// How long the event ran on the processor.
        TOTAL_TIME_RUNNING = 1 << 1,
        /// The id of each counter.
        ID = 1 << 2,
        /// All counters of the group at once.
        GROUP = 1 << 3,
        /// How many samples of each counter were lost.
        LOST = 1 << 4,
    }
}

impl ReadFormat {
    /// How many numbers a group has for each of its counters.
    pub(crate) fn element_len(&self) -> usize {
        1 + self.contains(Self::ID) as usize + self.contains(Self::LOST) as usize
    }
}

flags! {
    /// What happened to data of the AUX buffer, `PERF_AUX_FLAG_*`.
    AuxFlags: u64 {
        /// The data was truncated to fit into the buffer.
        TRUNCATED = 1 << 0,
        /// The data overwrote older data.
        OVERWRITE = 1 << 1,
        /// The data has gaps.
        PARTIAL = 1 << 2,
        /// The sample collided with another.
        COLLISION = 1 << 3,
        /// The mask of the trace format's number.
        PMU_FORMAT_MASK = 0xFF00,
    }
}

impl AuxFlags {
    /// Returns the format of the trace: bits 8 to 15.
    pub fn pmu_format_type(&self) -> AuxPmuFormatType {
        AuxPmuFormatType((self.0 >> 8) as u8)
    }
}

flags! {
    /// Flags of a [`KSymbol`](crate::KSymbol), `PERF_RECORD_KSYMBOL_FLAGS_*`.
    KSymbolFlags: u16 {
        /// The symbol was unregistered.
        UNREGISTER = 1 << 0,
    }
}

flags! {
    /// What a memory instruction does: `mem_op` of a [`DataSource`](crate::DataSource).
    MemOp: u64 + Default {
        /// Unknown.
        NA = 0x01,
        /// A load.
        LOAD = 0x02,
        /// A store.
        STORE = 0x04,
        /// A prefetch.
        PFETCH = 0x08,
        /// An instruction fetch.
        EXEC = 0x10,
    }
}

flags! {
    /// Where in the memory hierarchy an access ended: `mem_lvl` of a
    /// [`DataSource`](crate::DataSource).
    MemLevel: u64 + Default {
        /// Unknown.
        NA = 0x01,
        /// A hit.
        HIT = 0x02,
        /// A miss.
        MISS = 0x04,
        /// The first cache level.
        L1 = 0x08,
        /// The line fill buffer.
        LFB = 0x10,
        /// The second cache level.
        L2 = 0x20,
        /// The third cache level.
        L3 = 0x40,
        /// Local memory.
        LOC_RAM = 0x80,
        /// Remote memory, one hop away.
        REM_RAM1 = 0x100,
        /// Remote memory, two hops away.
        REM_RAM2 = 0x200,
        /// A remote cache, one hop away.
        REM_CCE1 = 0x400,
        /// A remote cache, two hops away.
        REM_CCE2 = 0x800,
        /// Device memory.
        IO = 0x1000,
        /// Uncached memory.
        UNC = 0x2000,
    }
}

flags! {
    /// Whether an access held a lock: `mem_lock` of a [`DataSource`](crate::DataSource).
    MemLock: u64 + Default {
        /// Unknown.
        NA = 0x01,
        /// It held a lock.
        LOCKED = 0x02,
    }
}

flags! {
    /// How an address was translated: `mem_dtlb` of a [`DataSource`](crate::DataSource).
    MemDtlb: u64 + Default {
        /// Unknown.
        NA = 0x01,
        /// A hit.
        HIT = 0x02,
        /// A miss.
        MISS = 0x04,
        /// The first level.
        L1 = 0x08,
        /// The second level.
        L2 = 0x10,
        /// The hardware page walker.
        WK = 0x20,
        /// The operating system's fault handler.
        OS = 0x40,
    }
}

flags! {
    /// What else was found in other caches: `mem_snoopx` of a [`DataSource`](crate::DataSource).
    MemSnoopX: u64 + Default {
        /// Forwarded.
        FWD = 0x01,
        /// From a peer.
        PEER = 0x02,
    }
}

flags! {
    /// Why an access was blocked: `mem_blk` of a [`DataSource`](crate::DataSource).
    MemBlk: u64 + Default {
        /// Unknown.
        NA = 0x01,
        /// Data could not be forwarded.
        DATA = 0x02,
        /// An address conflict.
        ADDR = 0x04,
    }
}

flags! {
    /// What was found in other caches: `mem_snoop` and `mem_snoopx` of a
    /// [`DataSource`](crate::DataSource), each at its place in the word.
    MemSnoop: u64 + Default {
        /// Unknown.
        NA = 0x01 << 19,
        /// No snoop.
        NONE = 0x02 << 19,
        /// A hit.
        HIT = 0x04 << 19,
        /// A miss.
        MISS = 0x08 << 19,
        /// A hit of a modified line.
        HITM = 0x10 << 19,
        /// Forwarded.
        FWD = 0x01 << 38,
        /// From a peer.
        PEER = 0x02 << 38,
    }
}

impl MemSnoop {
    /// Makes the set from the numbers of the two fields.
    pub fn new(mem_snoop: u64, mem_snoopx: u64) -> Self {
        Self((mem_snoop & 0x1f) << 19 | (mem_snoopx & 0x3) << 38)
    }
}

flags! {
    /// What a memory transaction did, and why it was aborted, `PERF_TXN_*`.
    Txn: u64 + Default {
        /// It came from lock elision.
        ELISION = 1 << 0,
        /// It came from a plain transaction.
        TRANSACTION = 1 << 1,
        /// The sampled instruction caused the abort.
        SYNC = 1 << 2,
        /// The sampled instruction did not cause the abort.
        ASYNC = 1 << 3,
        /// The transaction may be retried.
        RETRY = 1 << 4,
        /// A conflict with another thread over the same memory.
        CONFLICT = 1 << 5,
        /// Too much was written.
        CAPACITY_WRITE = 1 << 6,
        /// Too much was read.
        CAPACITY_READ = 1 << 7,
        /// The mask of the abort code.
        ABORT_MASK = 0xFFFF_FFFF << 32,
    }
}

impl Txn {
    /// Returns the code that the program gave for its abort: bits 32 to 63.
    pub fn abort(&self) -> u32 {
        (self.0 >> 32) as u32
    }
}

named! {
    /// The format of a trace in the AUX buffer, `PERF_AUX_FLAG_CORESIGHT_FORMAT_*`.
    AuxPmuFormatType: u8 {
        /// CoreSight frames.
        CORESIGHT = 0,
        /// The raw format of the source.
        CORESIGHT_RAW = 1,
    }
}

named! {
    /// What happened to a BPF program, `PERF_BPF_EVENT_*`.
    BpfEventType: u16 {
        /// Unknown.
        UNKNOWN = 0,
        /// It was loaded.
        PROG_LOAD = 1,
        /// It was unloaded.
        PROG_UNLOAD = 2,
    }
}

named! {
    /// The kind of a kernel symbol, `PERF_RECORD_KSYMBOL_TYPE_*`.
    KSymbolType: u16 {
        /// Unknown.
        UNKNOWN = 0,
        /// A BPF function.
        BPF = 1,
        /// Out-of-line code, such as that of a probe.
        OOL = 2,
    }
}

named! {
    /// The ABI of the registers of a sample, `PERF_SAMPLE_REGS_ABI_*`.
    SampleRegsAbi: u64 {
        /// No registers.
        NONE = 0,
        /// The 32-bit ABI.
        ABI_32 = 1,
        /// The 64-bit ABI.
        ABI_64 = 2,
    }
}

named! {
    /// The kind of branch of a [`BranchEntry`](crate::BranchEntry), `PERF_BR_*`.
    BranchType: u8 {
        /// Unknown.
        UNKNOWN = 0,
        /// A conditional branch.
        COND = 1,
        /// An unconditional branch.
        UNCOND = 2,
        /// An indirect branch.
        IND = 3,
        /// A call.
        CALL = 4,
        /// An indirect call.
        IND_CALL = 5,
        /// A return.
        RET = 6,
        /// A system call.
        SYSCALL = 7,
        /// A conditional call.
        COND_CALL = 9,
        /// A conditional return.
        COND_RET = 10,
    }
}

named! {
    /// The number of the memory level at which an access ended: `mem_lvl_num` of a
    /// [`DataSource`](crate::DataSource), `PERF_MEM_LVLNUM_*`.
    MemLevelNum: u8 {
        /// The first cache level.
        L1 = 1,
        /// The second cache level.
        L2 = 2,
        /// The third cache level.
        L3 = 3,
        /// The fourth cache level.
        L4 = 4,
        /// Any cache.
        ANY_CACHE = 11,
        /// The line fill buffer.
        LFB = 12,
        /// Memory.
        RAM = 13,
        /// Persistent memory.
        PMEM = 14,
        /// Unknown.
        NA = 15,
    }
}

parse_by! {
    AuxFlags: p => Ok(Self::from_bits_retain(p.parse()?));
    KSymbolFlags: p => Ok(Self::from_bits_retain(p.parse()?));
    Txn: p => Ok(Self::from_bits_retain(p.parse()?));
    BpfEventType: p => Ok(Self::new(p.parse()?));
    KSymbolType: p => Ok(Self::new(p.parse()?));
    SampleRegsAbi: p => Ok(Self::new(p.parse()?));
}
