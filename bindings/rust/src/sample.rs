//! Samples.

use std::borrow::Cow;

use crate::data_source::DataSource;
use crate::endian::Endian;
use crate::flags::{BranchType, SampleFlags, SampleRegsAbi, Txn};
use crate::flat::{Flat, Words};
use crate::parse::{parse_by, Extent, ParseBuf, ParseResult, Parser};
use crate::read::ReadGroup;
use crate::records::SampleId;
use crate::sys;

/// In `present` of a frame: the sample has the hardware's index of its branches.
const HAS_LBR_HW_INDEX: u64 = 1 << 32;

/// An event happened, and this was recorded with it (`PERF_RECORD_SAMPLE`).
///
/// The sample type determines which fields are present; the getter of another one returns `None`.
#[derive(Clone)]
pub struct Sample<'a> {
    present: u64,
    sample_id: SampleId,
    numbers: [u64; 11],
    values: Option<ReadGroup<'a>>,
    callchain: Cow<'a, [u64]>,
    raw: Cow<'a, [u8]>,
    lbr: Cow<'a, [BranchEntry]>,
    regs_user: Registers<'a>,
    stack_user: Cow<'a, [u8]>,
    regs_intr: Registers<'a>,
    aux: Cow<'a, [u8]>,
}

macro_rules! present {
    ($( $( #[$attr:meta] )* $name:ident: $type:ty = $self:ident, $value:expr, with $flags:expr; )*) => {
        $(
            $( #[$attr] )*
            #[inline]
            pub fn $name(&$self) -> Option<$type> {
                ($self.present & $flags.bits() != 0).then(|| $value)
            }
        )*
    };
}

macro_rules! of_sample_id {
    ($( $( #[$attr:meta] )* $name:ident: $type:ty; )*) => {
        $(
            $( #[$attr] )*
            #[inline]
            pub fn $name(&self) -> Option<$type> {
                self.sample_id.$name()
            }
        )*
    };
}

/// The fields of a sample that are lists or byte strings, or are read of counters.
const LISTS: SampleFlags = SampleFlags::READ
    .union(SampleFlags::CALLCHAIN)
    .union(SampleFlags::RAW)
    .union(SampleFlags::BRANCH_STACK)
    .union(SampleFlags::REGS_USER)
    .union(SampleFlags::STACK_USER)
    .union(SampleFlags::REGS_INTR)
    .union(SampleFlags::AUX);

impl<'a> Sample<'a> {
    /// The sample that has no fields.
    const EMPTY: Sample<'static> = Sample {
        present: 0,
        sample_id: SampleId::NONE,
        numbers: [0; 11],
        values: None,
        callchain: Cow::Borrowed(&[]),
        raw: Cow::Borrowed(&[]),
        lbr: Cow::Borrowed(&[]),
        regs_user: Registers::NONE,
        stack_user: Cow::Borrowed(&[]),
        regs_intr: Registers::NONE,
        aux: Cow::Borrowed(&[]),
    };

    #[inline]
    pub(crate) fn of(flat: &Flat<'_, 'a>) -> Self {
        let mut sample = Sample::EMPTY;
        sample.fill(flat);
        sample
    }

    /// The same, made where it stays.
    #[inline]
    pub(crate) fn boxed(flat: &Flat<'_, 'a>) -> Box<Self> {
        let mut sample = Box::new(Sample::EMPTY);
        sample.fill(flat);
        sample
    }

    /// Sets the fields of a sample that had none. Unless this is inlined, a sample is copied once more.
    #[inline(always)]
    fn fill(&mut self, flat: &Flat<'_, 'a>) {
        self.present = flat.frame.present;
        self.sample_id = SampleId::of(flat.frame);
        self.numbers.copy_from_slice(&flat.frame.numbers[..11]);
        if self.has(SampleFlags::CALLCHAIN) {
            self.callchain = flat.words(0);
        }
        if self.has(LISTS.difference(SampleFlags::CALLCHAIN)) {
            self.fill_lists(flat);
        }
    }

    /// Sets the lists and byte strings that few samples have.
    fn fill_lists(&mut self, flat: &Flat<'_, 'a>) {
        if self.has(SampleFlags::READ) {
            self.values = Some(ReadGroup::of(flat));
        }
        // what is absent is an empty span
        self.raw = flat.part(5);
        self.lbr = flat.words(1);
        self.regs_user = Registers::of_user(flat);
        self.stack_user = flat.part(6);
        self.regs_intr = Registers::of_intr(flat);
        self.aux = flat.part(7);
    }

    /// How many bytes the body has.
    fn length(flat: &Flat<'_, '_>) -> usize {
        let present = flat.frame.present;
        let spans = &flat.frame.spans;
        let has = |flags: SampleFlags| present & flags.bits() != 0;
        let count = |flags: SampleFlags| (present & flags.bits()).count_ones() as usize;
        let listed = |flag: SampleFlags, head: usize, span: usize| {
            if has(flag) {
                head + spans[span].len as usize
            } else {
                0
            }
        };
        // in the order of the bytes
        let mut length = 8 * count(
            SampleFlags::IDENTIFIER
                | SampleFlags::IP
                | SampleFlags::TID
                | SampleFlags::TIME
                | SampleFlags::ADDR
                | SampleFlags::ID
                | SampleFlags::STREAM_ID
                | SampleFlags::CPU
                | SampleFlags::PERIOD,
        );
        if has(SampleFlags::READ) {
            length += ReadGroup::length(flat);
        }
        length += listed(SampleFlags::CALLCHAIN, 8, 0);
        length += listed(SampleFlags::RAW, 4, 5).next_multiple_of(8);
        length += listed(SampleFlags::BRANCH_STACK, 8, 1);
        if present & HAS_LBR_HW_INDEX != 0 {
            length += 8;
        }
        length += listed(SampleFlags::REGS_USER, 8, 3);
        if has(SampleFlags::STACK_USER) {
            // the span is what was used of it; the whole size comes before it
            let size = flat.stored(length) as usize;
            length += 8 + size + if size == 0 { 0 } else { 8 };
        }
        length += 8 * has(SampleFlags::WEIGHT | SampleFlags::WEIGHT_STRUCT) as usize;
        length += 8 * count(SampleFlags::DATA_SRC | SampleFlags::TRANSACTION);
        length += listed(SampleFlags::REGS_INTR, 8, 4);
        length += 8 * count(
            SampleFlags::PHYS_ADDR
                | SampleFlags::CGROUP
                | SampleFlags::DATA_PAGE_SIZE
                | SampleFlags::CODE_PAGE_SIZE,
        );
        length + listed(SampleFlags::AUX, 8, 7)
    }

    #[inline]
    pub(crate) fn sample_id(&self) -> SampleId {
        self.sample_id
    }

    #[inline]
    fn has(&self, flags: SampleFlags) -> bool {
        self.present & flags.bits() != 0
    }

    present! {
        /// Returns the address of the instruction (`PERF_SAMPLE_IP`).
        ip: u64 = self, self.numbers[0], with SampleFlags::IP;
        /// Returns an address that belongs to the event, such as that of a page fault
        /// (`PERF_SAMPLE_ADDR`).
        addr: u64 = self, self.numbers[1], with SampleFlags::ADDR;
        /// Returns how many events the sample stands for (`PERF_SAMPLE_PERIOD`).
        period: u64 = self, self.numbers[2], with SampleFlags::PERIOD;
        /// Returns how costly the event was, such as a latency in cycles (`PERF_SAMPLE_WEIGHT` or
        /// `PERF_SAMPLE_WEIGHT_STRUCT`).
        weight: u64 = self, self.numbers[3], with SampleFlags::WEIGHT.union(SampleFlags::WEIGHT_STRUCT);
        /// Returns the physical address of [`addr`](Self::addr) (`PERF_SAMPLE_PHYS_ADDR`).
        phys_addr: u64 = self, self.numbers[6], with SampleFlags::PHYS_ADDR;
        /// Returns the id of the task's control group (`PERF_SAMPLE_CGROUP`).
        cgroup: u64 = self, self.numbers[7], with SampleFlags::CGROUP;
        /// Returns the size in bytes of the page of [`addr`](Self::addr)
        /// (`PERF_SAMPLE_DATA_PAGE_SIZE`).
        data_page_size: u64 = self, self.numbers[8], with SampleFlags::DATA_PAGE_SIZE;
        /// Returns the size in bytes of the page of [`ip`](Self::ip)
        /// (`PERF_SAMPLE_CODE_PAGE_SIZE`).
        code_page_size: u64 = self, self.numbers[9], with SampleFlags::CODE_PAGE_SIZE;
        /// Returns the addresses of a call chain, the innermost first (`PERF_SAMPLE_CALLCHAIN`).
        callchain: &[u64] = self, &*self.callchain, with SampleFlags::CALLCHAIN;
        /// Returns bytes that the event wrote, such as the fields of a tracepoint (`PERF_SAMPLE_RAW`).
        raw: &[u8] = self, &*self.raw, with SampleFlags::RAW;
        /// Returns branches, the newest first (`PERF_SAMPLE_BRANCH_STACK`).
        lbr: &[BranchEntry] = self, &*self.lbr, with SampleFlags::BRANCH_STACK;
        /// Returns the registers of the task's user-space code (`PERF_SAMPLE_REGS_USER`).
        regs_user: &Registers<'a> = self, &self.regs_user, with SampleFlags::REGS_USER;
        /// Returns what the kernel copied of the task's user stack, from its top on: as many bytes as
        /// were used (`PERF_SAMPLE_STACK_USER`).
        stack_user: &[u8] = self, &*self.stack_user, with SampleFlags::STACK_USER;
        /// Returns where the data came from (`PERF_SAMPLE_DATA_SRC`).
        data_src: DataSource = self, DataSource::from_word(self.numbers[4]), with SampleFlags::DATA_SRC;
        /// Returns what a memory transaction did (`PERF_SAMPLE_TRANSACTION`).
        transaction: Txn = self, Txn::from_bits_retain(self.numbers[5]), with SampleFlags::TRANSACTION;
        /// Returns the registers that the processor had at the interrupt (`PERF_SAMPLE_REGS_INTR`).
        regs_intr: &Registers<'a> = self, &self.regs_intr, with SampleFlags::REGS_INTR;
        /// Returns bytes of the AUX area (`PERF_SAMPLE_AUX`).
        aux: &[u8] = self, &*self.aux, with SampleFlags::AUX;
    }

    of_sample_id! {
        /// Returns the process (`PERF_SAMPLE_TID`).
        pid: u32;
        /// Returns its thread (`PERF_SAMPLE_TID`).
        tid: u32;
        /// Returns when it happened, in nanoseconds of the event's clock (`PERF_SAMPLE_TIME`).
        time: u64;
        /// Returns the kernel's id of the event, or of its group's leader (`PERF_SAMPLE_ID` or
        /// `PERF_SAMPLE_IDENTIFIER`).
        id: u64;
        /// Returns the kernel's id of the event itself (`PERF_SAMPLE_STREAM_ID`).
        stream_id: u64;
        /// Returns the processor on which it happened (`PERF_SAMPLE_CPU`).
        cpu: u32;
    }

    /// Returns what was read of the event's counters: those of its group, or its own as a group of
    /// one (`PERF_SAMPLE_READ`).
    #[inline]
    pub fn values(&self) -> Option<&ReadGroup<'a>> {
        self.values.as_ref()
    }

    /// Returns the position of the newest branch in the hardware's own list
    /// (`PERF_SAMPLE_BRANCH_HW_INDEX`).
    #[inline]
    pub fn lbr_hw_index(&self) -> Option<u64> {
        (self.present & HAS_LBR_HW_INDEX != 0).then_some(self.numbers[10])
    }
}

parse_by! {
    Sample<'p>: p => p.parse_body(sys::PERF_RECORD_SAMPLE, Extent::Until(Sample::length), Sample::of);
    BranchEntry: p => Ok(Self {
        from: p.parse()?,
        to: p.parse()?,
        word: p.parse()?,
    });
}

/// The registers of a task when an event happened: those of its user-space code, or those that the
/// processor had at the interrupt.
#[derive(Clone, Debug)]
pub struct Registers<'a> {
    /// The ABI of the task.
    pub abi: SampleRegsAbi,
    /// Which registers were recorded, one bit each: the mask of the configuration.
    pub mask: u64,
    /// Their values, in the order of the bits. There are none if the ABI is
    /// [`SampleRegsAbi::NONE`].
    pub regs: Cow<'a, [u64]>,
}

impl<'a> Registers<'a> {
    const NONE: Registers<'static> = Registers {
        abi: SampleRegsAbi(0),
        mask: 0,
        regs: Cow::Borrowed(&[]),
    };

    #[inline]
    fn of_user(flat: &Flat<'_, 'a>) -> Self {
        Self {
            abi: SampleRegsAbi(flat.number(11)),
            mask: flat.config.sample_regs_user,
            regs: flat.words(3),
        }
    }

    #[inline]
    fn of_intr(flat: &Flat<'_, 'a>) -> Self {
        Self {
            abi: SampleRegsAbi(flat.number(12)),
            mask: flat.config.sample_regs_intr,
            regs: flat.words(4),
        }
    }

    /// Parses the user registers of the configuration.
    pub fn parse_user<B, E>(p: &mut Parser<B, E>) -> ParseResult<Self>
    where
        E: Endian,
        B: ParseBuf<'a>,
    {
        p.parse_part(
            sys::PERF_RECORD_SAMPLE,
            |config| config.sample_type = SampleFlags::REGS_USER.bits(),
            &[],
            Extent::Until(Sample::length),
            Self::of_user,
        )
    }

    /// Parses the registers at the interrupt of the configuration.
    pub fn parse_intr<B, E>(p: &mut Parser<B, E>) -> ParseResult<Self>
    where
        E: Endian,
        B: ParseBuf<'a>,
    {
        p.parse_part(
            sys::PERF_RECORD_SAMPLE,
            |config| config.sample_type = SampleFlags::REGS_INTR.bits(),
            &[],
            Extent::Until(Sample::length),
            Self::of_intr,
        )
    }
}

/// A branch that was taken, `struct perf_branch_entry`: two addresses and a word of bit fields.
#[derive(Copy, Clone, Debug, Eq, PartialEq, Hash)]
#[repr(C)]
pub struct BranchEntry {
    from: u64,
    to: u64,
    word: u64,
}

// SAFETY: it consists of three numbers, with nothing between them.
unsafe impl Words for BranchEntry {
    const COUNT: usize = 3;

    #[inline]
    fn of(numbers: impl Fn(usize) -> u64) -> Self {
        Self::from_words(numbers(0), numbers(1), numbers(2))
    }
}

impl BranchEntry {
    /// Makes a branch from its three words.
    pub const fn from_words(from: u64, to: u64, word: u64) -> Self {
        Self { from, to, word }
    }

    /// Returns the address of the source.
    pub fn from(&self) -> u64 {
        self.from
    }

    /// Returns the address of the target.
    pub fn to(&self) -> u64 {
        self.to
    }

    /// Returns whether it was mispredicted: bit 0 of the word.
    pub fn mispred(&self) -> bool {
        self.word & 1 != 0
    }

    /// Returns whether it was predicted correctly: bit 1.
    pub fn predicted(&self) -> bool {
        self.word & 2 != 0
    }

    /// Returns whether it happened in a memory transaction: bit 2.
    pub fn in_tx(&self) -> bool {
        self.word & 4 != 0
    }

    /// Returns whether it was the abort of a memory transaction: bit 3.
    pub fn abort(&self) -> bool {
        self.word & 8 != 0
    }

    /// Returns the cycles since the previous branch: bits 4 to 19.
    pub fn cycles(&self) -> u16 {
        (self.word >> 4) as u16
    }

    /// Returns the kind of branch: bits 20 to 23.
    pub fn ty(&self) -> BranchType {
        BranchType((self.word >> 20 & 0xf) as u8)
    }
}
