//! Structs and numbers of the kernel's header `perf_event.h`.

#![allow(non_camel_case_types)]

use crate::endian::Endian;
use crate::error::{ErrorKind, Reason};
use crate::parse::{parse_by, Parse, ParseBuf, ParseError, ParseResult, Parser};

/// The first eight bytes of every record.
#[repr(C)]
#[derive(Copy, Clone, Debug, Default, PartialEq, Eq)]
pub struct perf_event_header {
    /// The type of the record, `PERF_RECORD_*`.
    pub type_: u32,
    /// Bits that depend on the type, `PERF_RECORD_MISC_*`.
    pub misc: u16,
    /// How many bytes the record has, with this header.
    pub size: u16,
}

/// What an event counts or samples, and how, as it was passed to `perf_event_open(2)`.
///
/// For a union of the kernel one of its names is used for all.
#[derive(Copy, Clone, Debug, Default, PartialEq, Eq)]
pub struct perf_event_attr {
    /// The kind of event, `PERF_TYPE_*`.
    pub type_: u32,
    /// The size of this attribute in bytes.
    pub size: u32,
    /// Which event of that kind.
    pub config: u64,
    /// A sample is taken after this many events; or `sample_freq`, the desired samples per second.
    pub sample_period: u64,
    /// Which fields a sample has, `PERF_SAMPLE_*`.
    pub sample_type: u64,
    /// What a read of a counter returns, `PERF_FORMAT_*`.
    pub read_format: u64,
    /// Single bits, from `disabled` on, counted from the lowest.
    pub flags: u64,
    /// The reader is woken after this many events; or `wakeup_watermark`, after this many bytes.
    pub wakeup_events: u32,
    /// The kind of a breakpoint.
    pub bp_type: u32,
    /// More about which event; or the address of a breakpoint, `bp_addr`, and others.
    pub config1: u64,
    /// More about which event; or the length of a breakpoint, `bp_len`, and others.
    pub config2: u64,
    /// Which branches a branch stack has, `PERF_SAMPLE_BRANCH_*`.
    pub branch_sample_type: u64,
    /// Which user registers a sample has, one bit each.
    pub sample_regs_user: u64,
    /// The number of bytes of the user stack in a sample.
    pub sample_stack_user: u32,
    /// The clock of the timestamps, as numbered by `clock_gettime(2)`.
    pub clockid: i32,
    /// Which registers at the interrupt a sample has, one bit each.
    pub sample_regs_intr: u64,
    /// The reader is woken after this many bytes of AUX data.
    pub aux_watermark: u32,
    /// The maximal number of frames of a call chain.
    pub sample_max_stack: u16,
    /// The number of bytes of AUX data in a sample.
    pub aux_sample_size: u32,
    /// The data of a signal that the event sends.
    pub sig_data: u64,
    /// Still more about which event.
    pub config3: u64,
}

/// Bit 18 of an attribute's flags.
pub(crate) const SAMPLE_ID_ALL: u64 = 1 << 18;

/// Bit 17 of an attribute's branch sample type.
pub(crate) const BRANCH_HW_INDEX: u64 = 1 << 17;

impl perf_event_attr {
    /// Returns whether every record except SAMPLE ends with a sample id: bit 18 of `flags`.
    pub fn sample_id_all(&self) -> bool {
        self.flags & SAMPLE_ID_ALL != 0
    }
}

macro_rules! numbers {
    ($( $( #[$attr:meta] )* $name:ident = $value:expr, )*) => {
        $( $( #[$attr] )* pub const $name: u32 = $value; )*
    };
}

macro_rules! types {
    ($( $name:ident($type:ident $( <$life:lifetime> )?) $method:ident $number:ident = $value:literal; )*) => {
        numbers! {
            $(
                #[doc = concat!("The type of [`", stringify!($name), "`](crate::Record::", stringify!($name), ").")]
                $number = $value,
            )*
        }
    };
}

each_type!(types);

numbers! {
    /// The type of [`Switch`](crate::Record::Switch).
    PERF_RECORD_SWITCH = 14,
    /// In `misc` of SWITCH and SWITCH_CPU_WIDE: the task left the processor.
    PERF_RECORD_MISC_SWITCH_OUT = 1 << 13,
    /// In `misc` of MMAP2: the file is identified by its build id and not by its inode.
    PERF_RECORD_MISC_MMAP_BUILD_ID = 1 << 14,
    /// The smallest size of an attribute.
    PERF_ATTR_SIZE_VER0 = 64,
    /// The size of an attribute with `config2`.
    PERF_ATTR_SIZE_VER1 = 72,
    /// The size of an attribute with `branch_sample_type`.
    PERF_ATTR_SIZE_VER2 = 80,
    /// The size of an attribute with `sample_regs_user` to `clockid`.
    PERF_ATTR_SIZE_VER3 = 96,
    /// The size of an attribute with `sample_regs_intr`.
    PERF_ATTR_SIZE_VER4 = 104,
    /// The size of an attribute with `aux_watermark` and `sample_max_stack`.
    PERF_ATTR_SIZE_VER5 = 112,
    /// The size of an attribute with `aux_sample_size`.
    PERF_ATTR_SIZE_VER6 = 120,
    /// The size of an attribute with `sig_data`.
    PERF_ATTR_SIZE_VER7 = 128,
    /// The size of an attribute with `config3`.
    PERF_ATTR_SIZE_VER8 = 136,
}

const ATTR_SIZES: [u32; 9] = [
    PERF_ATTR_SIZE_VER0,
    PERF_ATTR_SIZE_VER1,
    PERF_ATTR_SIZE_VER2,
    PERF_ATTR_SIZE_VER3,
    PERF_ATTR_SIZE_VER4,
    PERF_ATTR_SIZE_VER5,
    PERF_ATTR_SIZE_VER6,
    PERF_ATTR_SIZE_VER7,
    PERF_ATTR_SIZE_VER8,
];

parse_by! {
    #[inline]
    perf_event_header: p => {
        let [a, b, c, d, e, f, g, h] = p.parse_array()?;
        let endian = p.endian();
        Ok(Self {
            type_: endian.convert_u32([a, b, c, d]),
            misc: endian.convert_u16([e, f]),
            size: endian.convert_u16([g, h]),
        })
    };
}

/// What a file of `perf record` begins with, in both orders, as the first two numbers.
const FILE_MAGICS: [(u32, u32); 4] = [
    (0x4652_4550, 0x3245_4c49),
    (0x5045_5246, 0x494c_4532),
    (0x494c_4532, 0x5045_5246),
    (0x3245_4c49, 0x4652_4550),
];

/// Why such a file is no stream.
const NO_STREAM: &str = "this is a file of `perf record`, not a stream: open it by \
    file::Recording, or print it by the program perf_data";

impl<'p> Parse<'p> for perf_event_attr {
    fn parse<B, E>(p: &mut Parser<B, E>) -> ParseResult<Self>
    where
        E: Endian,
        B: ParseBuf<'p>,
    {
        let type_ = p.parse()?;
        let size: u32 = p.parse()?;
        if FILE_MAGICS.contains(&(type_, size)) {
            return Err(ParseError::custom(ErrorKind::Eof, NO_STREAM));
        }
        if size < PERF_ATTR_SIZE_VER8 && !ATTR_SIZES.contains(&size) {
            return Err(ParseError::because(Reason::AttributeSize));
        }
        let rest = p.parse_bytes(size as usize - 8)?;
        let (known, tail) = rest.split_at(rest.len().min(PERF_ATTR_SIZE_VER8 as usize - 8));
        if tail.iter().any(|&byte| byte != 0) {
            return Err(ParseError::because(Reason::AttributeTail));
        }
        // fields beyond the size are 0
        let mut all = [0; PERF_ATTR_SIZE_VER8 as usize - 8];
        all[..known.len()].copy_from_slice(known);
        let mut p = Parser::new(&all[..], p.config().clone());
        Ok(Self {
            type_,
            size,
            config: p.parse()?,
            sample_period: p.parse()?,
            sample_type: p.parse()?,
            read_format: p.parse()?,
            flags: p.parse()?,
            wakeup_events: p.parse()?,
            bp_type: p.parse()?,
            config1: p.parse()?,
            config2: p.parse()?,
            branch_sample_type: p.parse()?,
            sample_regs_user: p.parse()?,
            sample_stack_user: p.parse()?,
            clockid: p.parse_u32()? as i32,
            sample_regs_intr: p.parse()?,
            aux_watermark: p.parse()?,
            sample_max_stack: p.parse()?,
            aux_sample_size: {
                p.parse_u16()?;
                p.parse()?
            },
            sig_data: {
                p.parse_u32()?;
                p.parse()?
            },
            config3: p.parse()?,
        })
    }
}
