//! How records are to be read.

use std::fmt;

use crate::endian::{Endian, Order};
use crate::error::{ErrorKind, ParseError, ParseResult};
use crate::ffi;
use crate::flags::{ReadFormat, SampleFlags};
use crate::records::SampleId;
use crate::sys::{self, perf_event_attr, BRANCH_HW_INDEX, SAMPLE_ID_ALL};

/// What a parser needs to know of the event that wrote the records.
///
/// The default has no flags, and fits a stream without an attribute. A [`perf_event_attr`] gives
/// the configuration of its event:
///
/// ```
/// use perf_event_data::endian::Native;
/// use perf_event_data::parse::ParseConfig;
/// use perf_event_data::sys::perf_event_attr;
/// use perf_event_data::SampleFlags;
///
/// let attr = perf_event_attr {
///     sample_type: (SampleFlags::IP | SampleFlags::TID).bits(),
///     ..Default::default()
/// };
/// let config: ParseConfig<Native> = ParseConfig::from(attr);
/// assert!(config.sample_type().contains(SampleFlags::TID));
/// ```
#[derive(Clone, Default)]
pub struct ParseConfig<E> {
    fields: ffi::Config,
    misc: u16,
    endian: E,
}

impl<E> ParseConfig<E> {
    /// Returns the same configuration with another byte order.
    pub fn with_endian<E2: Endian>(self, endian: E2) -> ParseConfig<E2> {
        ParseConfig {
            fields: self.fields,
            misc: self.misc,
            endian,
        }
    }

    /// Returns the same configuration with another sample type: its lowest 40 bits.
    pub fn with_sample_type(mut self, sample_type: SampleFlags) -> Self {
        self.fields.sample_type = sample_type.bits() & ((1 << 40) - 1);
        self
    }

    /// Returns the same configuration with another read format: its lowest six bits, and bit 5 also
    /// if there is a higher one.
    pub fn with_read_format(mut self, read_format: ReadFormat) -> Self {
        let bits = read_format.bits();
        self.fields.read_format = bits & 0x3f | u64::from(bits >> 6 != 0) << 5;
        self
    }

    /// Returns the same configuration with another `misc`, which a record's body is read by if it
    /// is parsed without its header.
    pub fn with_misc(mut self, misc: u16) -> Self {
        self.misc = misc;
        self
    }

    /// Returns what a read of a counter contains besides its value.
    pub fn read_format(&self) -> ReadFormat {
        ReadFormat::from_bits_retain(self.fields.read_format)
    }

    /// Returns which fields a sample has.
    pub fn sample_type(&self) -> SampleFlags {
        SampleFlags::from_bits_retain(self.fields.sample_type)
    }

    /// Returns which user registers a sample has, one bit each.
    pub fn regs_user(&self) -> u64 {
        self.fields.sample_regs_user
    }

    /// Returns which registers at the interrupt a sample has, one bit each.
    pub fn regs_intr(&self) -> u64 {
        self.fields.sample_regs_intr
    }

    /// Returns whether records end with a sample id.
    pub fn sample_id_all(&self) -> bool {
        self.fields.flags & SAMPLE_ID_ALL != 0
    }

    /// Returns whether a branch stack has the hardware's index.
    pub fn branch_hw_index(&self) -> bool {
        self.fields.branch_sample_type & BRANCH_HW_INDEX != 0
    }

    /// Returns the `misc` that a body is read by if it is parsed without its header.
    pub fn misc(&self) -> u16 {
        self.misc
    }

    /// Returns the byte order.
    pub fn endian(&self) -> &E {
        &self.endian
    }
}

impl<E: Endian> ParseConfig<E> {
    /// The byte order, if it is one of the C interface.
    #[inline]
    pub(crate) fn order(&self) -> ParseResult<Order> {
        Order::of(&self.endian).ok_or_else(other_order)
    }

    /// How many bytes the sample id of a record of that type has.
    #[inline]
    pub(crate) fn id_len(&self, type_: u32) -> usize {
        if type_ != sys::PERF_RECORD_SAMPLE && type_ < 64 {
            SampleId::estimate_len(self)
        } else {
            0
        }
    }

    /// Completes the configuration for the C interface.
    #[inline]
    pub(crate) fn complete(&mut self) {
        self.fields.version = ffi::VERSION;
        // without an order nothing is called
        self.fields.order = Order::of(&self.endian).map_or(0, |order| order as u32);
    }

    /// The configuration for the C interface, after [`complete`](Self::complete).
    #[inline]
    pub(crate) fn fields(&self) -> &ffi::Config {
        &self.fields
    }
}

#[cold]
fn other_order() -> ParseError {
    ParseError::custom(
        ErrorKind::UnsupportedConfig,
        "the byte order is neither little nor big endian",
    )
}

impl<E: Default> From<perf_event_attr> for ParseConfig<E> {
    fn from(attr: perf_event_attr) -> Self {
        Self {
            fields: ffi::Config {
                flags: attr.flags & SAMPLE_ID_ALL,
                branch_sample_type: attr.branch_sample_type & BRANCH_HW_INDEX,
                sample_regs_user: attr.sample_regs_user,
                sample_regs_intr: attr.sample_regs_intr,
                ..Default::default()
            },
            misc: 0,
            endian: E::default(),
        }
        .with_sample_type(SampleFlags::from_bits_retain(attr.sample_type))
        .with_read_format(ReadFormat::from_bits_retain(attr.read_format))
    }
}

impl<E> fmt::Debug for ParseConfig<E> {
    fn fmt(&self, f: &mut fmt::Formatter<'_>) -> fmt::Result {
        f.debug_struct("ParseConfig")
            .field("read_format", &self.read_format())
            .field("sample_type", &self.sample_type())
            .field("sample_id_all", &self.sample_id_all())
            .field("branch_hw_index", &self.branch_hw_index())
            .field("misc", &format_args!("0x{:X}", self.misc))
            .field("regs_user", &format_args!("0x{:X}", self.regs_user()))
            .field("regs_intr", &format_args!("0x{:X}", self.regs_intr()))
            .finish()
    }
}
