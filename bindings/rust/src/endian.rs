//! Byte orders.
//!
//! Records that this machine's kernel wrote are in [`Native`] order. Those of a file may be in
//! either order, which [`Dynamic`] selects when the program runs.

/// Turns bytes of the source into numbers.
///
/// The order of a type of your own must be little or big endian; under any other order no record is
/// read (`ErrorKind::UnsupportedConfig`), only single numbers are.
///
/// # Safety
/// Nothing in this crate depends on an implementation for its memory safety. The trait is unsafe so
/// that implementations written for other versions of this crate compile.
pub unsafe trait Endian: Clone {
    /// Returns the number of two bytes.
    fn convert_u16(&self, bytes: [u8; 2]) -> u16;

    /// Returns the number of four bytes.
    fn convert_u32(&self, bytes: [u8; 4]) -> u32;

    /// Returns the number of eight bytes.
    fn convert_u64(&self, bytes: [u8; 8]) -> u64;

    /// Returns whether this is the order of this machine.
    fn is_native(&self) -> bool {
        false
    }
}

/// The order of this machine.
#[derive(Copy, Clone, Debug, Default)]
pub struct Native;

/// The lowest byte first.
#[derive(Copy, Clone, Debug, Default)]
pub struct Little;

/// The highest byte first.
#[derive(Copy, Clone, Debug, Default)]
pub struct Big;

/// One of the two orders, selected when the program runs.
#[derive(Copy, Clone, Debug, Eq, PartialEq, Hash)]
pub enum Dynamic {
    /// The highest byte first.
    Big,

    /// The lowest byte first.
    Little,
}

macro_rules! fixed_order {
    ($order:ident, $from:ident, $native:expr) => {
        // SAFETY: the trait has no requirement.
        unsafe impl Endian for $order {
            #[inline]
            fn convert_u16(&self, bytes: [u8; 2]) -> u16 {
                u16::$from(bytes)
            }

            #[inline]
            fn convert_u32(&self, bytes: [u8; 4]) -> u32 {
                u32::$from(bytes)
            }

            #[inline]
            fn convert_u64(&self, bytes: [u8; 8]) -> u64 {
                u64::$from(bytes)
            }

            #[inline]
            fn is_native(&self) -> bool {
                $native
            }
        }
    };
}

fixed_order!(Native, from_ne_bytes, true);
fixed_order!(Little, from_le_bytes, cfg!(target_endian = "little"));
fixed_order!(Big, from_be_bytes, cfg!(target_endian = "big"));

// SAFETY: the trait has no requirement.
unsafe impl Endian for Dynamic {
    #[inline]
    fn convert_u16(&self, bytes: [u8; 2]) -> u16 {
        match self {
            Dynamic::Big => Big.convert_u16(bytes),
            Dynamic::Little => Little.convert_u16(bytes),
        }
    }

    #[inline]
    fn convert_u32(&self, bytes: [u8; 4]) -> u32 {
        match self {
            Dynamic::Big => Big.convert_u32(bytes),
            Dynamic::Little => Little.convert_u32(bytes),
        }
    }

    #[inline]
    fn convert_u64(&self, bytes: [u8; 8]) -> u64 {
        match self {
            Dynamic::Big => Big.convert_u64(bytes),
            Dynamic::Little => Little.convert_u64(bytes),
        }
    }

    #[inline]
    fn is_native(&self) -> bool {
        match self {
            Dynamic::Big => Big.is_native(),
            Dynamic::Little => Little.is_native(),
        }
    }
}

/// The two orders of the C interface.
#[derive(Copy, Clone, Debug, Eq, PartialEq)]
pub(crate) enum Order {
    Little = 0,
    Big = 1,
}

impl Order {
    /// The order by which an [`Endian`] converts, or `None` if it is neither of the two.
    #[inline]
    pub(crate) fn of<E: Endian>(endian: &E) -> Option<Self> {
        const TWO: [u8; 2] = [1, 2];
        const FOUR: [u8; 4] = [1, 2, 3, 4];
        const EIGHT: [u8; 8] = [1, 2, 3, 4, 5, 6, 7, 8];
        let converted = (
            endian.convert_u16(TWO),
            endian.convert_u32(FOUR),
            endian.convert_u64(EIGHT),
        );
        let little = (
            u16::from_le_bytes(TWO),
            u32::from_le_bytes(FOUR),
            u64::from_le_bytes(EIGHT),
        );
        let big = (
            u16::from_be_bytes(TWO),
            u32::from_be_bytes(FOUR),
            u64::from_be_bytes(EIGHT),
        );
        if converted == little {
            Some(Order::Little)
        } else if converted == big {
            Some(Order::Big)
        } else {
            None
        }
    }

    /// Whether this is the order of this machine.
    #[inline]
    pub(crate) fn is_native(self) -> bool {
        self == if cfg!(target_endian = "big") {
            Order::Big
        } else {
            Order::Little
        }
    }

    /// The number of two bytes.
    #[inline]
    pub(crate) fn two(self, bytes: [u8; 2]) -> u16 {
        match self {
            Order::Little => u16::from_le_bytes(bytes),
            Order::Big => u16::from_be_bytes(bytes),
        }
    }

    /// The number of eight bytes.
    #[inline]
    pub(crate) fn eight(self, bytes: [u8; 8]) -> u64 {
        match self {
            Order::Little => u64::from_le_bytes(bytes),
            Order::Big => u64::from_be_bytes(bytes),
        }
    }

    /// The bytes of a record's header.
    pub(crate) fn header(self, type_: u32, misc: u16, size: u16) -> [u8; 8] {
        let mut header = [0; 8];
        let (first, second, third) = match self {
            Order::Little => (type_.to_le_bytes(), misc.to_le_bytes(), size.to_le_bytes()),
            Order::Big => (type_.to_be_bytes(), misc.to_be_bytes(), size.to_be_bytes()),
        };
        header[..4].copy_from_slice(&first);
        header[4..6].copy_from_slice(&second);
        header[6..].copy_from_slice(&third);
        header
    }
}
