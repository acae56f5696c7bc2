//! Where data came from.

use std::fmt;

use crate::flags::{MemBlk, MemDtlb, MemLevel, MemLevelNum, MemLock, MemOp, MemSnoop};
use crate::parse::parse_by;

/// Where the data that a memory instruction accessed came from, `union perf_mem_data_src`.
#[derive(Copy, Clone, Default, Eq, PartialEq, Hash)]
pub struct DataSource(u64);

impl DataSource {
    /// Makes a data source from its word.
    pub const fn from_word(word: u64) -> Self {
        Self(word)
    }

    /// Returns the whole word.
    pub const fn bits(&self) -> u64 {
        self.0
    }

    /// The number in a field of the word.
    const fn field(&self, lowest: u32, bits: u32) -> u64 {
        self.0 >> lowest & ((1 << bits) - 1)
    }

    /// Returns what the instruction does: bits 0 to 4.
    pub fn mem_op(&self) -> MemOp {
        MemOp::from_bits_retain(self.field(0, 5))
    }

    /// Returns where in the memory hierarchy the access ended: bits 5 to 18.
    pub fn mem_lvl(&self) -> MemLevel {
        MemLevel::from_bits_retain(self.field(5, 14))
    }

    /// Returns what was found in other caches: bits 19 to 23, and 38 and 39, at these places.
    pub fn mem_snoop(&self) -> MemSnoop {
        MemSnoop::new(self.field(19, 5), self.field(38, 2))
    }

    /// Returns whether the access held a lock: bits 24 and 25.
    pub fn mem_lock(&self) -> MemLock {
        MemLock::from_bits_retain(self.field(24, 2))
    }

    /// Returns how the address was translated: bits 26 to 32.
    pub fn mem_dtlb(&self) -> MemDtlb {
        MemDtlb::from_bits_retain(self.field(26, 7))
    }

    /// Returns the number of the memory level: bits 33 to 36.
    pub fn mem_lvl_num(&self) -> MemLevelNum {
        MemLevelNum(self.field(33, 4) as u8)
    }

    /// Returns whether the access went to another node: bit 37.
    pub fn mem_remote(&self) -> bool {
        self.field(37, 1) != 0
    }

    /// Returns why the access was blocked: bits 40 to 42.
    pub fn mem_blk(&self) -> MemBlk {
        MemBlk::from_bits_retain(self.field(40, 3))
    }

    /// Returns how far the data came: bits 43 to 45.
    pub fn mem_hops(&self) -> u8 {
        self.field(43, 3) as u8
    }
}

impl fmt::Debug for DataSource {
    fn fmt(&self, f: &mut fmt::Formatter<'_>) -> fmt::Result {
        f.debug_struct("DataSource")
            .field("mem_op", &self.mem_op())
            .field("mem_lvl", &self.mem_lvl())
            .field("mem_snoop", &self.mem_snoop())
            .field("mem_lock", &self.mem_lock())
            .field("mem_dtlb", &self.mem_dtlb())
            .field("mem_lvl_num", &self.mem_lvl_num())
            .field("mem_remote", &self.mem_remote())
            .field("mem_blk", &self.mem_blk())
            .field("mem_hops", &self.mem_hops())
            .finish()
    }
}

parse_by! {
    DataSource: p => Ok(Self(p.parse()?));
}
