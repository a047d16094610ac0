//! An entry word by document 01, 'Entries and translation', and by nothing else. The files of docs/src are generic over the entry type:
//! with this one their pool words are those that document 01 fixes.
use kernel_hal::utils::page_table::GenericPTE;
use kernel_hal::{MMUFlags, PhysAddr};

// "Address bits are 51-12."
const ADDRESS: u64 = 0xf_ffff_ffff_f000;
const PRESENT: u64 = 1;
const WRITE: u64 = 1 << 1;
const USER: u64 = 1 << 2;
const LARGE: u64 = 1 << 7;
const LEAF: u64 = 1 << 9;
const NO_EXECUTE: u64 = 1 << 63;

#[derive(Clone, Copy, Debug)]
#[repr(transparent)]
pub struct Entry(u64);

impl GenericPTE for Entry {
    fn addr(&self) -> PhysAddr {
        (self.0 & ADDRESS) as PhysAddr
    }

    // "Reading back, READ is bit 0, and HUGE_PAGE is never returned."
    fn flags(&self) -> MMUFlags {
        let mut flags = MMUFlags::empty();
        flags.set(MMUFlags::READ, self.0 & PRESENT != 0);
        flags.set(MMUFlags::WRITE, self.0 & WRITE != 0);
        flags.set(MMUFlags::USER, self.0 & USER != 0);
        flags.set(MMUFlags::EXECUTE, self.0 & NO_EXECUTE == 0);
        flags
    }

    fn is_unused(&self) -> bool {
        self.0 == 0
    }

    fn is_present(&self) -> bool {
        self.0 & PRESENT != 0
    }

    // "bit 7 marks 2 MiB and 1 GiB leaves": only above the lowest level is it asked.
    fn is_leaf(&self) -> bool {
        self.0 & LARGE != 0
    }

    fn set_addr(&mut self, paddr: PhysAddr) {
        self.0 = (self.0 & !ADDRESS) | (paddr as u64 & ADDRESS);
    }

    // "In a leaf, bit 0 is set when any of READ, WRITE, EXECUTE is given; bit 1 is WRITE, bit 2 USER, bit 63 is not EXECUTE; bit 7 marks
    // 2 MiB and 1 GiB leaves; bit 9 .. is set in every leaf." "Writing rights drops" bits 5 and 6.
    fn set_flags(&mut self, flags: MMUFlags, is_huge: bool) {
        let mut word = self.0 & ADDRESS | LEAF;
        if flags.intersects(MMUFlags::READ | MMUFlags::WRITE | MMUFlags::EXECUTE) {
            word |= PRESENT;
        }
        if flags.contains(MMUFlags::WRITE) {
            word |= WRITE;
        }
        if flags.contains(MMUFlags::USER) {
            word |= USER;
        }
        if !flags.contains(MMUFlags::EXECUTE) {
            word |= NO_EXECUTE;
        }
        if is_huge {
            word |= LARGE;
        }
        self.0 = word;
    }

    // "A table entry is the address with bits 0, 1, 2."
    fn set_table(&mut self, paddr: PhysAddr) {
        self.0 = paddr as u64 & ADDRESS | PRESENT | WRITE | USER;
    }

    fn clear(&mut self) {
        self.0 = 0;
    }
}
