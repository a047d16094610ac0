//! The crate kernel_hal around the files of docs/src, which are compiled as they are. All else here is a stand-in: a pool of frames
//! for physical memory, and nothing for locks, logs and TLBs.
#![allow(unused)]

extern crate alloc;
#[macro_use]
extern crate cfg_if;

// The arguments are checked and never evaluated, as under a log level that leaves the lines out.
macro_rules! debug {
    ($($t:tt)*) => {
        if false {
            let _ = format_args!($($t)*);
        }
    };
}

macro_rules! trace {
    ($($t:tt)*) => {
        if false {
            let _ = format_args!($($t)*);
        }
    };
}

// What it would define drives the machine that the program runs on.
macro_rules! hal_fn_impl {
    ($($t:tt)*) => {};
}

#[path = "../../docs/src/kernel-hal/src/common"]
pub mod common {
    pub mod addr {
        pub type PhysAddr = usize;
        pub type VirtAddr = usize;
        pub type DevVAddr = usize;

        pub const fn is_aligned(addr: usize) -> bool {
            addr % super::defs::PAGE_SIZE == 0
        }
    }

    pub mod defs;
    pub mod vm;
}

#[path = "../../docs/src/kernel-hal/src/utils"]
pub mod utils {
    pub mod page_table;
}

#[path = "../../docs/src/kernel-hal/src/bare/arch/x86_64/vm.rs"]
pub mod arch_vm;

pub use common::addr;
pub use common::defs::*;

pub mod vm {
    pub use crate::common::vm::*;
    use crate::{MMUFlags, PhysAddr, VirtAddr};
    use std::cell::Cell;

    /// The table of a space: that of the pool that is lent at the time, with the entries that `set_table` chose. Switched off, or while a
    /// panic unwinds, it cuts nothing: what is dropped then must not change the pool.
    pub struct PageTable;

    std::thread_local! {
        static MAKE: Cell<Option<fn() -> Box<dyn GenericPageTable>>> = const { Cell::new(None) };
        static IS_OFF: Cell<bool> = const { Cell::new(false) };
    }

    pub fn set_table(make: fn() -> Box<dyn GenericPageTable>) {
        MAKE.with(|m| m.set(Some(make)));
    }

    /// Does something with the table switched off.
    pub fn without_table<T>(f: impl FnOnce() -> T) -> T {
        IS_OFF.with(|o| o.set(true));
        let done = f();
        IS_OFF.with(|o| o.set(false));
        done
    }

    fn is_off() -> bool {
        IS_OFF.with(|o| o.get()) || std::thread::panicking()
    }

    impl PageTable {
        pub fn from_current() -> Self {
            PageTable
        }

        fn table(&self) -> Box<dyn GenericPageTable> {
            MAKE.with(|m| m.get()).expect("a table")()
        }

        // Cloning is left out: the pool's table is the space's own.
        pub fn clone_kernel(self) -> Self {
            self
        }
    }

    impl GenericPageTable for PageTable {
        fn table_phys(&self) -> PhysAddr {
            self.table().table_phys()
        }

        fn map(&mut self, page: Page, paddr: PhysAddr, flags: MMUFlags) -> PagingResult {
            self.table().map(page, paddr, flags)
        }

        fn unmap(&mut self, vaddr: VirtAddr) -> PagingResult<(PhysAddr, PageSize)> {
            self.table().unmap(vaddr)
        }

        fn update(
            &mut self,
            vaddr: VirtAddr,
            paddr: Option<PhysAddr>,
            flags: Option<MMUFlags>,
        ) -> PagingResult<PageSize> {
            self.table().update(vaddr, paddr, flags)
        }

        fn query(&self, vaddr: VirtAddr) -> PagingResult<(PhysAddr, MMUFlags, PageSize)> {
            self.table().query(vaddr)
        }

        fn unmap_cont(&mut self, start_vaddr: VirtAddr, size: usize) -> PagingResult {
            if is_off() {
                return Ok(());
            }
            self.table().unmap_cont(start_vaddr, size)
        }
    }

    // A page table is made over the lent pool by `from_current`: its root is the pool's first frame.
    pub fn current_vmtoken() -> PhysAddr {
        crate::mem::pool().base
    }

    pub fn flush_tlb(_vaddr: Option<VirtAddr>) {}

    pub fn pt_clone_kernel_space(_dst_pt_root: PhysAddr, _src_pt_root: PhysAddr) {
        unimplemented!()
    }
}

pub mod sync {
    use std::sync::{MutexGuard, TryLockError};

    /// A lock that a panic leaves open. Locked twice it would wait for ever, which counts as a call that does not end.
    pub struct Mutex<T: ?Sized>(std::sync::Mutex<T>);

    impl<T> Mutex<T> {
        pub const fn new(value: T) -> Self {
            Mutex(std::sync::Mutex::new(value))
        }
    }

    impl<T: ?Sized> Mutex<T> {
        pub fn try_lock(&self) -> Option<MutexGuard<'_, T>> {
            match self.0.try_lock() {
                Ok(guard) => Some(guard),
                Err(TryLockError::Poisoned(left)) => Some(left.into_inner()),
                Err(TryLockError::WouldBlock) => None,
            }
        }

        pub fn lock(&self) -> MutexGuard<'_, T> {
            self.try_lock().unwrap_or_else(|| std::panic::panic_any(crate::mem::Endless))
        }
    }
}

pub mod mem {
    use crate::PhysAddr;
    use std::cell::Cell;
    use std::panic::panic_any;

    pub const FRAME_WORDS: usize = 512;

    /// The lent pool: where its words are, and what document 01 says of it.
    #[derive(Clone, Copy)]
    pub struct Pool {
        pub words: *mut u64,
        pub base: usize,
        pub frames: usize,
        pub used: usize,
        /// How many more tables may be looked up before the call counts as one that does not end.
        pub steps: u64,
    }

    std::thread_local! {
        static POOL: Cell<Pool> = const { Cell::new(Pool {
            words: std::ptr::null_mut(),
            base: 0,
            frames: 0,
            used: 0,
            steps: 0,
        }) };
    }

    /// The call looked up a table that is no frame of the pool.
    pub struct Wild;

    /// The call used up its steps.
    pub struct Endless;

    pub fn pool() -> Pool {
        POOL.with(|p| p.get())
    }

    pub fn set_pool(to: Pool) {
        POOL.with(|p| p.set(to))
    }

    pub fn phys_to_virt(paddr: PhysAddr) -> usize {
        let mut p = pool();
        if p.steps == 0 {
            panic_any(Endless);
        }
        p.steps -= 1;
        set_pool(p);
        let offset = paddr.wrapping_sub(p.base);
        if paddr < p.base || offset % 4096 != 0 || p.frames <= offset / 4096 {
            panic_any(Wild);
        }
        p.words as usize + offset
    }

    pub struct PhysFrame(PhysAddr);

    impl PhysFrame {
        /// Takes the frame at `used` and zeroes it.
        pub fn new_zero() -> Option<Self> {
            let mut p = pool();
            if p.frames <= p.used {
                return None;
            }
            let at = p.used;
            unsafe { std::ptr::write_bytes(p.words.add(at * FRAME_WORDS), 0, FRAME_WORDS) };
            p.used += 1;
            set_pool(p);
            Some(PhysFrame(p.base.wrapping_add(4096 * at)))
        }

        pub unsafe fn from_paddr(paddr: PhysAddr) -> Self {
            PhysFrame(paddr)
        }

        pub fn paddr(&self) -> PhysAddr {
            self.0
        }
    }
}
