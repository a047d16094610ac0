//! Times calls of the Rust on a space as tests/bench/calls makes it: a root with 31 children of a page and 64 mappings of 512 pages.
//! docs/TIMES.md says how to read it.
use std::sync::Arc;
use std::time::Instant;

use kernel_hal::arch_vm::X86PTE;
use kernel_hal::mem::{set_pool, Pool};
use kernel_hal::utils::page_table::{PageTableImpl, PageTableLevel4};
use kernel_hal::vm::{set_table, GenericPageTable};
use kernel_hal::MMUFlags;
use zircon_object::vm::{VmAddressRegion, VmObject, VmarFlags};

const CALLS: u32 = 200;
const RUNS: u32 = 500;
/// The mappings, one after the other, and their pages.
const MAPS: usize = 0x21_f000;
const PAGES: usize = 64 * 512;

fn table() -> Box<dyn GenericPageTable> {
    Box::new(PageTableImpl::<PageTableLevel4, X86PTE>::from_current())
}

fn map(root: &Arc<VmAddressRegion>, len: usize) -> usize {
    let vmo = Arc::new(VmObject {
        id: 7,
        len: 0x40_0000,
        huge: false,
    });
    let permissions = MMUFlags::RXW;
    let flags = MMUFlags::READ | MMUFlags::USER;
    root.map_ext(None, vmo, 0, len, permissions, flags, false, false, false).unwrap()
}

/// The least time of one call, over the runs.
fn time(name: &str, call: impl FnMut()) {
    time_of(name, RUNS, CALLS, call);
}

/// The same of a call that takes long.
fn time_long(name: &str, call: impl FnMut()) {
    time_of(name, 20, 1, call);
}

fn time_of(name: &str, runs: u32, calls: u32, mut call: impl FnMut()) {
    let mut least = f64::INFINITY;
    for _ in 0..runs {
        let start = Instant::now();
        for _ in 0..calls {
            call();
        }
        least = least.min(start.elapsed().as_secs_f64());
    }
    println!("{:<52} {:.2} µs", name, least / f64::from(calls) * 1e6);
}

fn main() {
    let mut words = vec![0u64; 4096];
    set_pool(Pool {
        words: words.as_mut_ptr(),
        base: 0x10_0000,
        frames: 8,
        used: 1,
        steps: u64::MAX,
    });
    set_table(table);
    let root = VmAddressRegion::new_root();
    for _ in 0..31 {
        root.allocate(None, 0x1000, VmarFlags::empty(), 0x1000).unwrap();
    }
    for _ in 0..64 {
        map(&root, 0x20_0000);
    }
    // nothing refuses a part more, which is taken away again
    time("allocate, and destroy of the child", || {
        let child = root.allocate(None, 0x1000, VmarFlags::empty(), 0x1000).unwrap();
        child.destroy().unwrap();
    });
    time("map_ext of a page, and unmap of it", || {
        let addr = map(&root, 0x1000);
        root.unmap(addr, 0x1000).unwrap();
    });
    time("unmap of a page that nothing maps", || {
        root.unmap(0x1000_0000, 0x1000).unwrap();
    });
    time("get_mapping_flags of the last mapping", || {
        assert!(std::hint::black_box(&root).get_mapping_flags(0x821_e000).is_ok());
    });
    time("check_user_range of one page", || {
        assert!(std::hint::black_box(&root).check_user_range(0x821_e000, 0x1000, MMUFlags::READ).is_ok());
    });
    time_long("check_user_range of all 64 mappings", || {
        assert!(std::hint::black_box(&root).check_user_range(MAPS, PAGES * 0x1000, MMUFlags::READ).is_ok());
    });
    time_long("check_user_range of 2^63 bytes, refused after them", || {
        assert!(std::hint::black_box(&root).check_user_range(MAPS, 1 << 63, MMUFlags::READ).is_err());
    });
    // not the first page, which touches a child
    time("protect of one page", || {
        assert!(root.protect(MAPS + 0x1000, 0x1000, MMUFlags::READ).is_ok());
    });
    time_long("protect of all pages but the first", || {
        assert!(root.protect(MAPS + 0x1000, (PAGES - 1) * 0x1000, MMUFlags::READ).is_ok());
    });
    std::mem::forget(root);
}
