//! Stand-in: a VMO is an id and a length. What would read or commit its pages is never called.
use super::*;
use alloc::sync::Weak;
use alloc::string::String;

pub enum RangeChangeOp {
    RemoveWrite,
    Unmap,
}

/// The call would make page flags for more pages than the program lets it.
pub struct Huge;

pub struct VmObject {
    pub id: u64,
    pub len: usize,
    /// Whether the mapping that it is given for is that large.
    pub huge: bool,
}

type Commit<'a> = &'a mut dyn FnMut(usize, MMUFlags) -> ZxResult<PhysAddr>;

impl VmObject {
    pub fn id(&self) -> u64 {
        self.id
    }

    pub fn len(&self) -> usize {
        self.len
    }

    // Asked once a call has passed its own tests, before flags are made.
    pub fn cache_policy(&self) -> CachePolicy {
        if self.huge {
            std::panic::panic_any(Huge);
        }
        CachePolicy::Cached
    }

    pub fn append_mapping(&self, _mapping: Weak<VmMapping>) {}

    pub fn name(&self) -> String {
        String::new()
    }

    pub fn new_physical(_paddr: PhysAddr, _pages: usize) -> Arc<Self> {
        unimplemented!()
    }

    pub fn set_cache_policy(&self, _policy: CachePolicy) -> ZxResult {
        unimplemented!()
    }

    pub fn commit_page(&self, _page: usize, _flags: MMUFlags) -> ZxResult<PhysAddr> {
        unimplemented!()
    }

    pub fn commit_pages_with(&self, _f: &mut dyn FnMut(Commit) -> ZxResult) -> ZxResult {
        unimplemented!()
    }

    pub fn committed_pages_in_range(&self, _start: usize, _end: usize) -> usize {
        unimplemented!()
    }

    pub fn share_count(&self) -> usize {
        unimplemented!()
    }

    pub fn create_child(&self, _resizable: bool, _offset: usize, _len: usize) -> ZxResult<Arc<Self>> {
        unimplemented!()
    }

    pub fn read(&self, _offset: usize, _buf: &mut [u8]) -> ZxResult {
        unimplemented!()
    }

    pub fn write(&self, _offset: usize, _buf: &[u8]) -> ZxResult {
        unimplemented!()
    }
}
