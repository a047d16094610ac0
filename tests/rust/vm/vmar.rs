//! vm/vmar.rs of docs/src, and what looks at its private fields: a picture of a tree, and a tree from a picture.
include!("source.rs");

/// What a mapping is, field by field.
#[derive(Clone, PartialEq, Eq)]
pub struct MappingPicture {
    pub addr: usize,
    pub size: usize,
    pub vmo: u64,
    pub offset: usize,
    pub permissions: usize,
    /// Of its pages, as many as it has.
    pub flags: Vec<usize>,
}

/// What a live region is. Regions go by their numbers, which the caller gives.
#[derive(Clone, PartialEq, Eq)]
pub struct RegionPicture {
    pub id: u64,
    pub parent: Option<u64>,
    pub addr: usize,
    pub size: usize,
    pub flags: u32,
    pub children: Vec<u64>,
    pub mappings: Vec<MappingPicture>,
}

impl VmMapping {
    fn picture(&self) -> MappingPicture {
        let inner = self.inner.lock();
        MappingPicture {
            addr: inner.addr,
            size: inner.size,
            vmo: self.vmo.id(),
            offset: inner.vmo_offset,
            permissions: self.permissions.bits(),
            flags: inner.flags.iter().take(inner.size / PAGE_SIZE).map(|f| f.bits()).collect(),
        }
    }
}

impl VmAddressRegion {
    /// None of a dead one. `id_of` numbers the regions.
    pub fn picture(&self, id: u64, id_of: &dyn Fn(&Arc<VmAddressRegion>) -> u64) -> Option<RegionPicture> {
        let guard = self.inner.lock();
        let inner = guard.as_ref()?;
        Some(RegionPicture {
            id,
            parent: self.parent.as_ref().map(id_of),
            addr: self.addr,
            size: self.size,
            flags: self.flags.bits(),
            children: inner.children.iter().map(id_of).collect(),
            mappings: inner.mappings.iter().map(|m| m.picture()).collect(),
        })
    }

    /// A region with the picture's range, flags and mappings. It has no children, and is in no list.
    pub fn from_picture(
        of: &RegionPicture,
        parent: Option<Arc<VmAddressRegion>>,
        page_table: Arc<Mutex<dyn GenericPageTable>>,
    ) -> Arc<Self> {
        let mappings = of.mappings.iter().map(|m| {
            Arc::new(VmMapping {
                permissions: MMUFlags::from_bits_truncate(m.permissions),
                vmo: Arc::new(VmObject {
                    id: m.vmo,
                    len: 0,
                    huge: false,
                }),
                page_table: page_table.clone(),
                inner: Mutex::new(VmMappingInner {
                    flags: m.flags.iter().map(|&f| MMUFlags::from_bits_truncate(f)).collect(),
                    addr: m.addr,
                    size: m.size,
                    vmo_offset: m.offset,
                }),
            })
        });
        let inner = VmarInner {
            children: Vec::new(),
            mappings: mappings.collect(),
        };
        Arc::new(VmAddressRegion {
            flags: VmarFlags::from_bits_truncate(of.flags),
            base: KObjectBase::new(),
            _counter: CountHelper::new(),
            addr: of.addr,
            size: of.size,
            parent,
            page_table,
            inner: Mutex::new(Some(inner)),
        })
    }

    pub fn add_child(&self, child: Arc<VmAddressRegion>) {
        self.inner.lock().as_mut().unwrap().children.push(child);
    }

    /// Lets go of what the region holds, so that no cycle of links stays.
    pub fn forget(&self) {
        let inner = self.inner.lock().take();
        drop(inner);
    }
}
