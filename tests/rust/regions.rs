//! A space of the Rust: its regions by the numbers that the trace gives them, and the calls on them.
use std::collections::BTreeMap;
use std::fmt::Write as _;
use std::sync::Arc;

use kernel_hal::sync::Mutex;
use kernel_hal::vm::{without_table, GenericPageTable, PageTable, PagingError, PagingResult};
use kernel_hal::MMUFlags;
use zircon_object::vm::{MappingPicture, RegionPicture, VmAddressRegion, VmObject, VmarFlags};
use zircon_object::{ZxError, ZxResult};

use crate::Answer;

/// A mapping of more pages than these is not made: its page flags would take too much memory.
const MOST_PAGES: usize = 1 << 16;

#[derive(Clone)]
pub enum Call {
    Root,
    Kernel,
    Alloc(u64, Option<usize>, usize, VmarFlags, usize),
    MapExt(Map),
    Unmap(u64, usize, usize),
    Protect(u64, usize, usize, MMUFlags),
    Destroy(u64),
    Clear(u64),
    MappingFlags(u64, usize),
    VaddrFlags(u64, usize),
    Check(u64, usize, usize, MMUFlags),
}

#[derive(Clone)]
pub struct Map {
    pub region: u64,
    pub offset: Option<usize>,
    pub vmo: u64,
    pub vmo_len: usize,
    pub vmo_offset: usize,
    pub len: usize,
    pub permissions: MMUFlags,
    pub flags: MMUFlags,
    pub overwrite: bool,
    pub allow_faults: bool,
}

/// The live regions in the order of their making, and the next number.
#[derive(Clone, PartialEq, Eq)]
pub struct Picture {
    next: u64,
    regions: Vec<RegionPicture>,
}

pub struct Regions {
    /// Live ones, and dead ones of this space that were made here.
    handles: BTreeMap<u64, Arc<VmAddressRegion>>,
    order: Vec<u64>,
    next: u64,
}

fn number(e: ZxError) -> u32 {
    match e {
        ZxError::INVALID_ARGS => 1,
        ZxError::ACCESS_DENIED => 2,
        ZxError::NO_MEMORY => 3,
        ZxError::NOT_FOUND => 4,
        ZxError::BAD_STATE => 5,
    }
}

fn answer(result: ZxResult<u64>) -> Answer {
    match result {
        Ok(value) => Answer::Done(vec![value]),
        Err(e) => Answer::Refused(number(e)),
    }
}

fn flags_answer(result: PagingResult<MMUFlags>) -> Answer {
    match result {
        Ok(flags) => Answer::Done(vec![flags.bits() as u64]),
        Err(PagingError::NotMapped) => Answer::Refused(6),
        Err(PagingError::NoMemory) => Answer::Refused(9),
        Err(PagingError::AlreadyMapped) => Answer::Refused(7),
    }
}

impl Regions {
    pub fn new() -> Self {
        let mut regions = Regions {
            handles: BTreeMap::new(),
            order: Vec::new(),
            next: 0,
        };
        regions.start(VmAddressRegion::new_root());
        regions
    }

    fn start(&mut self, root: Arc<VmAddressRegion>) {
        self.let_go();
        self.handles.insert(0, root);
        self.order.push(0);
        self.next = 1;
    }

    /// Drops every region. The pool keeps its words.
    fn let_go(&mut self) {
        without_table(|| {
            for region in self.handles.values() {
                region.forget();
            }
            self.handles.clear();
        });
        self.order.clear();
    }

    fn handle(&self, id: u64) -> Arc<VmAddressRegion> {
        match self.handles.get(&id) {
            Some(region) => region.clone(),
            None => self.dead(),
        }
    }

    /// A dead region, for numbers that were given out and whose region is no longer kept.
    fn dead(&self) -> Arc<VmAddressRegion> {
        let blank = RegionPicture {
            id: 0,
            parent: None,
            addr: 0,
            size: 0,
            flags: 0,
            children: Vec::new(),
            mappings: Vec::new(),
        };
        let region = VmAddressRegion::from_picture(&blank, None, self.table());
        region.forget();
        region
    }

    fn table(&self) -> Arc<Mutex<dyn GenericPageTable>> {
        Arc::new(Mutex::new(PageTable::from_current()))
    }

    fn id_of(&self, region: &Arc<VmAddressRegion>) -> u64 {
        for (&id, r) in self.handles.iter().rev() {
            if Arc::ptr_eq(r, region) {
                return id;
            }
        }
        u64::MAX
    }

    pub fn picture(&self) -> Picture {
        let id_of = |region: &Arc<VmAddressRegion>| self.id_of(region);
        let regions = self.order.iter().filter_map(|&id| self.handles[&id].picture(id, &id_of));
        Picture {
            next: self.next,
            regions: regions.collect(),
        }
    }

    /// Becomes what the picture shows.
    pub fn become_picture(&mut self, of: &Picture) {
        self.let_go();
        self.next = of.next;
        let table = self.table();
        for r in &of.regions {
            let parent = r.parent.map(|p| self.handles[&p].clone());
            let region = VmAddressRegion::from_picture(r, parent, table.clone());
            self.handles.insert(r.id, region);
            self.order.push(r.id);
        }
        for r in &of.regions {
            for c in &r.children {
                self.handles[&r.id].add_child(self.handles[c].clone());
            }
        }
    }

    /// Dead regions are not kept in the order.
    fn tidy(&mut self) {
        let handles = &self.handles;
        self.order.retain(|id| handles[id].is_alive());
    }

    pub fn run(&mut self, call: &Call) -> Answer {
        let id = match *call {
            Call::Root => {
                self.start(VmAddressRegion::new_root());
                return Answer::Done(vec![0]);
            }
            Call::Kernel => {
                self.start(VmAddressRegion::new_kernel());
                return Answer::Done(vec![0]);
            }
            Call::Alloc(id, ..) | Call::Unmap(id, ..) | Call::Protect(id, ..) => id,
            Call::Destroy(id) | Call::Clear(id) | Call::MappingFlags(id, _) => id,
            Call::VaddrFlags(id, _) | Call::Check(id, ..) => id,
            Call::MapExt(ref m) => m.region,
        };
        // no caller of the Rust has such a region
        if self.next <= id {
            return Answer::Refused(11);
        }
        let region = self.handle(id);
        let done = match *call {
            Call::Alloc(_, offset, len, flags, align) => {
                let made = region.allocate(offset, len, flags, align);
                answer(made.map(|child| {
                    let id = self.next;
                    self.handles.insert(id, child);
                    self.order.push(id);
                    self.next += 1;
                    id
                }))
            }
            Call::MapExt(ref m) => {
                let vmo = Arc::new(VmObject {
                    id: m.vmo,
                    len: m.vmo_len,
                    huge: MOST_PAGES < m.len / 4096,
                });
                let made = region.map_ext(
                    m.offset,
                    vmo,
                    m.vmo_offset,
                    m.len,
                    m.permissions,
                    m.flags,
                    m.overwrite,
                    false,
                    m.allow_faults,
                );
                answer(made.map(|addr| addr as u64))
            }
            Call::Unmap(_, addr, len) => answer(region.unmap(addr, len).map(|()| 0)),
            Call::Protect(_, addr, len, flags) => answer(region.protect(addr, len, flags).map(|()| 0)),
            Call::Destroy(_) => answer(region.destroy().map(|()| 0)),
            Call::Clear(_) => answer(region.clear().map(|()| 0)),
            Call::MappingFlags(_, vaddr) => flags_answer(region.get_mapping_flags(vaddr)),
            Call::VaddrFlags(_, vaddr) => flags_answer(region.get_vaddr_flags(vaddr)),
            Call::Check(_, addr, len, access) => {
                answer(region.check_user_range(addr, len, access).map(|()| 0))
            }
            Call::Root | Call::Kernel => unreachable!(),
        };
        self.tidy();
        done
    }
}

fn mapping_text(m: &MappingPicture, out: &mut String) {
    write!(out, " m {:x} {:x} {:x} {:x} {:x}", m.addr, m.size, m.vmo, m.offset, m.permissions).unwrap();
    let mut i = 0;
    while i < m.flags.len() {
        let run = m.flags[i..].iter().take_while(|&&f| f == m.flags[i]).count();
        write!(out, " f {:x} {:x}", m.flags[i], run).unwrap();
        i += run;
    }
}

impl Picture {
    /// As the line `tree` writes it.
    pub fn text(&self) -> String {
        let mut out = String::new();
        write!(out, "{:x}", self.next).unwrap();
        for r in &self.regions {
            write!(out, " r {:x} ", r.id).unwrap();
            match r.parent {
                Some(p) => write!(out, "{:x}", p).unwrap(),
                None => out.push('-'),
            }
            write!(out, " {:x} {:x} {:x}", r.addr, r.size, r.flags).unwrap();
            for c in &r.children {
                write!(out, " c {:x}", c).unwrap();
            }
            for m in &r.mappings {
                mapping_text(m, &mut out);
            }
        }
        out
    }

    /// From what `text` writes.
    pub fn read(text: &str) -> Self {
        let mut fields = text.split(' ');
        let mut n = || {
            let field = fields.next()?;
            Some((field.to_string(), u64::from_str_radix(field, 16).unwrap_or(u64::MAX)))
        };
        let mut of = Picture {
            next: n().expect("a number").1,
            regions: Vec::new(),
        };
        while let Some((kind, _)) = n() {
            let mut next = || n().expect("a number").1;
            match kind.as_str() {
                "r" => {
                    let id = next();
                    let parent = Some(next()).filter(|&p| p != u64::MAX);
                    of.regions.push(RegionPicture {
                        id,
                        parent,
                        addr: next() as usize,
                        size: next() as usize,
                        flags: next() as u32,
                        children: Vec::new(),
                        mappings: Vec::new(),
                    });
                }
                "c" => of.regions.last_mut().expect("a region").children.push(next()),
                "m" => of.regions.last_mut().expect("a region").mappings.push(MappingPicture {
                    addr: next() as usize,
                    size: next() as usize,
                    vmo: next(),
                    offset: next() as usize,
                    permissions: next() as usize,
                    flags: Vec::new(),
                }),
                "f" => {
                    let (flags, many) = (next() as usize, next() as usize);
                    let region = of.regions.last_mut().expect("a region");
                    let mapping = region.mappings.last_mut().expect("a mapping");
                    mapping.flags.extend(std::iter::repeat(flags).take(many));
                }
                _ => panic!("a picture"),
            }
        }
        of
    }
}
