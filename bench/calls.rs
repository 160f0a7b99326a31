// Included into the oracle's machine.rs, so that what is private there can be called.

pub fn bench(p: &Params) -> Box<dyn lent::Bench> {
    choose!(p, Runner)
}

fn block(start: usize) -> Block {
    Block::from_aligned_address(unsafe { Address::from_usize(start) })
}

impl<VM: VMBinding> lent::Bench for Runner<VM> {
    fn init(&mut self, start: usize, cell: usize) {
        unsafe { self.holders.get_unchecked(0) }.init_block(block(start), cell)
    }
    fn sweep(&mut self, start: usize) {
        block(start).sweep::<VM>()
    }
    fn take(&mut self, start: usize) -> usize {
        unsafe { self.holders.get_unchecked_mut(0) }.block_alloc(block(start)).as_usize()
    }
    fn alloc_fast(&mut self, size: usize, align: usize, offset: usize) -> usize {
        unsafe { self.holders.get_unchecked_mut(0) }.alloc(size, align, offset).as_usize()
    }
    fn bin(&self, size: usize) -> usize {
        mi_bin::<VM>(size, 8)
    }
    fn number(&self, list: usize) -> usize {
        if list == 0 { 0 } else { lists::number(list as *const BlockList) }
    }
}
