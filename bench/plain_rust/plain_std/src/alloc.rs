//! The allocator, and want of memory, which never comes here: Rust ends the process.

/// The global allocator, as a value.
#[derive(Clone, Copy, PartialEq, Eq, Debug)]
pub struct Global;

pub trait Allocator {
    fn allocate(&self, size: usize, align: usize) -> Result<*mut u8, AllocError>;

    /// # Safety
    /// The block was allocated here, of this size.
    unsafe fn deallocate(&self, block: *mut u8, size: usize, align: usize);
}

impl Allocator for Global {
    fn allocate(&self, size: usize, align: usize) -> Result<*mut u8, AllocError> {
        let layout = std::alloc::Layout::from_size_align(size, align).map_err(|_| AllocError)?;
        let block = unsafe { std::alloc::alloc(layout) };
        if block.is_null() { Err(AllocError) } else { Ok(block) }
    }

    unsafe fn deallocate(&self, block: *mut u8, size: usize, align: usize) {
        unsafe { std::alloc::dealloc(block, std::alloc::Layout::from_size_align_unchecked(size, align)) }
    }
}

pub trait AllocGlobal {}

impl AllocGlobal for Global {}

#[derive(Clone, Copy, PartialEq, Eq, Debug)]
pub struct AllocError;

/// Want of memory, with what could not be stored.
#[derive(Clone, Copy, PartialEq, Eq, Debug)]
pub struct AllocFailed<T> {
    pub value: T,
}

impl<T> From<AllocFailed<T>> for AllocError {
    #[inline(always)]
    fn from(_failed: AllocFailed<T>) -> AllocError {
        AllocError
    }
}
