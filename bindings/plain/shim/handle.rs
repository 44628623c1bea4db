//! Stands for the file that knows pointers: what C holds is a box where it is full.
use crate::plain::rstd::alloc::Global;
use crate::plain::rstd::prelude::Box;
use crate::plain::sto_c::content::HandleContent;

#[repr(C)]
pub struct Handle {
    at: *mut HandleContent,
    full: u64,
}

impl Handle {
    pub(crate) fn is_full(&self) -> bool {
        self.full == 1
    }

    pub(crate) fn put(&mut self, value: Box<HandleContent>) {
        self.at = std::boxed::Box::into_raw(value.0);
        self.full = 1;
    }

    pub(crate) fn take(&mut self, _alloc: Global) -> Option<Box<HandleContent>> {
        if self.full != 1 {
            return None;
        }
        self.full = 0;
        let at = std::mem::replace(&mut self.at, std::ptr::null_mut());
        Some(Box(unsafe { std::boxed::Box::from_raw(at) }))
    }
}
