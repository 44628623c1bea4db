use super::alloc::AllocError;
use std::marker::PhantomData;
use std::ops::Deref;
use std::ptr::NonNull;
use std::sync::atomic::{AtomicUsize, Ordering::SeqCst};

struct Counted<T> {
    owners: AtomicUsize,
    value: T,
}

/// A value that several threads own: it goes with the last of them.
///
/// (`std::sync::Arc` would end the program where memory is wanting)
pub struct Arc<T, A>(NonNull<Counted<T>>, PhantomData<(Counted<T>, A)>);

unsafe impl<T: Send + Sync, A> Send for Arc<T, A> {}
unsafe impl<T: Send + Sync, A> Sync for Arc<T, A> {}

impl<T, A> Arc<T, A> {
    pub fn new(_alloc: A, value: T) -> Result<Arc<T, A>, AllocError> {
        let counted = Counted { owners: AtomicUsize::new(1), value };
        let boxed = super::boxed::Box::new(super::alloc::Global, counted)?;
        Ok(Arc(NonNull::from(std::boxed::Box::leak(boxed.0)), PhantomData))
    }

    pub fn try_clone(this: &Arc<T, A>) -> Result<Arc<T, A>, AllocError> {
        this.counted().owners.fetch_add(1, SeqCst);
        Ok(Arc(this.0, PhantomData))
    }

    /// Gives the value out where there is no other owner.
    pub fn try_unwrap(this: Arc<T, A>) -> Result<T, Arc<T, A>> {
        if this.counted().owners.load(SeqCst) != 1 {
            return Err(this);
        }
        let counted = unsafe { std::boxed::Box::from_raw(this.0.as_ptr()) };
        std::mem::forget(this);
        Ok((*counted).value)
    }

    fn counted(&self) -> &Counted<T> {
        unsafe { self.0.as_ref() }
    }
}

impl<T, A> Drop for Arc<T, A> {
    fn drop(&mut self) {
        if self.counted().owners.fetch_sub(1, SeqCst) == 1 {
            drop(unsafe { std::boxed::Box::from_raw(self.0.as_ptr()) });
        }
    }
}

impl<T, A> Deref for Arc<T, A> {
    type Target = T;

    fn deref(&self) -> &T {
        &self.counted().value
    }
}
