use super::alloc::{AllocError, Global};
use std::ops::{Deref, DerefMut};

/// A value in memory of its own.
pub struct Box<T>(pub std::boxed::Box<T>);

impl<T> Box<T> {
    /// (`std::boxed::Box::new` would end the program where memory is wanting, so a vector of one value asks for it)
    pub fn new(_alloc: Global, value: T) -> Result<Box<T>, AllocError> {
        let mut one = std::vec::Vec::new();
        one.try_reserve_exact(1).map_err(|_| AllocError)?;
        one.push(value);
        let at = std::boxed::Box::into_raw(one.into_boxed_slice()).cast::<T>();
        Ok(Box(unsafe { std::boxed::Box::from_raw(at) }))
    }
}

impl<T> Deref for Box<T> {
    type Target = T;

    fn deref(&self) -> &T {
        &self.0
    }
}

impl<T> DerefMut for Box<T> {
    fn deref_mut(&mut self) -> &mut T {
        &mut self.0
    }
}
