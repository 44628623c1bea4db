pub use std::marker::PhantomData;

/// What a value stands for, in contracts.
pub trait Model {}

/// A name that no other value has, in contracts.
pub struct Brand;
