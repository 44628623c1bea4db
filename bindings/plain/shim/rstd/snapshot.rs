use std::marker::PhantomData;

/// What a value was at one moment, in contracts.
pub struct Snapshot<T>(PhantomData<T>);

unsafe impl<T> Send for Snapshot<T> {}
unsafe impl<T> Sync for Snapshot<T> {}

impl<T> Snapshot<T> {
    pub fn of(_value: &T) -> Snapshot<T> {
        Snapshot(PhantomData)
    }
}
