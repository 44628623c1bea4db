//! What the standard library has in newer versions of Rust than 1.63.

pub trait CastSigned {
    fn cast_signed(self) -> i64;
}

impl CastSigned for u64 {
    #[inline]
    fn cast_signed(self) -> i64 {
        self as i64
    }
}

pub trait CastUnsigned {
    fn cast_unsigned(self) -> u64;
}

impl CastUnsigned for i64 {
    #[inline]
    fn cast_unsigned(self) -> u64 {
        self as u64
    }
}

pub trait ChunkBy<T> {
    /// The runs of items of which each one and the next are alike.
    fn chunk_by<F: FnMut(&T, &T) -> bool>(&self, alike: F) -> Chunks<'_, T, F>;
}

pub struct Chunks<'a, T, F> {
    left: &'a [T],
    alike: F,
}

impl<T> ChunkBy<T> for [T] {
    fn chunk_by<F: FnMut(&T, &T) -> bool>(&self, alike: F) -> Chunks<'_, T, F> {
        Chunks { left: self, alike }
    }
}

impl<'a, T, F: FnMut(&T, &T) -> bool> Iterator for Chunks<'a, T, F> {
    type Item = &'a [T];

    fn next(&mut self) -> Option<&'a [T]> {
        if self.left.is_empty() {
            return None;
        }
        let alike = &mut self.alike;
        let many = 1 + self.left.windows(2).take_while(|it| alike(&it[0], &it[1])).count();
        let (run, left) = self.left.split_at(many);
        self.left = left;
        Some(run)
    }
}
