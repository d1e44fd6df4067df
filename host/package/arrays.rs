/// Slices as arrays. Rust has both functions of itself from 1.93 on, and takes its own there; an older one takes these.
#[allow(dead_code)]
pub(crate) trait Arrays<T> {
    fn as_array<const N: usize>(&self) -> Option<&[T; N]>;

    fn as_mut_array<const N: usize>(&mut self) -> Option<&mut [T; N]>;
}

impl<T> Arrays<T> for [T] {
    #[inline]
    fn as_array<const N: usize>(&self) -> Option<&[T; N]> {
        self.try_into().ok()
    }

    #[inline]
    fn as_mut_array<const N: usize>(&mut self) -> Option<&mut [T; N]> {
        self.try_into().ok()
    }
}
