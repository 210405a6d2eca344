use std::ops::{Deref, DerefMut};
#[derive(Clone, Copy, Debug)]
pub struct ArrayVec<T, const N: usize> { xs: [T; N], n: usize }
impl<T: Default + Copy, const N: usize> ArrayVec<T, N> {
    #[inline] pub fn new() -> Self { ArrayVec { xs: [T::default(); N], n: 0 } }
    #[inline] pub fn push(&mut self, x: T) { self.xs[self.n] = x; self.n += 1; }
    #[inline] pub fn is_full(&self) -> bool { self.n == N }
    #[inline] pub fn as_slice(&self) -> &[T] { &self.xs[..self.n] }
    #[inline] pub fn clear(&mut self) { self.n = 0; }
}
impl<T, const N: usize> Deref for ArrayVec<T, N> { type Target = [T]; #[inline] fn deref(&self) -> &[T] { &self.xs[..self.n] } }
impl<T, const N: usize> DerefMut for ArrayVec<T, N> { #[inline] fn deref_mut(&mut self) -> &mut [T] { &mut self.xs[..self.n] } }
impl<T: PartialEq, const N: usize> PartialEq for ArrayVec<T, N> { fn eq(&self, o: &Self) -> bool { self[..] == o[..] } }
impl<T: Eq, const N: usize> Eq for ArrayVec<T, N> {}
impl<'a, T, const N: usize> IntoIterator for &'a ArrayVec<T, N> { type Item = &'a T; type IntoIter = std::slice::Iter<'a, T>; fn into_iter(self) -> Self::IntoIter { self[..].iter() } }
