//! What the crates use of the toolchain's std, over Rust's.
#[derive(Clone, Copy, Debug, PartialEq, Eq)]
pub struct Global;
#[derive(Clone, Copy, Debug)]
pub struct AllocError;
pub struct AllocFailed<T>(pub T);
impl<T> std::fmt::Debug for AllocFailed<T> {
    fn fmt(&self, to: &mut std::fmt::Formatter<'_>) -> std::fmt::Result { to.write_str("AllocFailed") }
}
use std::ops::{Deref, DerefMut};
#[derive(Debug, PartialEq, Eq, Hash, PartialOrd, Ord)]
pub struct Vec<T>(pub std::vec::Vec<T>);
impl<T> Vec<T> {
    #[inline] pub fn new(_: Global) -> Self { Vec(std::vec::Vec::new()) }
    #[inline] pub fn with_capacity(_: Global, n: usize) -> Result<Self, AllocError> { Ok(Vec(std::vec::Vec::with_capacity(n))) }
    #[inline] pub fn push(&mut self, x: T) -> Result<(), AllocFailed<T>> { self.0.push(x); Ok(()) }
    #[inline] pub fn push_reserved(&mut self, x: T) { self.0.push(x) }
    #[inline] pub fn pop(&mut self) -> Option<T> { self.0.pop() }
    #[inline] pub fn len(&self) -> usize { self.0.len() }
    #[inline] pub fn clear(&mut self) { self.0.clear() }
    #[inline] pub fn truncate(&mut self, n: usize) { self.0.truncate(n) }
    #[inline] pub fn as_slice(&self) -> &[T] { &self.0 }
    #[inline] pub fn as_mut_slice(&mut self) -> &mut [T] { &mut self.0 }
    #[inline] pub fn capacity(&self) -> usize { self.0.capacity() }
    #[inline] pub fn reserve(&mut self, n: usize) -> Result<(), AllocError> { self.0.reserve(n); Ok(()) }
    #[inline] pub fn swap_remove(&mut self, n: usize) -> T { self.0.swap_remove(n) }
    #[inline] pub fn remove(&mut self, n: usize) -> T { self.0.remove(n) }
    pub fn append(&mut self, o: &mut Vec<T>) -> Result<(), AllocError> { self.0.append(&mut o.0); Ok(()) }
    pub fn insert(&mut self, n: usize, x: T) -> Result<(), AllocFailed<T>> { self.0.insert(n, x); Ok(()) }
}
impl<T: Clone> Vec<T> {
    pub fn extend_from_slice(&mut self, x: &[T]) -> Result<(), AllocError> { self.0.extend_from_slice(x); Ok(()) }
    pub fn clone(&self) -> Result<Self, AllocError> { Ok(Vec(self.0.clone())) }
    pub fn resize(&mut self, n: usize, x: T) -> Result<(), AllocError> { self.0.resize(n, x); Ok(()) }
}
impl<T> Deref for Vec<T> { type Target = [T]; #[inline] fn deref(&self) -> &[T] { &self.0 } }
impl<T> DerefMut for Vec<T> { #[inline] fn deref_mut(&mut self) -> &mut [T] { &mut self.0 } }
impl<'a, T> IntoIterator for &'a Vec<T> { type Item = &'a T; type IntoIter = std::slice::Iter<'a, T>; #[inline] fn into_iter(self) -> Self::IntoIter { self.0.iter() } }
impl<'a, T> IntoIterator for &'a mut Vec<T> { type Item = &'a mut T; type IntoIter = std::slice::IterMut<'a, T>; #[inline] fn into_iter(self) -> Self::IntoIter { self.0.iter_mut() } }
impl<T> IntoIterator for Vec<T> { type Item = T; type IntoIter = std::vec::IntoIter<T>; fn into_iter(self) -> Self::IntoIter { self.0.into_iter() } }
impl<T> std::borrow::Borrow<[T]> for Vec<T> { fn borrow(&self) -> &[T] { &self.0 } }
impl<T> AsRef<[T]> for Vec<T> { fn as_ref(&self) -> &[T] { &self.0 } }
pub trait ToVecIn<T> { fn to_vec_in(&self, a: Global) -> Result<Vec<T>, AllocError>; }
impl<T: Clone> ToVecIn<T> for [T] { fn to_vec_in(&self, _: Global) -> Result<Vec<T>, AllocError> { Ok(Vec(<[T]>::to_vec(self))) } }
pub trait UpperIn { fn to_ascii_uppercase_in(&self, a: Global) -> Result<Vec<u8>, AllocError>; }
impl UpperIn for [u8] { fn to_ascii_uppercase_in(&self, _: Global) -> Result<Vec<u8>, AllocError> { Ok(Vec(<[u8]>::to_ascii_uppercase(self))) } }
pub fn to_vec_in<T: Clone>(x: &[T]) -> Result<Vec<T>, AllocError> { Ok(Vec(<[T]>::to_vec(x))) }
#[macro_export]
macro_rules! rvec {
    ($a:expr; $x:expr; $n:expr) => { { let _ = $a; Ok::<$crate::Vec<_>, $crate::AllocError>($crate::Vec(::std::vec![$x; $n])) } };
}
#[derive(Debug, PartialEq, Eq, Hash, PartialOrd, Ord)]
pub struct Box<T: ?Sized>(pub std::boxed::Box<T>);
impl<T> Box<T> { pub fn new(_: Global, x: T) -> Result<Self, AllocFailed<T>> { Ok(Box(std::boxed::Box::new(x))) } }
impl<T: ?Sized> Deref for Box<T> { type Target = T; fn deref(&self) -> &T { &self.0 } }
impl<T: ?Sized> DerefMut for Box<T> { fn deref_mut(&mut self) -> &mut T { &mut self.0 } }
#[macro_export]
macro_rules! prove { ($($said:tt)*) => {}; }
pub mod prelude { pub use crate::{Vec, Box, rvec, prove, ToVecIn, UpperIn}; }
