//! `String` and `Vec`, with the methods that erased code may call.
use crate::alloc::{AllocError, AllocFailed, Global};
use core::cmp::Ordering;
use core::marker::PhantomData;
use core::ops::{Deref, DerefMut};

pub struct Vec<T>(PhantomData<T>);
#[derive(Debug)]
pub struct IntoIter<T>(PhantomData<T>);
#[derive(PartialEq, Eq)]
pub struct String(());

impl<T> Deref for Vec<T> { type Target = [T]; fn deref(&self) -> &[T] { loop {} } }
impl<T> DerefMut for Vec<T> { fn deref_mut(&mut self) -> &mut [T] { loop {} } }
impl Deref for String { type Target = str; fn deref(&self) -> &str { loop {} } }
impl AsRef<str> for String { fn as_ref(&self) -> &str { loop {} } }
impl core::fmt::Display for String { fn fmt(&self, _: &mut core::fmt::Formatter<'_>) -> core::fmt::Result { loop {} } }
impl core::fmt::Debug for String { fn fmt(&self, _: &mut core::fmt::Formatter<'_>) -> core::fmt::Result { loop {} } }
impl<T> core::fmt::Debug for Vec<T> { fn fmt(&self, _: &mut core::fmt::Formatter<'_>) -> core::fmt::Result { loop {} } }
impl<T: PartialEq> PartialEq for Vec<T> { fn eq(&self, _: &Vec<T>) -> bool { loop {} } }
impl<T: Eq> Eq for Vec<T> {}
impl<T> Iterator for IntoIter<T> { type Item = T; fn next(&mut self) -> Option<T> { loop {} } }
impl<T> IntoIterator for Vec<T> { type Item = T; type IntoIter = IntoIter<T>; fn into_iter(self) -> IntoIter<T> { loop {} } }
impl<'a, T> IntoIterator for &'a Vec<T> { type Item = &'a T; type IntoIter = core::slice::Iter<'a, T>; fn into_iter(self) -> core::slice::Iter<'a, T> { loop {} } }
impl<'a, T> IntoIterator for &'a mut Vec<T> { type Item = &'a mut T; type IntoIter = core::slice::IterMut<'a, T>; fn into_iter(self) -> core::slice::IterMut<'a, T> { loop {} } }

impl String {
    pub fn empty(_: Global) -> String { loop {} }
    pub fn of_capacity(_: Global, _: usize) -> Result<String, AllocError> { loop {} }
    pub fn copy_of(_: Global, _: &str) -> Result<String, AllocError> { loop {} }
    pub fn try_grow(&mut self, _: usize) -> Result<(), AllocError> { loop {} }
    pub fn try_push_str(&mut self, _: &str) -> Result<(), AllocError> { loop {} }
    pub fn try_push(&mut self, _: char) -> Result<(), AllocError> { loop {} }
    pub fn try_shrink(&mut self) { loop {} }
    pub fn try_clone(&self) -> Result<String, AllocError> { loop {} }
    pub fn as_str(&self) -> &str { loop {} }
}
impl<T> Vec<T> {
    pub fn empty(_: Global) -> Vec<T> { loop {} }
    pub fn of_capacity(_: Global, _: usize) -> Result<Vec<T>, AllocError> { loop {} }
    pub fn try_grow(&mut self, _: usize) -> Result<(), AllocError> { loop {} }
    pub fn try_push(&mut self, _: T) -> Result<(), AllocFailed<T>> { loop {} }
    pub fn push_reserved(&mut self, _: T) { loop {} }
    pub fn as_slice(&self) -> &[T] { loop {} }
    pub fn truncate(&mut self, _: usize) { loop {} }
    pub fn dedup_by(&mut self, _: impl FnMut(&mut T, &mut T) -> bool) { loop {} }
}
/// Items that own nothing can be copied.
impl<T: Copy> Vec<T> {
    pub fn filled(_: Global, _: T, _: usize) -> Result<Vec<T>, AllocError> { loop {} }
    pub fn try_extend_from_slice(&mut self, _: &[T]) -> Result<(), AllocError> { loop {} }
    pub fn try_shrink(&mut self) { loop {} }
    pub fn try_clone(&self) -> Result<Vec<T>, AllocError> { loop {} }
    pub fn try_sort_by(&mut self, _: impl FnMut(&T, &T) -> Ordering) -> Result<(), AllocError> { loop {} }
}
pub trait TryClone: Sized { fn try_clone(&self) -> Result<Self, AllocError>; }
impl TryClone for Vec<String> { fn try_clone(&self) -> Result<Self, AllocError> { loop {} } }
