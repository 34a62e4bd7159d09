//! The kit's allocator and growing list, as far as the crates use them. Memory never runs out.
pub mod alloc {
    #[derive(Clone, Copy, Debug, Default, PartialEq, Eq)]
    pub struct Global;
    #[derive(Clone, Copy, Debug, PartialEq, Eq)]
    pub struct AllocError;
    #[derive(Debug)]
    pub struct AllocFailed<T>(pub T);
    impl<T> From<AllocFailed<T>> for AllocError {
        fn from(_: AllocFailed<T>) -> AllocError {
            AllocError
        }
    }
}
use alloc::*;
#[derive(Clone, Debug, PartialEq, Eq)]
pub struct Vec<T>(pub std::vec::Vec<T>);
impl<T> std::ops::Deref for Vec<T> {
    type Target = std::vec::Vec<T>;
    #[inline]
    fn deref(&self) -> &std::vec::Vec<T> {
        &self.0
    }
}
impl<T> std::ops::DerefMut for Vec<T> {
    #[inline]
    fn deref_mut(&mut self) -> &mut std::vec::Vec<T> {
        &mut self.0
    }
}
impl<T> Vec<T> {
    pub fn new(_: Global) -> Vec<T> {
        Vec(std::vec::Vec::new())
    }
    #[inline]
    pub fn push(&mut self, x: T) -> Result<(), AllocFailed<T>> {
        self.0.push(x);
        Ok(())
    }
    #[inline]
    pub fn extend_from_slice(&mut self, more: &[T]) -> Result<(), AllocError>
    where
        T: Clone,
    {
        self.0.extend_from_slice(more);
        Ok(())
    }
    #[inline]
    pub fn with_capacity(_: Global, n: usize) -> Result<Vec<T>, AllocError> {
        Ok(Vec(std::vec::Vec::with_capacity(n)))
    }
    pub fn insert(&mut self, n: usize, x: T) -> Result<(), AllocError> {
        self.0.insert(n, x);
        Ok(())
    }
    #[inline]
    pub fn push_reserved(&mut self, x: T) {
        self.0.push(x)
    }
    #[inline]
    pub fn allocator(&self) -> &Global {
        &Global
    }
    #[inline]
    pub fn as_slice(&self) -> &[T] {
        &self.0
    }
    pub fn reserve(&mut self, n: usize) -> Result<(), AllocError> {
        self.0.reserve(n);
        Ok(())
    }
    pub fn resize(&mut self, n: usize, x: T) -> Result<(), AllocError>
    where
        T: Clone,
    {
        self.0.resize(n, x);
        Ok(())
    }
}
impl<T> Default for Vec<T> {
    fn default() -> Vec<T> {
        Vec(std::vec::Vec::new())
    }
}
impl<'a, T> IntoIterator for &'a Vec<T> {
    type Item = &'a T;
    type IntoIter = std::slice::Iter<'a, T>;
    fn into_iter(self) -> std::slice::Iter<'a, T> {
        self.0.iter()
    }
}
impl<T> IntoIterator for Vec<T> {
    type Item = T;
    type IntoIter = std::vec::IntoIter<T>;
    fn into_iter(self) -> std::vec::IntoIter<T> {
        self.0.into_iter()
    }
}
