//! A cache that forgets nothing.
use kit::alloc::*;
pub struct LruCache<K, V>(std::vec::Vec<(K, V)>);
impl<K: Eq, V> LruCache<K, V> {
    pub fn new(_: Global, n: std::num::NonZeroUsize) -> Result<Self, AllocError> {
        Ok(LruCache(std::vec::Vec::new()))
    }
    pub fn peek(&self, k: &K) -> Option<&V> {
        self.0.iter().find(|e| e.0 == *k).map(|e| &e.1)
    }
    pub fn get_mut(&mut self, k: &K) -> Option<&mut V> {
        self.0.iter_mut().find(|e| e.0 == *k).map(|e| &mut e.1)
    }
    pub fn peek_mru(&self) -> Option<(&K, &V)> {
        self.0.last().map(|e| (&e.0, &e.1))
    }
    pub fn promote(&mut self, k: &K) {}
    pub fn put(&mut self, k: K, v: V) -> Result<Option<V>, AllocError> {
        self.0.push((k, v));
        Ok(None)
    }
}
