//! A map, whose order nobody asks for.
use kit::alloc::*;
#[derive(Clone, Debug)]
pub struct IndexMap<K, V>(std::collections::HashMap<K, V>);
impl<K: Eq + std::hash::Hash, V> IndexMap<K, V> {
    pub fn with_capacity(_: Global, n: usize) -> Result<Self, AllocError> {
        Ok(IndexMap(std::collections::HashMap::with_capacity(n)))
    }
    pub fn get(&self, k: &K) -> Option<&V> {
        self.0.get(k)
    }
    pub fn insert(&mut self, k: K, v: V) -> Result<Option<V>, AllocError> {
        Ok(self.0.insert(k, v))
    }
}
