use rstd::{Global, Vec, AllocError};
use std::collections::HashMap; use std::hash::Hash; use std::borrow::Borrow;
#[derive(Debug)]
pub struct IndexSet<K> { keys: Vec<K>, at: HashMap<u64, std::vec::Vec<usize>> }
fn h<Q: Hash + ?Sized>(q: &Q) -> u64 { use std::hash::Hasher; let mut s = std::collections::hash_map::DefaultHasher::new(); q.hash(&mut s); s.finish() }
impl<K: Hash + Eq> IndexSet<K> {
    pub fn new(a: Global) -> Self { IndexSet { keys: Vec::new(a), at: HashMap::new() } }
    pub fn len(&self) -> usize { self.keys.len() }
    pub fn get_index_of<Q: Hash + Eq + ?Sized>(&self, q: &Q) -> Option<usize> where K: Borrow<Q> { self.at.get(&h(q))?.iter().cloned().find(|&i| self.keys[i].borrow() == q) }
    pub fn contains<Q: Hash + Eq + ?Sized>(&self, q: &Q) -> bool where K: Borrow<Q> { self.get_index_of(q).is_some() }
    pub fn as_slice(&self) -> &[K] { &self.keys }
    pub fn get_index(&self, i: usize) -> Option<&K> { self.keys.get(i) }
    pub fn insert_full(&mut self, k: K) -> Result<(usize, bool), AllocError> { if let Some(i) = self.get_index_of(&k) { return Ok((i, false)); } let x = h(&k); let n = self.keys.len(); self.at.entry(x).or_default().push(n); self.keys.0.push(k); Ok((n, true)) }
    pub fn insert(&mut self, k: K) -> Result<bool, AllocError> { Ok(self.insert_full(k)?.1) }
}
#[derive(Debug)]
pub struct IndexMap<K, V> { set: IndexSet<K>, vals: std::vec::Vec<V> }
impl<K: Hash + Eq, V> IndexMap<K, V> {
    pub fn new(a: Global) -> Self { IndexMap { set: IndexSet::new(a), vals: vec![] } }
    pub fn len(&self) -> usize { self.vals.len() }
    pub fn get<Q: Hash + Eq + ?Sized>(&self, q: &Q) -> Option<&V> where K: Borrow<Q> { self.set.get_index_of(q).map(|i| &self.vals[i]) }
    pub fn get_index(&self, i: usize) -> Option<(&K, &V)> { if i < self.vals.len() { Some((&self.set.as_slice()[i], &self.vals[i])) } else { None } }
    pub fn get_full<Q: Hash + Eq + ?Sized>(&self, q: &Q) -> Option<(usize, &K, &V)> where K: Borrow<Q> { self.set.get_index_of(q).map(|i| (i, &self.set.as_slice()[i], &self.vals[i])) }
    pub fn contains_key<Q: Hash + Eq + ?Sized>(&self, q: &Q) -> bool where K: Borrow<Q> { self.set.contains(q) }
    pub fn insert(&mut self, k: K, v: V) -> Result<Option<V>, AllocError> { let (i, new) = self.set.insert_full(k)?; if new { self.vals.push(v); Ok(None) } else { Ok(Some(std::mem::replace(&mut self.vals[i], v))) } }
}
