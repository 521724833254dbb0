//! Stands in for the crate `indexmap`: a map that keeps the order of first insertion.

use std::borrow::Borrow;
use std::hash::{BuildHasher, Hash};

/// Entries in the order in which their keys came, and an open table of their places.
#[derive(Clone, Debug)]
pub struct IndexMap<K, V, S> {
    entries: Vec<Entry<K, V>>,
    /// One more than an entry's place, or 0; its length is 0 or a power of two.
    table: Vec<usize>,
    hasher: S,
}

#[derive(Clone, Debug)]
struct Entry<K, V> {
    hash: u64,
    key: K,
    value: V,
}

impl<K, V, S: Default> Default for IndexMap<K, V, S> {
    fn default() -> Self {
        IndexMap {
            entries: Vec::new(),
            table: Vec::new(),
            hasher: S::default(),
        }
    }
}

impl<K, V, S> IndexMap<K, V, S> {
    pub fn iter(&self) -> impl Iterator<Item = (&K, &V)> {
        self.entries.iter().map(|entry| (&entry.key, &entry.value))
    }
}

impl<K: Hash + Eq, V, S: BuildHasher> IndexMap<K, V, S> {
    pub fn contains_key<Q>(&self, key: &Q) -> bool
    where
        K: Borrow<Q>,
        Q: Hash + Eq + ?Sized,
    {
        self.place(self.hasher.hash_one(key), key).is_some()
    }

    /// A key that is there keeps its place and gets the new value; the old one comes back.
    pub fn insert(&mut self, key: K, value: V) -> Option<V> {
        let hash = self.hasher.hash_one(&key);
        if let Some(place) = self.place(hash, &key) {
            return Some(std::mem::replace(&mut self.entries[place].value, value));
        }
        self.entries.push(Entry { hash, key, value });
        if self.entries.len() * 4 > self.table.len() * 3 {
            self.grow();
        } else {
            take_slot(&mut self.table, hash, self.entries.len());
        }
        None
    }

    fn place<Q>(&self, hash: u64, key: &Q) -> Option<usize>
    where
        K: Borrow<Q>,
        Q: Eq + ?Sized,
    {
        if self.table.is_empty() {
            return None;
        }
        let mask = self.table.len() - 1;
        let mut slot = hash as usize & mask;
        while self.table[slot] != 0 {
            let place = self.table[slot] - 1;
            let entry = &self.entries[place];
            if entry.hash == hash && entry.key.borrow() == key {
                return Some(place);
            }
            slot = (slot + 1) & mask;
        }
        None
    }

    fn grow(&mut self) {
        let mut table = vec![0; (self.table.len() * 2).max(4)];
        for (place, entry) in self.entries.iter().enumerate() {
            take_slot(&mut table, entry.hash, place + 1);
        }
        self.table = table;
    }
}

/// Puts a mark into the first free slot from the hash on; the table is never full.
fn take_slot(table: &mut [usize], hash: u64, mark: usize) {
    let mask = table.len() - 1;
    let mut slot = hash as usize & mask;
    while table[slot] != 0 {
        slot = (slot + 1) & mask;
    }
    table[slot] = mark;
}

#[cfg(test)]
mod tests {
    use super::IndexMap;
    use std::collections::hash_map::RandomState;

    type Map = IndexMap<Vec<usize>, usize, RandomState>;

    #[test]
    fn keeps_the_order_of_first_insertion() {
        let mut map = Map::default();
        for i in 0..1000 {
            assert_eq!(map.insert(vec![i, 1000 - i], i), None);
        }
        assert_eq!(map.insert(vec![7, 993], 70), Some(7));
        let values: Vec<usize> = map.iter().map(|(_, v)| *v).collect();
        assert_eq!(values.len(), 1000);
        assert_eq!((values[6], values[7], values[8]), (6, 70, 8));
    }

    #[test]
    fn finds_by_a_slice() {
        let mut map = Map::default();
        assert!(!map.contains_key(&[1, 2][..]));
        map.insert(vec![1, 2], 0);
        assert!(map.contains_key(&[1, 2][..]));
        assert!(!map.contains_key(&[2, 1][..]));
    }
}
