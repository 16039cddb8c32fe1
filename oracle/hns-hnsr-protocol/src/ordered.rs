//! A map with the part of `HashMap`'s interface that circuit.rs uses, walked by ascending key.
//!
//! `HnsrActionId` is not `Ord`, so the order is that of the bytes which `Hash` feeds to a
//! recording hasher: numbers are recorded with the highest byte first, byte arrays as they are
//! (after their length, equal for all keys of one map). So `[u8; N]` goes by first byte first.
use std::collections::BTreeMap;
use std::hash::{Hash, Hasher};
use std::marker::PhantomData;

#[derive(Default)]
struct Recorder(Vec<u8>);

impl Hasher for Recorder {
    fn finish(&self) -> u64 {
        unreachable!("recording only")
    }
    fn write(&mut self, bytes: &[u8]) {
        self.0.extend_from_slice(bytes);
    }
    fn write_u64(&mut self, value: u64) {
        self.0.extend_from_slice(&value.to_be_bytes());
    }
    fn write_usize(&mut self, value: usize) {
        self.0.extend_from_slice(&(value as u64).to_be_bytes());
    }
}

fn order<K: Hash>(key: &K) -> Vec<u8> {
    let mut recorder = Recorder::default();
    key.hash(&mut recorder);
    recorder.0
}

#[derive(Clone, Debug)]
pub struct HashMap<K, V> {
    entries: BTreeMap<Vec<u8>, (K, V)>,
}

impl<K: Hash, V> HashMap<K, V> {
    #[allow(clippy::new_without_default)]
    pub fn new() -> Self {
        Self { entries: BTreeMap::new() }
    }
    pub fn len(&self) -> usize {
        self.entries.len()
    }
    pub fn is_empty(&self) -> bool {
        self.entries.is_empty()
    }
    pub fn clear(&mut self) {
        self.entries.clear();
    }
    pub fn contains_key(&self, key: &K) -> bool {
        self.entries.contains_key(&order(key))
    }
    pub fn get(&self, key: &K) -> Option<&V> {
        self.entries.get(&order(key)).map(|(_, value)| value)
    }
    pub fn get_mut(&mut self, key: &K) -> Option<&mut V> {
        self.entries.get_mut(&order(key)).map(|(_, value)| value)
    }
    pub fn insert(&mut self, key: K, value: V) -> Option<V> {
        self.entries.insert(order(&key), (key, value)).map(|(_, value)| value)
    }
    pub fn remove(&mut self, key: &K) -> Option<V> {
        self.entries.remove(&order(key)).map(|(_, value)| value)
    }
    pub fn retain(&mut self, mut keep: impl FnMut(&K, &mut V) -> bool) {
        self.entries.retain(|_, (key, value)| keep(key, value));
    }
    pub fn iter(&self) -> impl Iterator<Item = (&K, &V)> {
        self.into_iter()
    }
    pub fn values(&self) -> impl Iterator<Item = &V> {
        self.entries.values().map(|(_, value)| value)
    }
    pub fn drain(&mut self) -> impl Iterator<Item = (K, V)> {
        std::mem::take(&mut self.entries).into_values()
    }
    pub fn entry(&mut self, key: K) -> Entry<'_, K, V> {
        Entry { map: self, key }
    }
}

pub struct Entry<'map, K, V> {
    map: &'map mut HashMap<K, V>,
    key: K,
}

impl<'map, K: Hash, V> Entry<'map, K, V> {
    pub fn or_insert(self, value: V) -> &'map mut V {
        let Self { map, key } = self;
        &mut map.entries.entry(order(&key)).or_insert((key, value)).1
    }
}

pub struct Iter<'map, K, V> {
    inner: std::collections::btree_map::Values<'map, Vec<u8>, (K, V)>,
    marker: PhantomData<K>,
}

impl<'map, K, V> Iterator for Iter<'map, K, V> {
    type Item = (&'map K, &'map V);
    fn next(&mut self) -> Option<Self::Item> {
        self.inner.next().map(|(key, value)| (key, value))
    }
}

impl<'map, K, V> IntoIterator for &'map HashMap<K, V> {
    type Item = (&'map K, &'map V);
    type IntoIter = Iter<'map, K, V>;
    fn into_iter(self) -> Self::IntoIter {
        Iter { inner: self.entries.values(), marker: PhantomData }
    }
}

#[cfg(test)]
mod tests {
    use super::HashMap;

    #[test]
    fn ascending_first_byte_first() {
        let mut map = HashMap::new();
        for key in [[2_u8, 0, 1], [1, 9, 0], [0, 0, 255], [1, 0, 7]] {
            map.insert(key, ());
        }
        let keys: Vec<_> = map.iter().map(|(key, _)| *key).collect();
        assert_eq!(keys, [[0, 0, 255], [1, 0, 7], [1, 9, 0], [2, 0, 1]]);
    }

    #[test]
    fn numbers_by_size() {
        let mut map = HashMap::new();
        for key in [(1_u64, 256_u64), (1, 1), (2, 0), (1, 255)] {
            map.insert(key, ());
        }
        let keys: Vec<_> = map.drain().map(|(key, ())| key).collect();
        assert_eq!(keys, [(1, 1), (1, 255), (1, 256), (2, 0)]);
    }
}
