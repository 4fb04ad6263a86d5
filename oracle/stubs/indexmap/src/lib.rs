//! Stands in for the crate `indexmap`: a map that keeps the order of insertion,
//! with the functions that the published files call. A plain list is enough,
//! since the oracle's transactions hold a dozen keys at most.

use std::borrow::Borrow;

/// Keys and values, in the order in which the keys came.
#[derive(Debug, Clone)]
pub struct IndexMap<K, V> {
    entries: Vec<(K, V)>,
}

impl<K, V> Default for IndexMap<K, V> {
    fn default() -> Self {
        Self {
            entries: Vec::new(),
        }
    }
}

impl<K: Eq, V> IndexMap<K, V> {
    fn position<Q: Eq + ?Sized>(&self, key: &Q) -> Option<usize>
    where
        K: Borrow<Q>,
    {
        self.entries.iter().position(|(k, _)| k.borrow() == key)
    }

    /// The value of a key.
    pub fn get<Q: Eq + ?Sized>(&self, key: &Q) -> Option<&V>
    where
        K: Borrow<Q>,
    {
        self.position(key).map(|at| &self.entries[at].1)
    }

    /// Sets a key's value. A key that is there already keeps its place.
    pub fn insert(&mut self, key: K, value: V) -> Option<V> {
        match self.position(&key) {
            Some(at) => Some(std::mem::replace(&mut self.entries[at].1, value)),
            None => {
                self.entries.push((key, value));
                None
            }
        }
    }

    /// Takes a key out. The keys behind it move up, so the order stays.
    pub fn shift_remove<Q: Eq + ?Sized>(&mut self, key: &Q) -> Option<V>
    where
        K: Borrow<Q>,
    {
        self.position(key).map(|at| self.entries.remove(at).1)
    }

    /// The place of a key, to be filled with [`Entry::or_default`].
    pub fn entry(&mut self, key: K) -> Entry<'_, K, V> {
        Entry { map: self, key }
    }

    /// Takes everything out.
    pub fn clear(&mut self) {
        self.entries.clear();
    }

    /// All keys and values, in order.
    pub fn iter(&self) -> impl Iterator<Item = (&K, &V)> {
        self.entries.iter().map(|(k, v)| (k, v))
    }

    /// All values, in order.
    pub fn values(&self) -> impl Iterator<Item = &V> {
        self.entries.iter().map(|(_, v)| v)
    }
}

/// The place of one key.
pub struct Entry<'a, K, V> {
    map: &'a mut IndexMap<K, V>,
    key: K,
}

impl<'a, K: Eq, V: Default> Entry<'a, K, V> {
    /// The key's value; a new key gets the default first.
    pub fn or_default(self) -> &'a mut V {
        let at = match self.map.position(&self.key) {
            Some(at) => at,
            None => {
                self.map.entries.push((self.key, V::default()));
                self.map.entries.len() - 1
            }
        };
        &mut self.map.entries[at].1
    }
}
