//! Stands in for the crate `phf`: a fixed map from names to values. It finds
//! what a perfect hash would find, only by looking at one entry after another.

/// A fixed map.
pub struct Map<K: 'static, V: 'static> {
    #[doc(hidden)]
    pub entries: &'static [(K, V)],
}

impl<V> Map<&'static str, V> {
    /// The value of a name.
    pub fn get(&self, key: &str) -> Option<&V> {
        let found = self.entries.iter().find(|(name, _)| *name == key);
        found.map(|(_, value)| value)
    }
}

/// Writes down a fixed map.
#[macro_export]
macro_rules! phf_map {
    ($($key:literal => $value:expr),* $(,)?) => {
        $crate::Map { entries: &[$(($key, $value)),*] }
    };
}
