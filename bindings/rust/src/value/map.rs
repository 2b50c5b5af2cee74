//! Maps in the order in which their keys came.
use std::borrow::Borrow;
use std::collections::HashMap;
use std::fmt;
use std::hash::Hash;
use std::iter::FusedIterator;
use std::ops::{Index, IndexMut};
use std::{slice, vec};

/// A map that keeps its entries in the order in which their keys came, with the calls that such maps have elsewhere.
///
/// It is made for the fields of objects, which are few: a look-up compares the keys one by one. A map of many entries is
/// best filled by `collect` or `extend`, which hash the keys. Two maps are equal if they have the same entries, in any
/// order.
#[derive(Clone)]
pub struct IndexMap<K, V> {
    entries: Vec<(K, V)>,
}

impl<K, V> IndexMap<K, V> {
    /// A map without entries.
    #[must_use]
    pub const fn new() -> IndexMap<K, V> {
        IndexMap {
            entries: Vec::new(),
        }
    }

    /// A map without entries, with room for so many.
    #[must_use]
    pub fn with_capacity(capacity: usize) -> IndexMap<K, V> {
        IndexMap::of_distinct(Vec::with_capacity(capacity))
    }

    // The map of entries no two of which have the same key.
    pub(crate) const fn of_distinct(entries: Vec<(K, V)>) -> IndexMap<K, V> {
        IndexMap { entries }
    }

    /// How many entries there are.
    #[must_use]
    pub fn len(&self) -> usize {
        self.entries.len()
    }

    /// Whether there is no entry.
    #[must_use]
    pub fn is_empty(&self) -> bool {
        self.entries.is_empty()
    }

    /// The entries, in their order.
    pub fn iter(&self) -> Iter<'_, K, V> {
        Iter(self.entries.iter())
    }

    /// The entries, in their order, the values to be changed.
    pub fn iter_mut(&mut self) -> IterMut<'_, K, V> {
        IterMut(self.entries.iter_mut())
    }

    /// The keys, in their order.
    pub fn keys(&self) -> impl DoubleEndedIterator<Item = &K> + ExactSizeIterator + Clone {
        self.entries.iter().map(|(key, _)| key)
    }

    /// The values, in the order of their keys.
    pub fn values(&self) -> impl DoubleEndedIterator<Item = &V> + ExactSizeIterator + Clone {
        self.entries.iter().map(|(_, value)| value)
    }

    /// The values, in the order of their keys, to be changed.
    pub fn values_mut(&mut self) -> impl DoubleEndedIterator<Item = &mut V> + ExactSizeIterator {
        self.entries.iter_mut().map(|(_, value)| value)
    }

    /// The keys, in their order, and no longer the map.
    pub fn into_keys(self) -> impl DoubleEndedIterator<Item = K> + ExactSizeIterator {
        self.entries.into_iter().map(|(key, _)| key)
    }

    /// The values, in the order of their keys, and no longer the map.
    pub fn into_values(self) -> impl DoubleEndedIterator<Item = V> + ExactSizeIterator {
        self.entries.into_iter().map(|(_, value)| value)
    }

    /// The entry at a place in the order, counted from 0; None behind the last.
    #[must_use]
    pub fn get_index(&self, index: usize) -> Option<(&K, &V)> {
        self.entries.get(index).map(|(key, value)| (key, value))
    }

    /// The first entry; None if there is none.
    #[must_use]
    pub fn first(&self) -> Option<(&K, &V)> {
        self.get_index(0)
    }

    /// The last entry; None if there is none.
    #[must_use]
    pub fn last(&self) -> Option<(&K, &V)> {
        self.entries.last().map(|(key, value)| (key, value))
    }

    /// The place of a key in the order, counted from 0; None if the key isn't there.
    #[must_use]
    pub fn get_index_of<Q: Eq + ?Sized>(&self, key: &Q) -> Option<usize>
    where
        K: Borrow<Q>,
    {
        self.entries
            .iter()
            .position(|(other, _)| other.borrow() == key)
    }

    /// The value of a key; None if the key isn't there.
    #[must_use]
    pub fn get<Q: Eq + ?Sized>(&self, key: &Q) -> Option<&V>
    where
        K: Borrow<Q>,
    {
        let index = self.get_index_of(key)?;
        Some(&self.entries[index].1)
    }

    /// The value of a key, to be changed; None if the key isn't there.
    pub fn get_mut<Q: Eq + ?Sized>(&mut self, key: &Q) -> Option<&mut V>
    where
        K: Borrow<Q>,
    {
        let index = self.get_index_of(key)?;
        Some(&mut self.entries[index].1)
    }

    /// Whether a key is there.
    #[must_use]
    pub fn contains_key<Q: Eq + ?Sized>(&self, key: &Q) -> bool
    where
        K: Borrow<Q>,
    {
        self.get_index_of(key).is_some()
    }

    /// Takes an entry out, and moves those behind it one place up: its value, or None if the key isn't there.
    pub fn shift_remove<Q: Eq + ?Sized>(&mut self, key: &Q) -> Option<V>
    where
        K: Borrow<Q>,
    {
        let index = self.get_index_of(key)?;
        Some(self.entries.remove(index).1)
    }

    /// Takes an entry out, and puts the last one in its place: its value, or None if the key isn't there.
    pub fn swap_remove<Q: Eq + ?Sized>(&mut self, key: &Q) -> Option<V>
    where
        K: Borrow<Q>,
    {
        let index = self.get_index_of(key)?;
        Some(self.entries.swap_remove(index).1)
    }

    /// Takes all entries out.
    pub fn clear(&mut self) {
        self.entries.clear();
    }
}

impl<K: Eq, V> IndexMap<K, V> {
    /// Sets the value of a key. A key that is there keeps its place, and its former value is returned.
    pub fn insert(&mut self, key: K, value: V) -> Option<V> {
        match self.get_mut(&key) {
            Some(former) => Some(std::mem::replace(former, value)),
            None => {
                self.entries.push((key, value));
                None
            }
        }
    }
}

impl<K, V> Default for IndexMap<K, V> {
    fn default() -> IndexMap<K, V> {
        IndexMap::new()
    }
}

impl<K: Eq, V: PartialEq> PartialEq for IndexMap<K, V> {
    fn eq(&self, other: &IndexMap<K, V>) -> bool {
        self.len() == other.len()
            && (self.entries == other.entries
                || self
                    .iter()
                    .all(|(key, value)| other.get(key) == Some(value)))
    }
}

impl<K: Eq, V: Eq> Eq for IndexMap<K, V> {}

impl<K: fmt::Debug, V: fmt::Debug> fmt::Debug for IndexMap<K, V> {
    fn fmt(&self, f: &mut fmt::Formatter<'_>) -> fmt::Result {
        f.debug_map().entries(self).finish()
    }
}

impl<K: Hash + Eq, V> Extend<(K, V)> for IndexMap<K, V> {
    fn extend<I: IntoIterator<Item = (K, V)>>(&mut self, entries: I) {
        let mut all = std::mem::take(&mut self.entries);
        all.extend(entries);
        let mut firsts = HashMap::with_capacity(all.len());
        // The place in the map of each entry's key.
        let places: Vec<usize> = all
            .iter()
            .map(|(key, _)| {
                let next = firsts.len();
                *firsts.entry(key).or_insert(next)
            })
            .collect();
        self.entries.reserve(firsts.len());
        for ((key, value), place) in all.into_iter().zip(places) {
            match self.entries.get_mut(place) {
                Some(entry) => entry.1 = value,
                None => self.entries.push((key, value)),
            }
        }
    }
}

impl<K: Hash + Eq, V> FromIterator<(K, V)> for IndexMap<K, V> {
    fn from_iter<I: IntoIterator<Item = (K, V)>>(entries: I) -> IndexMap<K, V> {
        let mut map = IndexMap::new();
        map.extend(entries);
        map
    }
}

impl<K: Hash + Eq, V, const N: usize> From<[(K, V); N]> for IndexMap<K, V> {
    fn from(entries: [(K, V); N]) -> IndexMap<K, V> {
        entries.into_iter().collect()
    }
}

/// The value of a key that is there; it panics if the key isn't.
impl<K: Borrow<Q>, V, Q: Eq + ?Sized> Index<&Q> for IndexMap<K, V> {
    type Output = V;

    fn index(&self, key: &Q) -> &V {
        self.get(key).expect("no entry of this key")
    }
}

/// The value of a key that is there; it panics if the key isn't.
impl<K: Borrow<Q>, V, Q: Eq + ?Sized> IndexMut<&Q> for IndexMap<K, V> {
    fn index_mut(&mut self, key: &Q) -> &mut V {
        self.get_mut(key).expect("no entry of this key")
    }
}

/// Declares an iterator over the entries of a map, from one over a list of pairs.
macro_rules! iterator {
    ($(#[$meta:meta])* $name:ident<$($lifetime:lifetime,)? K, V>($inner:ty), $item:ty, $pair:pat => $shown:expr) => {
        $(#[$meta])*
        pub struct $name<$($lifetime,)? K, V>($inner);

        impl<$($lifetime,)? K, V> Iterator for $name<$($lifetime,)? K, V> {
            type Item = $item;

            fn next(&mut self) -> Option<$item> {
                self.0.next().map(|$pair| $shown)
            }

            fn size_hint(&self) -> (usize, Option<usize>) {
                self.0.size_hint()
            }
        }

        impl<$($lifetime,)? K, V> DoubleEndedIterator for $name<$($lifetime,)? K, V> {
            fn next_back(&mut self) -> Option<$item> {
                self.0.next_back().map(|$pair| $shown)
            }
        }

        impl<$($lifetime,)? K, V> ExactSizeIterator for $name<$($lifetime,)? K, V> {}

        impl<$($lifetime,)? K, V> FusedIterator for $name<$($lifetime,)? K, V> {}
    };
}

iterator! {
    /// The entries of a map, in their order.
    #[derive(Debug)]
    Iter<'a, K, V>(slice::Iter<'a, (K, V)>), (&'a K, &'a V), (key, value) => (key, value)
}

iterator! {
    /// The entries of a map, in their order, the values to be changed.
    #[derive(Debug)]
    IterMut<'a, K, V>(slice::IterMut<'a, (K, V)>), (&'a K, &'a mut V), (key, value) => (&*key, value)
}

iterator! {
    /// The entries of a map, in their order, and no longer the map.
    #[derive(Debug)]
    IntoIter<K, V>(vec::IntoIter<(K, V)>), (K, V), entry => entry
}

impl<K, V> Clone for Iter<'_, K, V> {
    fn clone(&self) -> Self {
        Iter(self.0.clone())
    }
}

impl<'a, K, V> IntoIterator for &'a IndexMap<K, V> {
    type Item = (&'a K, &'a V);
    type IntoIter = Iter<'a, K, V>;

    fn into_iter(self) -> Iter<'a, K, V> {
        self.iter()
    }
}

impl<'a, K, V> IntoIterator for &'a mut IndexMap<K, V> {
    type Item = (&'a K, &'a mut V);
    type IntoIter = IterMut<'a, K, V>;

    fn into_iter(self) -> IterMut<'a, K, V> {
        self.iter_mut()
    }
}

impl<K, V> IntoIterator for IndexMap<K, V> {
    type Item = (K, V);
    type IntoIter = IntoIter<K, V>;

    fn into_iter(self) -> IntoIter<K, V> {
        IntoIter(self.entries.into_iter())
    }
}

#[cfg(test)]
mod tests {
    use super::IndexMap;

    fn pairs(map: &IndexMap<&'static str, u8>) -> Vec<(&'static str, u8)> {
        map.iter().map(|(key, value)| (*key, *value)).collect()
    }

    #[test]
    fn a_key_that_comes_again_keeps_its_place_and_has_the_last_value() {
        let entries = [("b", 1), ("a", 2), ("b", 3), ("c", 4), ("a", 5)];
        let mut inserted = IndexMap::new();
        for (key, value) in entries {
            inserted.insert(key, value);
        }
        assert_eq!(pairs(&inserted), [("b", 3), ("a", 5), ("c", 4)]);
        assert_eq!(pairs(&IndexMap::from(entries)), pairs(&inserted));
        let mut extended = IndexMap::from([("c", 0), ("d", 0)]);
        extended.extend(entries);
        assert_eq!(pairs(&extended), [("c", 4), ("d", 0), ("b", 3), ("a", 5)]);
    }

    #[test]
    fn an_entry_is_found_by_its_key_and_by_its_place() {
        let mut map = IndexMap::from([("a", 1), ("b", 2), ("c", 3)]);
        assert_eq!((map.get("b"), map.get("d")), (Some(&2), None));
        assert_eq!(map.get_index(2), Some((&"c", &3)));
        assert_eq!(
            (map.first(), map.last()),
            (map.get_index(0), map.get_index(2))
        );
        assert_eq!(map.get_index_of("c"), Some(2));
        map["a"] += 10;
        assert_eq!(map["a"], 11);
        assert_eq!(map.clone().swap_remove("a"), Some(11));
        assert_eq!(map.shift_remove("a"), Some(11));
        assert_eq!(pairs(&map), [("b", 2), ("c", 3)]);
        assert!(map.contains_key("b") && !map.contains_key("a"));
        assert!(map.into_iter().rev().eq([("c", 3), ("b", 2)]));
    }

    #[test]
    fn maps_are_equal_whatever_the_order() {
        let map = IndexMap::from([("a", 1), ("b", 2)]);
        assert_eq!(map, IndexMap::from([("b", 2), ("a", 1)]));
        assert_ne!(map, IndexMap::from([("a", 1), ("b", 3)]));
        assert_ne!(map, IndexMap::from([("a", 1), ("c", 2)]));
        assert_ne!(map, IndexMap::from([("a", 1)]));
    }
}
