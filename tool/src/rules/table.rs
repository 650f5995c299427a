// SPDX-License-Identifier: Apache-2.0 OR MIT
//! Values by their keys, which copies of a space share until one of them changes a value.
use serde::de::Deserializer;
use serde::ser::Serializer;
use serde::{Deserialize, Serialize};
use std::rc::Rc;

/// Sorted by key. A copy takes a count for each value, and no value is copied before it is changed.
#[derive(Clone, Debug, PartialEq, Eq)]
pub struct Table<K, V>(Vec<(K, Rc<V>)>);

impl<K, V> Default for Table<K, V> {
    fn default() -> Table<K, V> {
        Table(Vec::new())
    }
}

impl<K: Serialize, V: Serialize> Serialize for Table<K, V> {
    fn serialize<S: Serializer>(&self, to: S) -> Result<S::Ok, S::Error> {
        to.collect_seq(self.0.iter().map(|(key, value)| (key, &**value)))
    }
}

impl<'de, K: Deserialize<'de> + Ord + Copy, V: Deserialize<'de>> Deserialize<'de> for Table<K, V> {
    /// What isn't sorted, as no table is, is sorted.
    fn deserialize<D: Deserializer<'de>>(from: D) -> Result<Table<K, V>, D::Error> {
        let values = Vec::<(K, V)>::deserialize(from)?;
        let mut values: Vec<(K, Rc<V>)> = values.into_iter().map(|(key, value)| (key, Rc::new(value))).collect();
        values.sort_by_key(|it| it.0);
        values.dedup_by_key(|it| it.0);
        Ok(Table(values))
    }
}

impl<K: Ord + Copy, V: Clone> Table<K, V> {
    fn place(&self, key: K) -> Result<usize, usize> {
        self.0.binary_search_by(|(it, _)| it.cmp(&key))
    }

    pub fn get(&self, key: K) -> Option<&V> {
        self.place(key).ok().map(|at| &*self.0[at].1)
    }

    pub fn get_mut(&mut self, key: K) -> Option<&mut V> {
        self.place(key).ok().map(|at| Rc::make_mut(&mut self.0[at].1))
    }

    pub fn has(&self, key: K) -> bool {
        self.place(key).is_ok()
    }

    pub fn insert(&mut self, key: K, value: V) {
        match self.place(key) {
            Ok(at) => self.0[at].1 = Rc::new(value),
            Err(at) => self.0.insert(at, (key, Rc::new(value))),
        }
    }

    pub fn remove(&mut self, key: K) -> Option<Rc<V>> {
        self.place(key).ok().map(|at| self.0.remove(at).1)
    }

    pub fn iter(&self) -> impl DoubleEndedIterator<Item = (K, &V)> {
        self.0.iter().map(|(key, value)| (*key, &**value))
    }

    /// Those from a key on.
    pub fn from(&self, key: K) -> impl Iterator<Item = (K, &V)> {
        let at = self.place(key).unwrap_or_else(|at| at);
        self.0[at..].iter().map(|(key, value)| (*key, &**value))
    }

    pub fn len(&self) -> usize {
        self.0.len()
    }

    pub fn keys(&self) -> impl DoubleEndedIterator<Item = K> + '_ {
        self.0.iter().map(|(key, _)| *key)
    }
}

#[cfg(test)]
mod tests {
    use super::*;

    #[test]
    fn a_copy_keeps_what_the_other_changes() {
        let mut one = Table::default();
        one.insert(2, "two".to_string());
        one.insert(1, "one".to_string());
        let other = one.clone();
        one.get_mut(2).unwrap().push('!');
        assert_eq!((one.get(2).unwrap().as_str(), other.get(2).unwrap().as_str()), ("two!", "two"));
        assert_eq!(one.keys().collect::<Vec<_>>(), [1, 2]);
        assert!(one.remove(1).is_some() && !one.has(1) && other.has(1));
    }
}
