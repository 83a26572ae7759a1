use std::time::Duration;

pub struct TtlCache<K, V> {
    entries: Vec<(K, V)>,
    capacity: usize,
}

impl<K: Eq, V> TtlCache<K, V> {
    pub fn new(capacity: usize) -> Self {
        Self { entries: Vec::new(), capacity }
    }

    pub fn insert(&mut self, key: K, value: V, _lifetime: Duration) -> Option<V> {
        let old =
            self.entries.iter().position(|(k, _)| *k == key).map(|i| self.entries.remove(i).1);
        self.entries.push((key, value));
        if self.entries.len() > self.capacity {
            self.entries.remove(0);
        }
        old
    }

    pub fn get(&self, key: &K) -> Option<&V> {
        self.entries.iter().find(|(k, _)| k == key).map(|(_, value)| value)
    }
}
