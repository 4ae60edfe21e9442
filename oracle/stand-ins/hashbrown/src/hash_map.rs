use std::{fmt, marker::PhantomData};

/// Slots of the first table; a map that holds nothing has none.
const FIRST_SLOTS: usize = 8;

/// Marks an empty slot; no map comes near this many entries.
const EMPTY: u32 = u32::MAX;

struct Entry<K, V> {
    hash: u64,
    key: K,
    value: V,
}

pub struct HashMap<K, V, S> {
    entries: Vec<Entry<K, V>>,
    slots: Vec<u32>,
    hasher: PhantomData<S>,
}

impl<K, V, S> Default for HashMap<K, V, S> {
    fn default() -> Self {
        HashMap {
            entries: Vec::new(),
            slots: Vec::new(),
            hasher: PhantomData,
        }
    }
}

impl<K: fmt::Debug, V: fmt::Debug, S> fmt::Debug for HashMap<K, V, S> {
    fn fmt(&self, f: &mut fmt::Formatter<'_>) -> fmt::Result {
        f.debug_map()
            .entries(self.entries.iter().map(|it| (&it.key, &it.value)))
            .finish()
    }
}

impl<K, V, S> HashMap<K, V, S> {
    pub fn len(&self) -> usize {
        self.entries.len()
    }

    pub fn is_empty(&self) -> bool {
        self.entries.is_empty()
    }

    pub fn raw_entry_mut(&mut self) -> RawEntryBuilderMut<'_, K, V, S> {
        RawEntryBuilderMut { map: self }
    }

    /// The entry of this hash that matches, or else the empty slot where it would go.
    #[inline]
    fn probe(&self, hash: u64, mut is_match: impl FnMut(&K) -> bool) -> Probe {
        if self.slots.is_empty() {
            return Probe::NoTable;
        }
        let mut slot = home(hash, self.slots.len());
        loop {
            let place = self.slots[slot];
            if place == EMPTY {
                return Probe::Empty(slot);
            }
            let entry = &self.entries[place as usize];
            if entry.hash == hash && is_match(&entry.key) {
                return Probe::Found(place as usize);
            }
            slot = (slot + 1) & (self.slots.len() - 1);
        }
    }

    /// A table of twice the slots, filled anew from the stored hashes.
    #[cold]
    fn grow(&mut self) {
        let len = (self.slots.len() * 2).max(FIRST_SLOTS);
        self.slots = vec![EMPTY; len];
        for (place, entry) in self.entries.iter().enumerate() {
            let mut slot = home(entry.hash, len);
            while self.slots[slot] != EMPTY {
                slot = (slot + 1) & (len - 1);
            }
            self.slots[slot] = place as u32;
        }
    }
}

enum Probe {
    Found(usize),
    Empty(usize),
    NoTable,
}

/// The slot at which probing starts.
#[inline]
fn home(hash: u64, slots: usize) -> usize {
    (hash >> (64 - slots.trailing_zeros())) as usize
}

pub struct RawEntryBuilderMut<'a, K, V, S> {
    map: &'a mut HashMap<K, V, S>,
}

impl<'a, K, V, S> RawEntryBuilderMut<'a, K, V, S> {
    #[inline]
    pub fn from_hash(
        self,
        hash: u64,
        is_match: impl FnMut(&K) -> bool,
    ) -> RawEntryMut<'a, K, V, S> {
        let map = self.map;
        match map.probe(hash, is_match) {
            Probe::Found(place) => RawEntryMut::Occupied(RawOccupiedEntryMut {
                entry: &mut map.entries[place],
                hasher: PhantomData,
            }),
            Probe::Empty(slot) => RawEntryMut::Vacant(RawVacantEntryMut {
                map,
                slot: Some(slot),
            }),
            Probe::NoTable => RawEntryMut::Vacant(RawVacantEntryMut { map, slot: None }),
        }
    }
}

pub enum RawEntryMut<'a, K, V, S> {
    Occupied(RawOccupiedEntryMut<'a, K, V, S>),
    Vacant(RawVacantEntryMut<'a, K, V, S>),
}

pub struct RawOccupiedEntryMut<'a, K, V, S> {
    entry: &'a mut Entry<K, V>,
    hasher: PhantomData<S>,
}

impl<K, V, S> RawOccupiedEntryMut<'_, K, V, S> {
    #[inline]
    pub fn key(&self) -> &K {
        &self.entry.key
    }
}

pub struct RawVacantEntryMut<'a, K, V, S> {
    map: &'a mut HashMap<K, V, S>,
    slot: Option<usize>,
}

impl<'a, K, V, S> RawVacantEntryMut<'a, K, V, S> {
    /// Inserts an entry of this hash. Hashes are stored, so growth has no need of the hasher.
    #[inline]
    pub fn insert_with_hasher(
        self,
        hash: u64,
        key: K,
        value: V,
        _hasher: impl Fn(&K) -> u64,
    ) -> (&'a mut K, &'a mut V) {
        let RawVacantEntryMut { map, mut slot } = self;
        if (map.entries.len() + 1) * 4 > map.slots.len() * 3 {
            map.grow();
            slot = None;
        }
        let slot = slot.unwrap_or_else(|| match map.probe(hash, |_| false) {
            Probe::Empty(slot) => slot,
            Probe::Found(_) | Probe::NoTable => unreachable!("a grown table has an empty slot"),
        });
        let place = map.entries.len();
        map.slots[slot] = place as u32;
        map.entries.push(Entry { hash, key, value });
        let entry = &mut map.entries[place];
        (&mut entry.key, &mut entry.value)
    }
}

#[cfg(test)]
mod tests {
    use super::*;

    type Map = HashMap<u64, u64, ()>;

    /// Finds the key, or inserts it with its value; says whether it was found.
    fn put(map: &mut Map, hash: u64, key: u64) -> bool {
        match map.raw_entry_mut().from_hash(hash, |it| *it == key) {
            RawEntryMut::Occupied(entry) => {
                assert_eq!(*entry.key(), key);
                true
            }
            RawEntryMut::Vacant(entry) => {
                let (key_there, value_there) =
                    entry.insert_with_hasher(hash, key, key + 1, |_| unreachable!());
                assert_eq!((*key_there, *value_there), (key, key + 1));
                false
            }
        }
    }

    /// Puts keys 0 to `count`, each found from then on, whatever growth comes between.
    fn fill(count: u64, hash: impl Fn(u64) -> u64) {
        let mut map = Map::default();
        assert!(map.is_empty());
        for key in 0..count {
            assert!(!put(&mut map, hash(key), key), "{key} is new");
            assert!(put(&mut map, hash(key), key), "{key} is found at once");
        }
        for key in 0..count {
            assert!(put(&mut map, hash(key), key), "{key} is found at last");
        }
        assert_eq!(map.len() as u64, count);
        assert!(map.slots.len() as u64 * 3 >= count * 4, "never too full");
    }

    #[test]
    fn the_table_grows() {
        fill(100_000, |key| key.wrapping_mul(0x517c_c1b7_2722_0a95));
    }

    #[test]
    fn equal_hashes_are_told_apart_by_the_match() {
        fill(500, |_| 0);
        fill(500, |_| u64::MAX);
    }

    #[test]
    fn a_match_is_asked_of_equal_hashes_only() {
        let mut map = Map::default();
        put(&mut map, 1, 10);
        put(&mut map, 2, 20);
        let entry = map.raw_entry_mut().from_hash(3, |_| true);
        assert!(matches!(entry, RawEntryMut::Vacant(_)));
        let RawEntryMut::Occupied(entry) = map.raw_entry_mut().from_hash(2, |_| true) else {
            panic!("the key of hash 2 is there");
        };
        assert_eq!(*entry.key(), 20);
    }

    #[test]
    fn entries_are_shown_in_order() {
        let mut map = Map::default();
        put(&mut map, 9, 5);
        put(&mut map, 1, 3);
        assert_eq!(format!("{map:?}"), "{5: 6, 3: 4}");
    }
}
