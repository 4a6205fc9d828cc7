//! Values by their keys, in the order in which they were last used: a map to places, and a list through these.
use std::collections::HashMap;
use std::hash::Hash;
use std::ops::{Index, IndexMut};

const NONE: u32 = u32::MAX;

struct Node<K, V> {
    earlier: u32,
    later: u32,
    key: K,
    value: V,
}

pub struct Lru<K, V> {
    places: HashMap<K, u32>,
    nodes: Vec<Node<K, V>>,
    /// Places whose value was taken out.
    free: Vec<u32>,
    oldest: u32,
    latest: u32,
}

impl<K: Hash + Eq + Copy, V: Default> Lru<K, V> {
    pub fn new() -> Self {
        Lru { places: HashMap::new(), nodes: Vec::new(), free: Vec::new(), oldest: NONE, latest: NONE }
    }

    pub fn len(&self) -> usize {
        self.places.len()
    }

    pub fn find(&self, key: &K) -> Option<u32> {
        self.places.get(key).copied()
    }

    pub fn oldest(&self) -> Option<u32> {
        (self.oldest != NONE).then_some(self.oldest)
    }

    pub fn key(&self, place: u32) -> K {
        self.nodes[place as usize].key
    }

    pub fn values(&self) -> impl Iterator<Item = (u32, &V)> {
        self.places.values().map(|&place| (place, &self.nodes[place as usize].value))
    }

    /// The value was used now.
    pub fn touch(&mut self, place: u32) {
        if place != self.latest {
            self.unlink(place);
            self.link(place);
        }
    }

    /// A value of a key that has none.
    pub fn add(&mut self, key: K, value: V) -> u32 {
        let node = Node { earlier: NONE, later: NONE, key, value };
        let place = self.free.pop().unwrap_or(self.nodes.len() as u32);
        match self.nodes.get_mut(place as usize) {
            Some(empty) => *empty = node,
            None => self.nodes.push(node),
        }
        self.places.insert(key, place);
        self.link(place);
        place
    }

    pub fn remove(&mut self, place: u32) -> V {
        self.unlink(place);
        self.free.push(place);
        let node = &mut self.nodes[place as usize];
        self.places.remove(&node.key);
        std::mem::take(&mut node.value)
    }

    fn unlink(&mut self, place: u32) {
        let Node { earlier, later, .. } = self.nodes[place as usize];
        match earlier {
            NONE => self.oldest = later,
            it => self.nodes[it as usize].later = later,
        }
        match later {
            NONE => self.latest = earlier,
            it => self.nodes[it as usize].earlier = earlier,
        }
    }

    fn link(&mut self, place: u32) {
        let last = self.latest;
        self.latest = place;
        let node = &mut self.nodes[place as usize];
        node.earlier = last;
        node.later = NONE;
        match last {
            NONE => self.oldest = place,
            it => self.nodes[it as usize].later = place,
        }
    }
}

impl<K, V> Index<u32> for Lru<K, V> {
    type Output = V;

    fn index(&self, place: u32) -> &V {
        &self.nodes[place as usize].value
    }
}

impl<K, V> IndexMut<u32> for Lru<K, V> {
    fn index_mut(&mut self, place: u32) -> &mut V {
        &mut self.nodes[place as usize].value
    }
}
