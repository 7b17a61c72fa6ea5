//! A map and a set ordered by key. They use the kit's own B-tree, because Rust's B-tree aborts when memory runs out.
//!
//! A node has up to 15 pairs, as in Rattle, and is split on the way down if an insert needs room. The map therefore
//! allocates exactly when Rattle's does.

use super::alloc::{AllocFailed, Global};
use super::boxed::Box;
use core::borrow::Borrow;
use core::cmp::Ordering;

/// The maximum number of pairs in a node; a split moves the middle one up.
const CAPACITY: usize = 15;
const MIDDLE: usize = CAPACITY / 2;

/// A node. The first `len` pairs are present; an inner node has one more edge.
struct Node<K, V> {
    len: usize,
    pairs: [Option<(K, V)>; CAPACITY],
    edges: [Option<Box<Node<K, V>>>; CAPACITY + 1],
}

/// Where a key is in a node: at this index, or below the edge with this index.
enum Place {
    At(usize),
    Below(usize),
}

fn none<T>(_: usize) -> Option<T> {
    None
}

/// Inserts a value at an index in a row, and moves later values up. The last slot must be empty.
fn put<T>(row: &mut [Option<T>], at: usize, value: T) {
    row[at..].rotate_right(1);
    row[at] = Some(value);
}

impl<K, V> Node<K, V> {
    fn new(alloc: Global) -> Option<Box<Self>> {
        let node = Node { len: 0, pairs: core::array::from_fn(none), edges: core::array::from_fn(none) };
        Box::new(alloc, node).ok()
    }

    fn is_full(&self) -> bool {
        self.len == CAPACITY
    }

    fn place_of<Q: Ord + ?Sized>(&self, key: &Q) -> Place
    where
        K: Borrow<Q>,
    {
        for (place, pair) in self.pairs[..self.len].iter().flatten().enumerate() {
            match key.cmp(pair.0.borrow()) {
                Ordering::Less => return Place::Below(place),
                Ordering::Equal => return Place::At(place),
                Ordering::Greater => {}
            }
        }
        Place::Below(self.len)
    }

    /// Splits the full node below an edge: its upper half moves to an empty node. This node must not be full.
    fn split(&mut self, at: usize, mut upper: Box<Self>) {
        let lower = match &mut self.edges[at] {
            Some(lower) => lower,
            None => unreachable!("a full node is there"),
        };
        for k in MIDDLE + 1..CAPACITY {
            upper.pairs[k - MIDDLE - 1] = lower.pairs[k].take();
        }
        for k in MIDDLE + 1..CAPACITY + 1 {
            upper.edges[k - MIDDLE - 1] = lower.edges[k].take();
        }
        let between = lower.pairs[MIDDLE].take();
        (lower.len, upper.len) = (MIDDLE, CAPACITY - MIDDLE - 1);
        if let Some(pair) = between {
            put(&mut self.pairs, at, pair);
        }
        put(&mut self.edges, at + 1, upper);
        self.len += 1;
    }
}

/// A map ordered by key.
pub struct BTreeMap<K, V> {
    alloc: Global,
    root: Option<Box<Node<K, V>>>,
    len: usize,
}

impl<K: Ord, V> BTreeMap<K, V> {
    pub fn new(alloc: Global) -> Self {
        BTreeMap { alloc, root: None, len: 0 }
    }

    pub fn len(&self) -> usize {
        self.len
    }

    pub fn is_empty(&self) -> bool {
        self.len == 0
    }

    pub fn get<Q: Ord + ?Sized>(&self, key: &Q) -> Option<&V>
    where
        K: Borrow<Q>,
    {
        let mut node = self.root.as_ref()?;
        loop {
            match node.place_of(key) {
                Place::At(place) => return node.pairs[place].as_ref().map(|it| &it.1),
                Place::Below(edge) => node = node.edges[edge].as_ref()?,
            }
        }
    }

    pub fn contains_key<Q: Ord + ?Sized>(&self, key: &Q) -> bool
    where
        K: Borrow<Q>,
    {
        self.get(key).is_some()
    }

    /// Returns a key's value. If the map lacks the key, returns whether the leaf in which the key belongs is full.
    fn found(&mut self, key: &K) -> Result<&mut V, bool> {
        let mut node = self.root.as_mut().ok_or(false)?;
        loop {
            match node.place_of(key) {
                Place::At(place) => return node.pairs[place].as_mut().map(|it| &mut it.1).ok_or(false),
                Place::Below(edge) => {
                    let is_full = node.is_full();
                    node = node.edges[edge].as_mut().ok_or(is_full)?;
                }
            }
        }
    }

    /// Splits each full node on the way to a key's leaf, starting with the root. Returns false if memory runs out: some
    /// nodes may then be split, but no pair has changed.
    fn has_split(&mut self, key: &K) -> bool {
        let alloc = self.alloc;
        if self.root.as_ref().map_or(false, |it| it.is_full()) {
            match Node::new(alloc) {
                Some(mut top) => {
                    top.edges[0] = self.root.take();
                    self.root = Some(top);
                }
                None => return false,
            }
        }
        let mut node = match &mut self.root {
            Some(root) => root,
            None => return true,
        };
        loop {
            let mut edge = match node.place_of(key) {
                Place::At(_) => return true,
                Place::Below(edge) => edge,
            };
            if node.edges[edge].as_ref().map_or(false, |it| it.is_full()) {
                match Node::new(alloc) {
                    Some(upper) => node.split(edge, upper),
                    None => return false,
                }
                if let Place::Below(now) = node.place_of(key) {
                    edge = now;
                }
            }
            node = match &mut node.edges[edge] {
                Some(below) => below,
                None => return true,
            };
        }
    }

    /// Inserts a pair into its key's leaf, which isn't full.
    fn put(&mut self, key: K, value: V) {
        let mut node = match &mut self.root {
            Some(root) => root,
            None => return,
        };
        while let Place::Below(edge) = node.place_of(&key) {
            if node.edges[edge].is_none() {
                put(&mut node.pairs, edge, (key, value));
                node.len += 1;
                self.len += 1;
                return;
            }
            node = match &mut node.edges[edge] {
                Some(below) => below,
                None => return,
            };
        }
    }

    /// If a refused insert left a root without pairs, replaces the root with the node below it.
    fn without_empty_root(&mut self) {
        if let Some(root) = &mut self.root {
            if root.len == 0 {
                self.root = root.edges[0].take();
            }
        }
    }

    /// Sets a key's value, and returns the previous one. Returns key and value if memory runs out.
    pub fn insert(&mut self, key: K, value: V) -> Result<Option<V>, AllocFailed<(K, V)>> {
        let is_full = match self.found(&key) {
            Ok(found) => return Ok(Some(core::mem::replace(found, value))),
            Err(is_full) => is_full,
        };
        if self.root.is_none() {
            self.root = Node::new(self.alloc);
        }
        if self.root.is_none() || (is_full && !self.has_split(&key)) {
            self.without_empty_root();
            return Err(AllocFailed { value: (key, value) });
        }
        self.put(key, value);
        Ok(None)
    }
}

/// An ordered set.
pub struct BTreeSet<T>(BTreeMap<T, ()>);

impl<T: Ord> BTreeSet<T> {
    pub fn new(alloc: Global) -> Self {
        BTreeSet(BTreeMap::new(alloc))
    }

    pub fn len(&self) -> usize {
        self.0.len()
    }

    pub fn is_empty(&self) -> bool {
        self.0.is_empty()
    }

    pub fn contains(&self, value: &T) -> bool {
        self.0.contains_key(value)
    }

    /// Inserts a value. Returns whether it is new, or the value if memory runs out.
    pub fn insert(&mut self, value: T) -> Result<bool, AllocFailed<T>> {
        match self.0.insert(value, ()) {
            Ok(former) => Ok(former.is_none()),
            Err(refused) => Err(AllocFailed { value: refused.value.0 }),
        }
    }
}

#[cfg(test)]
mod tests {
    use super::*;

    /// The numbers below 2,003 in random order, each once.
    fn numbers() -> impl Iterator<Item = u32> {
        (0..2003u32).map(|k| k * 977 % 2003)
    }

    #[test]
    fn a_map_has_what_was_put_in() {
        let mut map = BTreeMap::new(Global);
        for (count, k) in numbers().enumerate() {
            assert_eq!(map.len(), count);
            assert_eq!(map.insert(k, 2 * k).unwrap(), None);
        }
        assert_eq!(map.insert(7, 1).unwrap(), Some(14));
        for k in 0..2003 {
            assert_eq!(map.get(&k), Some(&if k == 7 { 1 } else { 2 * k }));
        }
        assert!(!map.contains_key(&2003));
    }

    #[test]
    fn a_set_has_each_value_once() {
        let mut set = BTreeSet::new(Global);
        assert!(numbers().all(|k| set.insert(k).unwrap()));
        assert!(numbers().all(|k| !set.insert(k).unwrap() && set.contains(&k)));
        assert_eq!(set.len(), 2003);
    }
}
