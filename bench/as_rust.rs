//! What differs between the Rattle library and Rust's, for `as_rust.py`: what takes memory has an allocator as argument and
//! gives a result.

pub mod prelude {
    pub use crate::alloc::AllocGlobal;
    pub use crate::io::Print;
    pub use crate::rt::HostRuntime;
    pub use crate::{Drop, String, Vec};
}

/// Whatever can be dropped.
pub trait Drop {}
impl<T: ?Sized> Drop for T {}

pub mod marker {
    pub trait Model {}
}

pub mod alloc {
    #[derive(Clone, Copy)]
    pub struct Global;
    #[derive(Debug)]
    pub struct AllocError;
    pub struct AllocFailed<T>(pub T);
    pub trait AllocGlobal {
        fn alloc(&self) -> Global {
            Global
        }
    }
    impl<T> From<AllocFailed<T>> for AllocError {
        fn from(_: AllocFailed<T>) -> AllocError {
            AllocError
        }
    }
}

use crate::alloc::{AllocError, AllocFailed, Global};
use std::collections::HashMap;
use std::hash::{DefaultHasher, Hash, Hasher};
use std::ops::{Deref, DerefMut};
use std::vec::Vec as Rows;

#[derive(Debug, PartialEq, Eq, PartialOrd, Ord, Hash)]
pub struct Vec<T>(Rows<T>);

impl<T> Deref for Vec<T> {
    type Target = Rows<T>;
    fn deref(&self) -> &Rows<T> {
        &self.0
    }
}
impl<T> DerefMut for Vec<T> {
    fn deref_mut(&mut self) -> &mut Rows<T> {
        &mut self.0
    }
}
impl<T> Vec<T> {
    pub fn new(_: Global) -> Vec<T> {
        Vec(Rows::new())
    }
    pub fn with_capacity(_: Global, count: usize) -> Result<Vec<T>, AllocError> {
        Ok(Vec(Rows::with_capacity(count)))
    }
    pub fn from_slice(_: Global, items: &[T]) -> Result<Vec<T>, AllocError>
    where
        T: Clone,
    {
        Ok(Vec(items.to_vec()))
    }
    pub fn from_array<const N: usize>(_: Global, items: [T; N]) -> Result<Vec<T>, AllocError> {
        Ok(Vec(Rows::from(items)))
    }
    #[inline]
    pub fn push(&mut self, item: T) -> Result<(), AllocFailed<T>> {
        self.0.push(item);
        Ok(())
    }
    pub fn append(&mut self, other: &mut Vec<T>) -> Result<(), AllocError> {
        self.0.append(&mut other.0);
        Ok(())
    }
    pub fn insert(&mut self, place: usize, item: T) -> Result<(), AllocFailed<T>> {
        self.0.insert(place, item);
        Ok(())
    }
    pub fn clone(&self) -> Result<Vec<T>, AllocError>
    where
        T: Clone,
    {
        Ok(Vec(self.0.clone()))
    }
    pub fn resize(&mut self, count: usize, item: T) -> Result<(), AllocFailed<T>>
    where
        T: Clone,
    {
        self.0.resize(count, item);
        Ok(())
    }
    pub fn extend_from_slice(&mut self, items: &[T]) -> Result<(), AllocError>
    where
        T: Clone,
    {
        self.0.extend_from_slice(items);
        Ok(())
    }
}
impl<T> IntoIterator for Vec<T> {
    type Item = T;
    type IntoIter = std::vec::IntoIter<T>;
    fn into_iter(self) -> Self::IntoIter {
        self.0.into_iter()
    }
}
impl<'a, T> IntoIterator for &'a Vec<T> {
    type Item = &'a T;
    type IntoIter = std::slice::Iter<'a, T>;
    fn into_iter(self) -> Self::IntoIter {
        self.0.iter()
    }
}
impl<'a, T> IntoIterator for &'a mut Vec<T> {
    type Item = &'a mut T;
    type IntoIter = std::slice::IterMut<'a, T>;
    fn into_iter(self) -> Self::IntoIter {
        self.0.iter_mut()
    }
}
impl<T> From<Rows<T>> for Vec<T> {
    fn from(rows: Rows<T>) -> Vec<T> {
        Vec(rows)
    }
}

#[macro_export]
macro_rules! vec_in {
    ($alloc:expr, $item:expr; $count:expr) => {
        Ok::<_, $crate::alloc::AllocError>($crate::Vec::from(std::vec![$item; $count]))
    };
    ($alloc:expr, $($item:expr),*) => {
        Ok::<_, $crate::alloc::AllocError>($crate::Vec::from(std::vec![$($item),*]))
    };
}

#[macro_export]
macro_rules! format_in {
    ($alloc:expr, $($rest:tt)*) => {
        Ok::<_, $crate::alloc::AllocError>($crate::String::from(std::format!($($rest)*)))
    };
}

pub fn boxed<T>(_: Global, item: T) -> Result<Box<T>, AllocFailed<T>> {
    Ok(Box::new(item))
}

pub fn unboxed<T>(item: Box<T>) -> T {
    *item
}

#[derive(Debug, PartialEq, Eq, PartialOrd, Ord, Hash)]
pub struct String(std::string::String);

impl Deref for String {
    type Target = std::string::String;
    fn deref(&self) -> &std::string::String {
        &self.0
    }
}
impl From<std::string::String> for String {
    fn from(text: std::string::String) -> String {
        String(text)
    }
}
impl std::fmt::Display for String {
    fn fmt(&self, to: &mut std::fmt::Formatter<'_>) -> std::fmt::Result {
        self.0.fmt(to)
    }
}
impl String {
    pub fn new(_: Global) -> String {
        String(std::string::String::new())
    }
    pub fn with_capacity(_: Global, count: usize) -> Result<String, AllocError> {
        Ok(String(std::string::String::with_capacity(count)))
    }
    pub fn from_str(_: Global, text: &str) -> Result<String, AllocError> {
        Ok(String(text.to_string()))
    }
    pub fn push(&mut self, character: char) -> Result<(), AllocError> {
        self.0.push(character);
        Ok(())
    }
    pub fn push_str(&mut self, text: &str) -> Result<(), AllocError> {
        self.0.push_str(text);
        Ok(())
    }
    pub fn into_bytes(self) -> Vec<u8> {
        Vec(self.0.into_bytes())
    }
}

/// Keys in their order, and where each is by its hash.
#[derive(Debug)]
struct Places<K>(HashMap<u64, Rows<usize>>, Rows<K>);

impl<K: Hash + Eq> Places<K> {
    fn hash<Q: Hash + ?Sized>(key: &Q) -> u64 {
        let mut hasher = DefaultHasher::new();
        key.hash(&mut hasher);
        hasher.finish()
    }
    fn find(&self, key: &K) -> Option<usize> {
        self.0.get(&Self::hash(key))?.iter().copied().find(|place| self.1[*place] == *key)
    }
    fn add(&mut self, key: K) -> usize {
        self.0.entry(Self::hash(&key)).or_default().push(self.1.len());
        self.1.push(key);
        self.1.len() - 1
    }
}

#[derive(Debug)]
pub struct IndexSet<K>(Places<K>);

impl<K: Hash + Eq> IndexSet<K> {
    pub fn new(_: Global) -> IndexSet<K> {
        IndexSet(Places(HashMap::new(), Rows::new()))
    }
    pub fn insert(&mut self, key: K) -> Result<bool, AllocFailed<K>> {
        if self.0.find(&key).is_some() {
            return Ok(false);
        }
        self.0.add(key);
        Ok(true)
    }
    pub fn insert_full(&mut self, key: K) -> Result<(usize, bool), AllocFailed<K>> {
        match self.0.find(&key) {
            Some(place) => Ok((place, false)),
            None => Ok((self.0.add(key), true)),
        }
    }
    pub fn contains(&self, key: &K) -> bool {
        self.0.find(key).is_some()
    }
    pub fn get_index_of(&self, key: &K) -> Option<usize> {
        self.0.find(key)
    }
    pub fn get_index(&self, place: usize) -> Option<&K> {
        self.0.1.get(place)
    }
    pub fn as_slice(&self) -> &[K] {
        &self.0.1
    }
    pub fn len(&self) -> usize {
        self.0.1.len()
    }
    pub fn is_empty(&self) -> bool {
        self.0.1.is_empty()
    }
    pub fn iter(&self) -> std::slice::Iter<'_, K> {
        self.0.1.iter()
    }
}

#[derive(Debug)]
pub struct IndexMap<K, V>(Places<K>, Rows<V>);

impl<K: Hash + Eq, V> IndexMap<K, V> {
    pub fn new(_: Global) -> IndexMap<K, V> {
        IndexMap(Places(HashMap::new(), Rows::new()), Rows::new())
    }
    pub fn insert(&mut self, key: K, value: V) -> Result<Option<V>, AllocFailed<(K, V)>> {
        if let Some(place) = self.0.find(&key) {
            return Ok(Some(std::mem::replace(&mut self.1[place], value)));
        }
        self.0.add(key);
        self.1.push(value);
        Ok(None)
    }
    pub fn get(&self, key: &K) -> Option<&V> {
        Some(&self.1[self.0.find(key)?])
    }
    pub fn get_mut(&mut self, key: &K) -> Option<&mut V> {
        let place = self.0.find(key)?;
        Some(&mut self.1[place])
    }
    pub fn contains_key(&self, key: &K) -> bool {
        self.0.find(key).is_some()
    }
    pub fn get_index_of(&self, key: &K) -> Option<usize> {
        self.0.find(key)
    }
    pub fn get_index(&self, place: usize) -> Option<(&K, &V)> {
        Some((self.0.1.get(place)?, &self.1[place]))
    }
    pub fn len(&self) -> usize {
        self.1.len()
    }
    pub fn values(&self) -> std::slice::Iter<'_, V> {
        self.1.iter()
    }
}

pub mod collections {
    use crate::alloc::{AllocFailed, Global};
    pub struct BinaryHeap<T>(std::collections::BinaryHeap<T>);
    impl<T: Ord> BinaryHeap<T> {
        pub fn new(_: Global) -> BinaryHeap<T> {
            BinaryHeap(std::collections::BinaryHeap::new())
        }
        pub fn push(&mut self, item: T) -> Result<(), AllocFailed<T>> {
            self.0.push(item);
            Ok(())
        }
        pub fn pop(&mut self) -> Option<T> {
            self.0.pop()
        }
    }
    pub struct VecDeque<T>(std::collections::VecDeque<T>);
    impl<T> From<crate::Vec<T>> for VecDeque<T> {
        fn from(items: crate::Vec<T>) -> VecDeque<T> {
            VecDeque(items.into_iter().collect())
        }
    }
    impl<T> std::ops::Deref for VecDeque<T> {
        type Target = std::collections::VecDeque<T>;
        fn deref(&self) -> &Self::Target {
            &self.0
        }
    }
    impl<T> std::ops::DerefMut for VecDeque<T> {
        fn deref_mut(&mut self) -> &mut Self::Target {
            &mut self.0
        }
    }
    impl<T> IntoIterator for VecDeque<T> {
        type Item = T;
        type IntoIter = std::collections::vec_deque::IntoIter<T>;
        fn into_iter(self) -> Self::IntoIter {
            self.0.into_iter()
        }
    }
}

pub mod rt {
    pub trait Files {}
    pub trait Env {}
    pub struct HostRuntime;
    impl Files for HostRuntime {}
    impl Env for HostRuntime {}
    impl crate::io::Print for HostRuntime {}
    impl crate::alloc::AllocGlobal for HostRuntime {}
}

pub mod env {
    pub fn args<R>(_: &R) -> std::io::Result<impl Iterator<Item = crate::String>> {
        Ok(std::env::args().map(crate::String::from))
    }
}

pub mod fs {
    pub fn open<R>(_: &R, name: &str) -> std::io::Result<std::fs::File> {
        std::fs::File::open(name)
    }
}

pub mod io {
    pub use std::io::{ErrorKind, Read, Write};
    pub trait Print {}
    pub fn writer<R>(_: &R) -> std::io::Stdout {
        std::io::stdout()
    }
}
