//! What the kit's `std` has otherwise than Rust's: memory that is asked of an allocator, as far as the crates use it.
#![allow(unused)]

pub mod alloc {
    #[derive(Clone, Copy, Debug, PartialEq, Eq, Default)]
    pub struct Global;
    #[derive(Clone, Copy, Debug, PartialEq, Eq)]
    pub struct AllocError;
    pub struct AllocFailed<T> {
        pub value: T,
    }
    impl<T> From<AllocFailed<T>> for AllocError {
        fn from(_: AllocFailed<T>) -> Self {
            AllocError
        }
    }
}
use alloc::*;
pub mod marker {
    pub trait Model {}
    pub use std::marker::PhantomData;
}
pub mod ops {
    pub trait DerefSlice {}
}
pub mod default {
    pub trait MadeWith<A> {
        fn made_with(a: A) -> Self;
    }
}
pub mod rc {
    pub use crate::RcStr;
}
pub fn rbox<T>(_: Global, v: T) -> Result<Box<T>, AllocFailed<T>> {
    Ok(Box::new(v))
}
pub fn rc<T>(_: Global, v: T) -> Result<std::rc::Rc<T>, AllocFailed<T>> {
    Ok(std::rc::Rc::new(v))
}
pub fn unbox<T>(b: Box<T>) -> T {
    *b
}
#[derive(Clone, Debug, PartialEq, Eq, Hash)]
pub struct RcStr(std::rc::Rc<str>);
impl RcStr {
    pub fn from_str(_: Global, s: &str) -> Result<Self, AllocError> {
        Ok(RcStr(s.into()))
    }
    pub fn from_string(s: String) -> Result<Self, AllocError> {
        Ok(RcStr(s.0.into()))
    }
    pub fn as_str(&self) -> &str {
        &self.0
    }
}
impl std::borrow::Borrow<str> for RcStr {
    fn borrow(&self) -> &str {
        &self.0
    }
}
#[derive(Clone, Debug, PartialEq, Eq, Hash, PartialOrd, Ord)]
pub struct String(std::string::String);
impl String {
    pub fn new(_: Global) -> Self {
        String(std::string::String::new())
    }
    pub fn from_str(_: Global, s: &str) -> Result<Self, AllocError> {
        Ok(String(s.into()))
    }
    pub fn push_str(&mut self, s: &str) -> Result<(), AllocError> {
        self.0.push_str(s);
        Ok(())
    }
    pub fn push(&mut self, c: char) -> Result<(), AllocError> {
        self.0.push(c);
        Ok(())
    }
    pub fn as_str(&self) -> &str {
        &self.0
    }
    pub fn as_bytes(&self) -> &[u8] {
        self.0.as_bytes()
    }
    pub fn len(&self) -> usize {
        self.0.len()
    }
    pub fn is_empty(&self) -> bool {
        self.0.is_empty()
    }
    pub fn truncate(&mut self, n: usize) {
        self.0.truncate(n)
    }
    pub fn pop(&mut self) -> Option<char> {
        self.0.pop()
    }
    pub fn into_bytes(self) -> Vec<u8> {
        Vec(self.0.into_bytes())
    }
    pub fn clear(&mut self) {
        self.0.clear()
    }
}
impl std::ops::Deref for String {
    type Target = str;
    fn deref(&self) -> &str {
        &self.0
    }
}
impl std::borrow::Borrow<str> for String {
    fn borrow(&self) -> &str {
        &self.0
    }
}
#[derive(Clone, Debug, PartialEq, Eq, Hash, PartialOrd, Ord)]
pub struct Vec<T>(pub std::vec::Vec<T>);
static GLOBAL: Global = Global;
impl<T> Vec<T> {
    pub fn new(_: Global) -> Self {
        Vec(std::vec::Vec::new())
    }
    pub fn with_capacity(_: Global, n: usize) -> Result<Self, AllocError> {
        Ok(Vec(std::vec::Vec::with_capacity(n)))
    }
    pub fn push(&mut self, x: T) -> Result<(), AllocFailed<T>> {
        self.0.push(x);
        Ok(())
    }
    pub fn pop(&mut self) -> Option<T> {
        self.0.pop()
    }
    pub fn truncate(&mut self, n: usize) {
        self.0.truncate(n)
    }
    pub fn clear(&mut self) {
        self.0.clear()
    }
    pub fn as_slice(&self) -> &[T] {
        &self.0
    }
    pub fn as_mut_slice(&mut self) -> &mut [T] {
        &mut self.0
    }
    pub fn allocator(&self) -> &Global {
        &GLOBAL
    }
    pub fn reserve(&mut self, n: usize) -> Result<(), AllocError> {
        self.0.reserve(n);
        Ok(())
    }
    pub fn insert(&mut self, i: usize, x: T) -> Result<(), AllocFailed<T>> {
        self.0.insert(i, x);
        Ok(())
    }
    pub fn remove(&mut self, i: usize) -> T {
        self.0.remove(i)
    }
    pub fn swap_remove(&mut self, i: usize) -> T {
        self.0.swap_remove(i)
    }
    pub fn append(&mut self, o: &mut Vec<T>) -> Result<(), AllocError> {
        self.0.append(&mut o.0);
        Ok(())
    }
    pub fn drain(&mut self, r: std::ops::Range<usize>) -> std::vec::Drain<'_, T> {
        self.0.drain(r)
    }
    pub fn from_elem(a: Global, x: T, n: usize) -> Result<Self, AllocError>
    where
        T: Clone,
    {
        Ok(Vec(vec![x; n]))
    }
    pub fn from_slice(a: Global, x: &[T]) -> Result<Self, AllocError>
    where
        T: Clone,
    {
        Ok(Vec(x.to_vec()))
    }
    pub fn extend_from_slice(&mut self, x: &[T]) -> Result<(), AllocError>
    where
        T: Clone,
    {
        self.0.extend_from_slice(x);
        Ok(())
    }
    pub fn sort(&mut self) -> Result<(), AllocError>
    where
        T: Ord,
    {
        self.0.sort();
        Ok(())
    }
    pub fn dedup(&mut self)
    where
        T: PartialEq,
    {
        self.0.dedup()
    }
    pub fn retain<F: FnMut(&T) -> bool>(&mut self, f: F) {
        self.0.retain(f)
    }
    pub fn resize(&mut self, n: usize, x: T) -> Result<(), AllocError>
    where
        T: Clone,
    {
        self.0.resize(n, x);
        Ok(())
    }
    pub fn split_off(&mut self, i: usize) -> Result<Vec<T>, AllocError> {
        Ok(Vec(self.0.split_off(i)))
    }
    pub fn sort_by_key<K: Ord, F: FnMut(&T) -> K>(&mut self, f: F) -> Result<(), AllocError> {
        self.0.sort_by_key(f);
        Ok(())
    }
    pub fn sort_by<F: FnMut(&T, &T) -> std::cmp::Ordering>(&mut self, f: F) -> Result<(), AllocError> {
        self.0.sort_by(f);
        Ok(())
    }
    pub fn push_reserved(&mut self, x: T) {
        self.0.push(x)
    }
    pub fn capacity(&self) -> usize {
        self.0.capacity()
    }
}
impl<T> std::ops::Deref for Vec<T> {
    type Target = [T];
    fn deref(&self) -> &[T] {
        &self.0
    }
}
impl<T> std::ops::DerefMut for Vec<T> {
    fn deref_mut(&mut self) -> &mut [T] {
        &mut self.0
    }
}
impl<T> std::borrow::Borrow<[T]> for Vec<T> {
    fn borrow(&self) -> &[T] {
        &self.0
    }
}
impl<T> IntoIterator for Vec<T> {
    type Item = T;
    type IntoIter = std::vec::IntoIter<T>;
    fn into_iter(self) -> Self::IntoIter {
        self.0.into_iter()
    }
}
impl<'a, T> IntoIterator for &'a Vec<T> {
    type Item = &'a T;
    type IntoIter = std::slice::Iter<'a, T>;
    fn into_iter(self) -> Self::IntoIter {
        self.0.iter()
    }
}
impl<'a, T> IntoIterator for &'a mut Vec<T> {
    type Item = &'a mut T;
    type IntoIter = std::slice::IterMut<'a, T>;
    fn into_iter(self) -> Self::IntoIter {
        self.0.iter_mut()
    }
}
pub trait RCollect<T>: Sized {
    fn from_it<I: Iterator<Item = T>>(a: Global, i: I) -> Result<Self, AllocError>;
}
impl<T> RCollect<T> for Vec<T> {
    fn from_it<I: Iterator<Item = T>>(_: Global, i: I) -> Result<Self, AllocError> {
        Ok(Vec(i.collect()))
    }
}
impl RCollect<char> for String {
    fn from_it<I: Iterator<Item = char>>(_: Global, i: I) -> Result<Self, AllocError> {
        Ok(String(i.collect()))
    }
}
pub trait RIter: Iterator + Sized {
    fn rcollect<C: RCollect<Self::Item>>(self, a: Global) -> Result<C, AllocError> {
        C::from_it(a, self)
    }
}
impl<I: Iterator> RIter for I {}
pub trait RSlice<T> {
    fn rto_vec(&self, a: Global) -> Result<Vec<T>, AllocError>;
}
impl<T: Clone> RSlice<T> for [T] {
    fn rto_vec(&self, _: Global) -> Result<Vec<T>, AllocError> {
        Ok(Vec(self.to_vec()))
    }
}
#[macro_export]
macro_rules! rvec {
    [in $a:expr; $x:expr; $n:expr] => { $crate::Vec::from_elem($a, $x, $n) };
    [in $a:expr; $($x:expr),* $(,)?] => {{
        let mut v = $crate::Vec::new($a);
        $( let _ = v.push($x); )*
        Ok::<_, $crate::alloc::AllocError>(v)
    }};
    [in $a:expr;] => { Ok::<_, $crate::alloc::AllocError>($crate::Vec::new($a)) };
}
pub mod collections {
    use crate::alloc::*;
    use std::borrow::Borrow;
    use std::hash::{BuildHasherDefault, Hash, Hasher};
    /// Hashes as the kit's maps do, by folded products.
    pub struct Fold(u64);
    impl Default for Fold {
        fn default() -> Self {
            Fold(0x243f_6a88_85a3_08d3)
        }
    }
    fn folded(a: u64, b: u64) -> u64 {
        let product = a as u128 * b as u128;
        product as u64 ^ (product >> 64) as u64
    }
    fn word(bytes: &[u8], at: usize) -> u64 {
        u64::from_le_bytes(bytes[at..at + 8].try_into().unwrap())
    }
    fn short(bytes: &[u8]) -> u64 {
        let len = bytes.len();
        let half = |at: usize| u32::from_le_bytes(bytes[at..at + 4].try_into().unwrap()) as u64;
        if len >= 4 {
            half(0) | half(len - 4) << 32
        } else if len > 0 {
            bytes[0] as u64 | (bytes[len / 2] as u64) << 8 | (bytes[len - 1] as u64) << 16
        } else {
            0
        }
    }
    const MULTIPLIER: u64 = 0x9e37_79b9_7f4a_7c15;
    impl Hasher for Fold {
        fn finish(&self) -> u64 {
            self.0
        }
        fn write(&mut self, bytes: &[u8]) {
            let len = bytes.len();
            if len <= 8 {
                self.0 = folded(self.0 ^ short(bytes), MULTIPLIER ^ (2 * len as u64));
                return;
            }
            let mut state = self.0.wrapping_add(len as u64);
            let mut at = 0;
            while len - at > 16 {
                state = folded(word(bytes, at) ^ state, word(bytes, at + 8) ^ MULTIPLIER);
                at += 16;
            }
            self.0 = folded(word(bytes, len.saturating_sub(16)) ^ state, word(bytes, len - 8) ^ MULTIPLIER);
        }
    }
    #[derive(Clone, Debug)]
    pub struct HashMap<K, V>(std::collections::HashMap<K, V, BuildHasherDefault<Fold>>);
    impl<K: Eq + Hash, V> HashMap<K, V> {
        pub fn new(_: Global) -> Self {
            HashMap(Default::default())
        }
        pub fn insert(&mut self, k: K, v: V) -> Result<Option<V>, AllocError> {
            Ok(self.0.insert(k, v))
        }
        pub fn get<Q: ?Sized + Eq + Hash>(&self, q: &Q) -> Option<&V>
        where
            K: Borrow<Q>,
        {
            self.0.get(q)
        }
        pub fn get_mut<Q: ?Sized + Eq + Hash>(&mut self, q: &Q) -> Option<&mut V>
        where
            K: Borrow<Q>,
        {
            self.0.get_mut(q)
        }
        pub fn contains_key<Q: ?Sized + Eq + Hash>(&self, q: &Q) -> bool
        where
            K: Borrow<Q>,
        {
            self.0.contains_key(q)
        }
        pub fn remove<Q: ?Sized + Eq + Hash>(&mut self, q: &Q) -> Option<V>
        where
            K: Borrow<Q>,
        {
            self.0.remove(q)
        }
        pub fn len(&self) -> usize {
            self.0.len()
        }
        pub fn is_empty(&self) -> bool {
            self.0.is_empty()
        }
        pub fn iter(&self) -> std::collections::hash_map::Iter<'_, K, V> {
            self.0.iter()
        }
    }
    #[derive(Clone, Debug)]
    pub struct HashSet<K>(std::collections::HashSet<K, BuildHasherDefault<Fold>>);
    impl<K: Eq + Hash> HashSet<K> {
        pub fn new(_: Global) -> Self {
            HashSet(Default::default())
        }
        pub fn insert(&mut self, k: K) -> Result<bool, AllocError> {
            Ok(self.0.insert(k))
        }
        pub fn contains<Q: ?Sized + Eq + Hash>(&self, q: &Q) -> bool
        where
            K: Borrow<Q>,
        {
            self.0.contains(q)
        }
        pub fn get<Q: ?Sized + Eq + Hash>(&self, q: &Q) -> Option<&K>
        where
            K: Borrow<Q>,
        {
            self.0.get(q)
        }
        pub fn remove<Q: ?Sized + Eq + Hash>(&mut self, q: &Q) -> bool
        where
            K: Borrow<Q>,
        {
            self.0.remove(q)
        }
        pub fn len(&self) -> usize {
            self.0.len()
        }
        pub fn is_empty(&self) -> bool {
            self.0.is_empty()
        }
    }
}
pub mod prelude {
    pub use crate::default::MadeWith;
    pub use crate::{RIter, RSlice, String, Vec};
}

impl std::fmt::Display for String {
    fn fmt(&self, f: &mut std::fmt::Formatter<'_>) -> std::fmt::Result {
        f.write_str(&self.0)
    }
}
impl<T> From<AllocFailed<T>> for std::io::Error {
    fn from(_: AllocFailed<T>) -> Self {
        AllocError.into()
    }
}
impl From<AllocError> for std::io::Error {
    fn from(_: AllocError) -> Self {
        std::io::ErrorKind::OutOfMemory.into()
    }
}
pub mod host {
    use crate::*;
    pub struct HostRuntime;
    impl HostRuntime {
        pub fn alloc(&self) -> Global {
            Global
        }
        pub fn lines(&self, _: Global) -> impl Iterator<Item = std::io::Result<String>> {
            std::io::stdin().lines().map(|it| it.map(String))
        }
    }
    pub fn args(_: &HostRuntime) -> std::io::Result<impl Iterator<Item = String>> {
        Ok(std::env::args().map(String))
    }
}
#[macro_export]
macro_rules! say {
    ($($told:tt)*) => {{
        std::println!($($told)*);
        Ok::<(), std::io::Error>(())
    }};
}
