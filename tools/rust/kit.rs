//! The kit's libraries, as far as the crates use them.
#![allow(unused)]

use rstd::alloc::*;
use rstd::{String, Vec};
use std::borrow::Borrow;
use std::hash::Hash;
pub mod indexmap {
    use super::*;
    use rstd::collections::Fold;
    use std::hash::{BuildHasher, BuildHasherDefault, Hasher};
    #[derive(Clone, Default)]
    pub struct Same(u64);
    impl Hasher for Same {
        fn finish(&self) -> u64 {
            self.0
        }
        fn write(&mut self, _: &[u8]) {
            unreachable!()
        }
        fn write_u64(&mut self, x: u64) {
            self.0 = x
        }
    }
    type Places = std::collections::HashMap<u64, std::vec::Vec<usize>, BuildHasherDefault<Same>>;
    fn hash_of<Q: ?Sized + Hash>(q: &Q) -> u64 {
        let mut h = Fold::default();
        q.hash(&mut h);
        h.finish()
    }
    #[derive(Clone)]
    pub struct IndexMap<K, V> {
        at: Places,
        entries: std::vec::Vec<(K, V)>,
    }
    impl<K: std::fmt::Debug, V: std::fmt::Debug> std::fmt::Debug for IndexMap<K, V> {
        fn fmt(&self, f: &mut std::fmt::Formatter<'_>) -> std::fmt::Result {
            self.entries.fmt(f)
        }
    }
    impl<K: Eq + Hash, V> IndexMap<K, V> {
        pub fn new(_: Global) -> Self {
            IndexMap {
                at: Default::default(),
                entries: Default::default(),
            }
        }
        pub fn allocator(&self) -> &Global {
            &Global
        }
        pub fn len(&self) -> usize {
            self.entries.len()
        }
        pub fn is_empty(&self) -> bool {
            self.entries.is_empty()
        }
        pub fn get_index_of<Q: ?Sized + Eq + Hash>(&self, q: &Q) -> Option<usize>
        where
            K: Borrow<Q>,
        {
            self.at.get(&hash_of(q))?.iter().copied().find(|i| self.entries[*i].0.borrow() == q)
        }
        pub fn get<Q: ?Sized + Eq + Hash>(&self, q: &Q) -> Option<&V>
        where
            K: Borrow<Q>,
        {
            self.get_index_of(q).map(|i| &self.entries[i].1)
        }
        pub fn get_mut<Q: ?Sized + Eq + Hash>(&mut self, q: &Q) -> Option<&mut V>
        where
            K: Borrow<Q>,
        {
            let i = self.get_index_of(q)?;
            Some(&mut self.entries[i].1)
        }
        pub fn get_full<Q: ?Sized + Eq + Hash>(&self, q: &Q) -> Option<(usize, &K, &V)>
        where
            K: Borrow<Q>,
        {
            let i = self.get_index_of(q)?;
            Some((i, &self.entries[i].0, &self.entries[i].1))
        }
        pub fn get_index(&self, i: usize) -> Option<(&K, &V)> {
            self.entries.get(i).map(|e| (&e.0, &e.1))
        }
        pub fn contains_key<Q: ?Sized + Eq + Hash>(&self, q: &Q) -> bool
        where
            K: Borrow<Q>,
        {
            self.get_index_of(q).is_some()
        }
        pub fn reserve(&mut self, n: usize) -> Result<(), AllocError> {
            self.entries.reserve(n);
            Ok(())
        }
        pub fn insert(&mut self, k: K, v: V) -> Result<Option<V>, AllocError> {
            Ok(self.insert_full(k, v)?.1)
        }
        pub fn insert_full(&mut self, k: K, v: V) -> Result<(usize, Option<V>), AllocError> {
            if let Some(i) = self.get_index_of(&k) {
                return Ok((i, Some(std::mem::replace(&mut self.entries[i].1, v))));
            }
            let n = self.entries.len();
            self.at.entry(hash_of(&k)).or_default().push(n);
            self.entries.push((k, v));
            Ok((n, None))
        }
        pub fn swap_remove<Q: ?Sized + Eq + Hash>(&mut self, q: &Q) -> Option<V>
        where
            K: Borrow<Q>,
        {
            let i = self.get_index_of(q)?;
            let last = self.entries.len() - 1;
            let h = hash_of(q);
            let list = self.at.get_mut(&h).unwrap();
            list.retain(|x| *x != i);
            if list.is_empty() {
                self.at.remove(&h);
            }
            if i != last {
                let h = hash_of(&self.entries[last].0);
                for x in self.at.get_mut(&h).unwrap() {
                    if *x == last {
                        *x = i
                    }
                }
            }
            Some(self.entries.swap_remove(i).1)
        }
        pub fn iter(&self) -> impl Iterator<Item = (&K, &V)> {
            self.entries.iter().map(|e| (&e.0, &e.1))
        }
        pub fn clear(&mut self) {
            self.at.clear();
            self.entries.clear()
        }
        pub fn pop(&mut self) -> Option<(K, V)> {
            let (k, v) = self.entries.pop()?;
            let n = self.entries.len();
            let h = hash_of(&k);
            let list = self.at.get_mut(&h).unwrap();
            list.retain(|x| *x != n);
            if list.is_empty() {
                self.at.remove(&h);
            }
            Some((k, v))
        }
    }
    #[derive(Clone)]
    pub struct IndexSet<K>(IndexMap<K, ()>);
    impl<K: std::fmt::Debug> std::fmt::Debug for IndexSet<K> {
        fn fmt(&self, f: &mut std::fmt::Formatter<'_>) -> std::fmt::Result {
            f.write_str("set")
        }
    }
    impl<K: Eq + Hash> IndexSet<K> {
        pub fn new(_: Global) -> Self {
            IndexSet(IndexMap::new(Global))
        }
        pub fn with_capacity(_: Global, n: usize) -> Result<Self, AllocError> {
            let mut set = IndexSet(IndexMap::new(Global));
            set.0.entries.reserve_exact(n);
            set.0.at.reserve(n);
            Ok(set)
        }
        pub fn allocator(&self) -> &Global {
            &Global
        }
        pub fn len(&self) -> usize {
            self.0.len()
        }
        pub fn is_empty(&self) -> bool {
            self.0.is_empty()
        }
        pub fn contains<Q: ?Sized + Eq + Hash>(&self, q: &Q) -> bool
        where
            K: Borrow<Q>,
        {
            self.0.contains_key(q)
        }
        pub fn get<Q: ?Sized + Eq + Hash>(&self, q: &Q) -> Option<&K>
        where
            K: Borrow<Q>,
        {
            self.0.get_full(q).map(|x| x.1)
        }
        pub fn get_index(&self, i: usize) -> Option<&K> {
            self.0.get_index(i).map(|x| x.0)
        }
        pub fn get_index_of<Q: ?Sized + Eq + Hash>(&self, q: &Q) -> Option<usize>
        where
            K: Borrow<Q>,
        {
            self.0.get_index_of(q)
        }
        pub fn insert(&mut self, k: K) -> Result<bool, AllocError> {
            Ok(self.0.insert_full(k, ())?.1.is_none())
        }
        pub fn insert_full(&mut self, k: K) -> Result<(usize, bool), AllocError> {
            let (i, old) = self.0.insert_full(k, ())?;
            Ok((i, old.is_none()))
        }
        pub fn iter(&self) -> impl Iterator<Item = &K> {
            self.0.iter().map(|e| e.0)
        }
        pub fn as_slice(&self) -> &[K] {
            unsafe { std::slice::from_raw_parts(self.0.entries.as_ptr() as *const K, self.0.entries.len()) }
        }
        pub fn pop(&mut self) -> Option<K> {
            self.0.pop().map(|x| x.0)
        }
        pub fn clear(&mut self) {
            self.0.clear()
        }
    }
}
pub mod circular_buffer {
    use super::*;
    pub struct HeapCircularBuffer<T> {
        most: usize,
        items: std::collections::VecDeque<T>,
    }
    impl<T> HeapCircularBuffer<T> {
        pub fn with_capacity(_: Global, most: usize) -> Result<Self, AllocError> {
            Ok(HeapCircularBuffer { most, items: Default::default() })
        }
        pub fn push_back(&mut self, x: T) {
            if self.items.len() == self.most {
                self.items.pop_front();
            }
            self.items.push_back(x);
        }
        pub fn push_front(&mut self, x: T) {
            if self.items.len() == self.most {
                self.items.pop_back();
            }
            self.items.push_front(x);
        }
        pub fn pop_back(&mut self) -> Option<T> {
            self.items.pop_back()
        }
        pub fn pop_front(&mut self) -> Option<T> {
            self.items.pop_front()
        }
        pub fn clear(&mut self) {
            self.items.clear()
        }
    }
}
pub mod slab {
    use super::*;
    #[derive(Clone, Debug)]
    pub struct Slab<T> {
        entries: std::vec::Vec<Entry<T>>,
        next: usize,
        len: usize,
    }
    #[derive(Clone, Debug)]
    enum Entry<T> {
        Vacant(usize),
        Full(T),
    }
    impl<T> Slab<T> {
        pub fn new(_: Global) -> Self {
            Slab {
                entries: Default::default(),
                next: 0,
                len: 0,
            }
        }
        pub fn reserve(&mut self, n: usize) -> Result<(), AllocError> {
            self.entries.reserve((n + self.len).saturating_sub(self.entries.len()));
            Ok(())
        }
        pub fn get(&self, k: usize) -> Option<&T> {
            match self.entries.get(k) {
                Some(Entry::Full(x)) => Some(x),
                _ => None,
            }
        }
        pub fn get_mut(&mut self, k: usize) -> Option<&mut T> {
            match self.entries.get_mut(k) {
                Some(Entry::Full(x)) => Some(x),
                _ => None,
            }
        }
        pub fn insert_reserved(&mut self, x: T) -> usize {
            let k = self.next;
            self.len += 1;
            if k == self.entries.len() {
                self.entries.push(Entry::Full(x));
                self.next = k + 1;
            } else {
                match std::mem::replace(&mut self.entries[k], Entry::Full(x)) {
                    Entry::Vacant(n) => self.next = n,
                    _ => unreachable!(),
                }
            }
            k
        }
        pub fn insert(&mut self, x: T) -> Result<usize, AllocError> {
            Ok(self.insert_reserved(x))
        }
        pub fn remove(&mut self, k: usize) -> T {
            match std::mem::replace(&mut self.entries[k], Entry::Vacant(self.next)) {
                Entry::Full(x) => {
                    self.next = k;
                    self.len -= 1;
                    x
                }
                _ => unreachable!(),
            }
        }
        pub fn len(&self) -> usize {
            self.len
        }
    }
}
pub mod smallvec {
    use super::*;
    #[derive(Clone, Debug, PartialEq, Eq, Hash)]
    pub struct SmallVec<T, const N: usize>(std::vec::Vec<T>);
    impl<T, const N: usize> SmallVec<T, N> {
        pub fn new(_: Global) -> Self {
            SmallVec(Default::default())
        }
        pub fn push(&mut self, x: T) -> Result<(), AllocFailed<T>> {
            self.0.push(x);
            Ok(())
        }
        pub fn len(&self) -> usize {
            self.0.len()
        }
        pub fn is_empty(&self) -> bool {
            self.0.is_empty()
        }
        pub fn as_slice(&self) -> &[T] {
            &self.0
        }
        pub fn get(&self, i: usize) -> Option<&T> {
            self.0.get(i)
        }
    }
}
pub mod memchr {
    pub fn memchr(b: u8, s: &[u8]) -> Option<usize> {
        s.iter().position(|x| *x == b)
    }
}
pub mod itoa {
    pub struct Buffer(std::string::String);
    impl Buffer {
        pub fn new() -> Self {
            Buffer(Default::default())
        }
        pub fn format<T: std::fmt::Display>(&mut self, x: T) -> &str {
            self.0 = format!("{x}");
            &self.0
        }
    }
}
pub mod hex {
    use super::*;
    pub enum FromHexError {
        OutOfMemory,
        InvalidHexCharacter { c: char, index: usize },
        OddLength,
        InvalidStringLength,
    }
    pub fn decode(_: Global, s: &str) -> Result<Vec<u8>, FromHexError> {
        let b = s.as_bytes();
        if b.len() % 2 == 1 {
            return Err(FromHexError::OddLength);
        }
        let d = |c: u8| (c as char).to_digit(16).map(|x| x as u8);
        let mut v = std::vec::Vec::new();
        for p in b.chunks(2) {
            match (d(p[0]), d(p[1])) {
                (Some(x), Some(y)) => v.push(x * 16 + y),
                _ => return Err(FromHexError::OddLength),
            }
        }
        Ok(Vec(v))
    }
}
pub mod base64 {
    use super::*;
    pub enum DecodeAllocError {
        DecodeError(()),
        OutOfMemory,
    }
    pub mod engine {
        pub mod general_purpose {
            use super::super::*;
            pub struct Standard;
            pub const STANDARD: Standard = Standard;
            impl Standard {
                pub fn decode(&self, _: Global, s: &[u8]) -> Result<Vec<u8>, DecodeAllocError> {
                    if s.len() % 4 != 0 {
                        return Err(DecodeAllocError::DecodeError(()));
                    }
                    let t = b"ABCDEFGHIJKLMNOPQRSTUVWXYZabcdefghijklmnopqrstuvwxyz0123456789+/";
                    let mut v = std::vec::Vec::new();
                    let n = s.len() / 4;
                    for (i, q) in s.chunks(4).enumerate() {
                        let pad = q.iter().rev().take_while(|c| **c == b'=').count();
                        if pad > 2 || pad > 0 && i + 1 != n {
                            return Err(DecodeAllocError::DecodeError(()));
                        }
                        let mut x = 0u32;
                        for (j, c) in q.iter().enumerate() {
                            x = x * 64
                                + if j >= 4 - pad {
                                    0
                                } else {
                                    match t.iter().position(|y| y == c) {
                                        Some(p) => p as u32,
                                        None => return Err(DecodeAllocError::DecodeError(())),
                                    }
                                };
                        }
                        if pad == 1 && x & 0xff != 0 || pad == 2 && x & 0xffff != 0 {
                            return Err(DecodeAllocError::DecodeError(()));
                        }
                        let b = x.to_be_bytes();
                        v.extend_from_slice(&b[1..4 - pad]);
                    }
                    Ok(Vec(v))
                }
            }
        }
    }
}
pub mod jiff_core {
    pub mod civil {
        pub fn is_leap_year(y: i16) -> bool {
            y % 4 == 0 && (y % 100 != 0 || y % 400 == 0)
        }
        pub struct Date {
            pub year: i16,
            pub month: u8,
            pub day: u8,
        }
        impl Date {
            pub fn to_unix_epoch_day(&self) -> i32 {
                let y = self.year as i64 - (self.month <= 2) as i64;
                let era = y.div_euclid(400);
                let yoe = y - era * 400;
                let m = self.month as i64;
                let doy = (153 * (if m > 2 { m - 3 } else { m + 9 }) + 2) / 5 + self.day as i64 - 1;
                let doe = yoe * 365 + yoe / 4 - yoe / 100 + doy;
                (era * 146097 + doe - 719468) as i32
            }
        }
    }
}
pub mod clap {
    use super::*;
    pub mod error {
        #[derive(Clone, Copy, Debug, PartialEq, Eq)]
        pub enum ErrorKind {
            OutOfMemory,
            UnknownArgument,
        }
    }
    #[derive(Debug)]
    pub struct Error(error::ErrorKind);
    impl Error {
        pub fn kind(&self) -> error::ErrorKind {
            self.0
        }
    }
    impl From<AllocError> for Error {
        fn from(_: AllocError) -> Self {
            Error(error::ErrorKind::OutOfMemory)
        }
    }
    pub struct Arg<'a> {
        name: &'a str,
        long: Option<&'a str>,
        required: bool,
    }
    impl<'a> Arg<'a> {
        pub fn new(_: Global, name: &'a str) -> Self {
            Arg {
                name,
                long: None,
                required: false,
            }
        }
        pub fn required(self, required: bool) -> Self {
            Arg { required, ..self }
        }
        pub fn long(self, long: &'a str) -> Self {
            Arg { long: Some(long), ..self }
        }
    }
    pub struct Command<'a>(std::vec::Vec<Arg<'a>>);
    impl<'a> Command<'a> {
        pub fn new(_: Global, _: &'a str) -> Self {
            Command(Default::default())
        }
        pub fn no_binary_name(self, _: bool) -> Self {
            self
        }
        pub fn disable_help_flag(self, _: bool) -> Self {
            self
        }
        pub fn disable_version_flag(self, _: bool) -> Self {
            self
        }
        pub fn arg(mut self, arg: Arg<'a>) -> Result<Self, AllocError> {
            self.0.push(arg);
            Ok(self)
        }
        pub fn try_get_matches_from(self, words: &'a [&'a str]) -> Result<ArgMatches<'a>, Error> {
            let (unknown, mut found) = (|| Error(error::ErrorKind::UnknownArgument), std::vec::Vec::new());
            let mut places = self.0.iter().filter(|it| it.long.is_none());
            let mut words = words.iter().copied();
            while let Some(word) = words.next() {
                let Some(option) = word.strip_prefix("--") else {
                    found.push((places.next().ok_or_else(unknown)?.name, word));
                    continue;
                };
                let (long, value) = option.split_once('=').map_or((option, None), |(long, value)| (long, Some(value)));
                let arg = self.0.iter().find(|it| it.long == Some(long)).ok_or_else(unknown)?;
                if found.iter().any(|it| it.0 == arg.name) {
                    return Err(unknown());
                }
                found.push((arg.name, value.or_else(|| words.next()).ok_or_else(unknown)?));
            }
            match self
                .0
                .iter()
                .all(|it| !it.required || found.iter().any(|(name, _)| *name == it.name))
            {
                true => Ok(ArgMatches(found)),
                false => Err(unknown()),
            }
        }
    }
    pub struct ArgMatches<'a>(std::vec::Vec<(&'a str, &'a str)>);
    impl<'a> ArgMatches<'a> {
        pub fn get_str(&self, name: &str) -> Option<&'a str> {
            self.0.iter().find(|it| it.0 == name).map(|it| it.1)
        }
    }
}
