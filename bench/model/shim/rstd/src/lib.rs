//! What stands for Rattle's std in the unproved model.
#![allow(warnings)]

pub mod alloc {
    /// The allocator.
    #[derive(Clone, Copy, Debug, PartialEq, Eq, Default)]
    pub struct Global;
    #[derive(Clone, Copy, Debug, PartialEq, Eq)]
    pub struct AllocError;
    #[derive(Clone, Copy, Debug, PartialEq, Eq)]
    pub struct AllocFailed<T>(pub T);
    impl<T> From<AllocFailed<T>> for AllocError {
        #[inline]
        fn from(_: AllocFailed<T>) -> AllocError {
            AllocError
        }
    }
    pub trait Allocator: Copy {}
    impl Allocator for Global {}
}

pub mod snapshot {
    pub struct Snapshot<T: ?Sized>(std::marker::PhantomData<fn() -> T>);
    impl<T: ?Sized> Clone for Snapshot<T> {
        fn clone(&self) -> Self {
            *self
        }
    }
    impl<T: ?Sized> Copy for Snapshot<T> {}
    impl<T: ?Sized> std::fmt::Debug for Snapshot<T> {
        fn fmt(&self, f: &mut std::fmt::Formatter<'_>) -> std::fmt::Result {
            f.write_str("Snapshot")
        }
    }
    impl<T: ?Sized> Snapshot<T> {
        #[inline(always)]
        pub fn of(_: &T) -> Snapshot<T> {
            Snapshot(std::marker::PhantomData)
        }
    }
}

pub mod marker {
    pub use std::marker::*;
    pub struct Brand;
    /// Only ghost impls are of it.
    pub trait Model {}
    pub trait Owns {}
}

pub mod cmp {
    pub use std::cmp::*;
}
pub mod convert {
    pub use std::convert::*;
}
pub mod fmt {
    pub use std::fmt::*;
}
pub mod mem {
    pub use std::mem::*;
}
pub mod ops {
    pub use std::ops::*;
}
pub mod iter {
    pub use std::iter::*;
}
pub mod slice {
    pub use std::slice::*;
}
pub mod str {
    pub use std::str::*;
}
pub mod num {
    pub use std::num::*;
}
pub mod time {
    pub use std::time::Duration;
    #[derive(Clone, Copy)]
    pub struct Instant(std::time::Instant);
    impl Instant {
        pub fn now<C: crate::rt::Clock>(_: &C) -> std::io::Result<Instant> {
            Ok(Instant(std::time::Instant::now()))
        }
        pub fn elapsed<C: crate::rt::Clock>(&self, _: &C) -> std::io::Result<Duration> {
            Ok(self.0.elapsed())
        }
    }
}
pub mod hint {
    pub use std::hint::*;
}
pub mod vec {
    pub use crate::Vec;
}
pub mod string {
    pub use crate::String;
}
pub mod option {
    pub use std::option::*;
}
pub mod result {
    pub use std::result::*;
}
pub mod sync {
    pub use std::sync::*;
}
pub mod cell {
    pub use std::cell::*;
}

pub mod runtime {
    #[derive(Clone, Copy, Debug)]
    pub struct HostRuntime;
    impl HostRuntime {
        pub fn alloc(&self) -> crate::alloc::Global {
            crate::alloc::Global
        }
        pub fn stdin(&self) -> std::io::Stdin {
            std::io::stdin()
        }
        pub fn stdout(&self) -> std::io::Stdout {
            std::io::stdout()
        }
        pub fn stderr(&self) -> std::io::Stderr {
            std::io::stderr()
        }
    }
}

pub mod rt {
    pub trait Clock {}
    impl Clock for crate::runtime::HostRuntime {}
    pub trait Files {
        type File: std::io::Read + std::io::Write;
        fn r_open(&self, name: &str) -> std::io::Result<Self::File>;
        fn r_create(&self, name: &str) -> std::io::Result<Self::File>;
    }
    impl Files for crate::runtime::HostRuntime {
        type File = crate::fs::File;
        fn r_open(&self, name: &str) -> std::io::Result<Self::File> {
            std::fs::File::open(name).map(crate::fs::File)
        }
        fn r_create(&self, name: &str) -> std::io::Result<Self::File> {
            std::fs::File::create(name).map(crate::fs::File)
        }
    }
}

pub mod fs {
    #[derive(Debug)]
    pub struct File(pub std::fs::File);
    impl File {
        pub fn open<H: crate::rt::Files>(rt: &H, name: &str) -> std::io::Result<H::File> {
            rt.r_open(name)
        }
        pub fn create<H: crate::rt::Files>(rt: &H, name: &str) -> std::io::Result<H::File> {
            rt.r_create(name)
        }
    }
    impl std::io::Read for File {
        fn read(&mut self, buf: &mut [u8]) -> std::io::Result<usize> {
            self.0.read(buf)
        }
    }
    impl std::io::Write for File {
        fn write(&mut self, buf: &[u8]) -> std::io::Result<usize> {
            self.0.write(buf)
        }
        fn flush(&mut self) -> std::io::Result<()> {
            self.0.flush()
        }
    }
}

pub mod io {
    pub use std::io::*;
}

pub mod env {
    pub fn args(_rt: &crate::runtime::HostRuntime) -> std::io::Result<std::vec::IntoIter<crate::String>> {
        let mut words = std::vec::Vec::new();
        for word in std::env::args_os() {
            match word.into_string() {
                Ok(word) => words.push(crate::String(word)),
                Err(_) => return Err(std::io::Error::from(std::io::ErrorKind::InvalidInput)),
            }
        }
        Ok(words.into_iter())
    }
}

pub mod process {
    pub use std::process::*;
    pub trait Abort {}
    impl Abort for crate::runtime::HostRuntime {}
}

pub mod thread;

pub mod collections {
    use crate::alloc::{AllocError, AllocFailed, Global};

    /// Rust's, whose allocation is told of in a Result.
    pub struct BinaryHeap<T>(std::collections::BinaryHeap<T>);
    impl<T: Ord> BinaryHeap<T> {
        pub fn new(_alloc: Global) -> Self {
            BinaryHeap(std::collections::BinaryHeap::new())
        }
        #[inline]
        pub fn push(&mut self, item: T) -> Result<(), AllocFailed<T>> {
            self.0.push(item);
            Ok(())
        }
        #[inline]
        pub fn pop(&mut self) -> Option<T> {
            self.0.pop()
        }
        #[inline]
        pub fn peek(&self) -> Option<&T> {
            self.0.peek()
        }
        #[inline]
        pub fn clear(&mut self) {
            self.0.clear()
        }
        #[inline]
        pub fn len(&self) -> usize {
            self.0.len()
        }
        #[inline]
        pub fn is_empty(&self) -> bool {
            self.0.is_empty()
        }
    }

    #[derive(Debug)]
    pub struct BTreeSet<T>(std::collections::BTreeSet<T>);
    impl<T: Ord + Copy> BTreeSet<T> {
        pub fn new(_alloc: Global) -> Self {
            BTreeSet(std::collections::BTreeSet::new())
        }
        pub fn insert(&mut self, item: T) -> Result<bool, AllocFailed<T>> {
            Ok(self.0.insert(item))
        }
        pub fn remove(&mut self, item: &T) -> bool {
            self.0.remove(item)
        }
        pub fn contains(&self, item: &T) -> bool {
            self.0.contains(item)
        }
        pub fn len(&self) -> usize {
            self.0.len()
        }
        pub fn is_empty(&self) -> bool {
            self.0.is_empty()
        }
        pub fn iter(&self) -> std::collections::btree_set::Iter<'_, T> {
            self.0.iter()
        }
        pub fn r_clone(&self) -> Result<Self, AllocError> {
            Ok(BTreeSet(self.0.clone()))
        }
    }
    impl<'a, T> IntoIterator for &'a BTreeSet<T> {
        type Item = &'a T;
        type IntoIter = std::collections::btree_set::Iter<'a, T>;
        fn into_iter(self) -> Self::IntoIter {
            self.0.iter()
        }
    }
    pub use std::collections::LinkedList;

    #[derive(Debug)]
    pub struct VecDeque<T>(std::collections::VecDeque<T>);
    impl<T> VecDeque<T> {
        pub fn new(_alloc: Global) -> Self {
            VecDeque(std::collections::VecDeque::new())
        }
        pub fn with_capacity(_alloc: Global, n: usize) -> Result<Self, AllocError> {
            Ok(VecDeque(std::collections::VecDeque::with_capacity(n)))
        }
        #[inline]
        pub fn push_back(&mut self, item: T) -> Result<(), AllocFailed<T>> {
            self.0.push_back(item);
            Ok(())
        }
        #[inline]
        pub fn push_front(&mut self, item: T) -> Result<(), AllocFailed<T>> {
            self.0.push_front(item);
            Ok(())
        }
    }
    impl<T> std::ops::Deref for VecDeque<T> {
        type Target = std::collections::VecDeque<T>;
        fn deref(&self) -> &Self::Target {
            &self.0
        }
    }
    impl<T> std::ops::DerefMut for VecDeque<T> {
        fn deref_mut(&mut self) -> &mut Self::Target {
            &mut self.0
        }
    }
}

use alloc::{AllocError, AllocFailed, Global};
use std::ops::{Deref, DerefMut};

/// A list. Its own methods are those that differ from Rust's.
#[derive(Debug, PartialEq, Eq, PartialOrd, Ord, Hash, Default)]
pub struct Vec<T>(pub std::vec::Vec<T>);

static GLOBAL: Global = Global;

impl<T> Deref for Vec<T> {
    type Target = [T];
    #[inline(always)]
    fn deref(&self) -> &[T] {
        &self.0
    }
}

impl<T> DerefMut for Vec<T> {
    #[inline(always)]
    fn deref_mut(&mut self) -> &mut [T] {
        &mut self.0
    }
}

impl<T> Vec<T> {
    #[inline]
    pub fn new(_alloc: Global) -> Self {
        Vec(std::vec::Vec::new())
    }
    #[inline]
    pub fn with_capacity(_alloc: Global, n: usize) -> Result<Self, AllocError> {
        let items = std::vec::Vec::with_capacity(n);
        // Room that nothing is put into is taken all the same, as the toolchain does.
        std::hint::black_box(items.as_ptr());
        Ok(Vec(items))
    }
    #[inline]
    pub fn allocator(&self) -> &Global {
        &GLOBAL
    }
    #[inline]
    pub fn push(&mut self, item: T) -> Result<(), AllocFailed<T>> {
        self.0.push(item);
        Ok(())
    }
    #[inline]
    pub fn pop(&mut self) -> Option<T> {
        self.0.pop()
    }
    #[inline]
    pub fn insert(&mut self, at: usize, item: T) -> Result<(), AllocFailed<T>> {
        self.0.insert(at, item);
        Ok(())
    }
    #[inline]
    pub fn remove(&mut self, at: usize) -> T {
        self.0.remove(at)
    }
    #[inline]
    pub fn swap_remove(&mut self, at: usize) -> T {
        self.0.swap_remove(at)
    }
    #[inline]
    pub fn reserve(&mut self, n: usize) -> Result<(), AllocError> {
        self.0.reserve(n);
        Ok(())
    }
    #[inline]
    pub fn reserve_exact(&mut self, n: usize) -> Result<(), AllocError> {
        self.0.reserve_exact(n);
        Ok(())
    }
    #[inline]
    pub fn truncate(&mut self, n: usize) {
        self.0.truncate(n)
    }
    #[inline]
    pub fn clear(&mut self) {
        self.0.clear()
    }
    #[inline]
    pub fn capacity(&self) -> usize {
        self.0.capacity()
    }
    #[inline]
    pub fn append(&mut self, other: &mut Vec<T>) -> Result<(), AllocError> {
        self.0.append(&mut other.0);
        Ok(())
    }
    #[inline]
    pub fn split_off(&mut self, at: usize) -> Result<Vec<T>, AllocError> {
        Ok(Vec(self.0.split_off(at)))
    }
    #[inline]
    pub fn drain<R: std::ops::RangeBounds<usize>>(&mut self, r: R) -> std::vec::Drain<'_, T> {
        self.0.drain(r)
    }
    #[inline]
    pub fn retain<F: FnMut(&T) -> bool>(&mut self, f: F) {
        self.0.retain(f)
    }
    #[inline(always)]
    pub fn as_slice(&self) -> &[T] {
        &self.0
    }
    #[inline(always)]
    pub fn as_mut_slice(&mut self) -> &mut [T] {
        &mut self.0
    }
    #[inline(always)]
    pub fn len(&self) -> usize {
        self.0.len()
    }
}

impl<T: PartialEq> Vec<T> {
    #[inline]
    pub fn dedup(&mut self) {
        self.0.dedup()
    }
}

impl<T: Clone> Vec<T> {
    #[inline]
    pub fn resize(&mut self, n: usize, item: T) -> Result<(), AllocError> {
        self.0.resize(n, item);
        Ok(())
    }
    #[inline]
    pub fn extend_from_slice(&mut self, items: &[T]) -> Result<(), AllocError> {
        self.0.extend_from_slice(items);
        Ok(())
    }
    #[inline]
    pub fn from_slice(_alloc: Global, items: &[T]) -> Result<Vec<T>, AllocError> {
        Ok(Vec(items.to_vec()))
    }
    #[inline]
    pub fn r_clone(&self) -> Result<Vec<T>, AllocError> {
        Ok(Vec(self.0.clone()))
    }
}

impl<T> Vec<T> {
    #[inline]
    pub fn extend<I: IntoIterator<Item = T>>(&mut self, items: I) -> Result<(), AllocError> {
        self.0.extend(items);
        Ok(())
    }
}

impl<T> IntoIterator for Vec<T> {
    type Item = T;
    type IntoIter = std::vec::IntoIter<T>;
    fn into_iter(self) -> Self::IntoIter {
        self.0.into_iter()
    }
}
impl<'a, T> IntoIterator for &'a Vec<T> {
    type Item = &'a T;
    type IntoIter = std::slice::Iter<'a, T>;
    fn into_iter(self) -> Self::IntoIter {
        self.0.iter()
    }
}
impl<'a, T> IntoIterator for &'a mut Vec<T> {
    type Item = &'a mut T;
    type IntoIter = std::slice::IterMut<'a, T>;
    fn into_iter(self) -> Self::IntoIter {
        self.0.iter_mut()
    }
}

#[derive(Debug, PartialEq, Eq, PartialOrd, Ord, Hash, Default)]
pub struct String(pub std::string::String);
impl Deref for String {
    type Target = str;
    fn deref(&self) -> &str {
        &self.0
    }
}
impl String {
    pub fn new(_alloc: Global) -> String {
        String(std::string::String::new())
    }
    pub fn from_str(_alloc: Global, text: &str) -> Result<String, AllocError> {
        Ok(String(std::string::String::from(text)))
    }
    pub fn as_str(&self) -> &str {
        &self.0
    }
    pub fn push_str(&mut self, text: &str) -> Result<(), AllocError> {
        self.0.push_str(text);
        Ok(())
    }
    pub fn push(&mut self, c: char) -> Result<(), AllocError> {
        self.0.push(c);
        Ok(())
    }
    pub fn r_clone(&self) -> Result<String, AllocError> {
        Ok(String(self.0.clone()))
    }
}
impl std::fmt::Display for String {
    fn fmt(&self, f: &mut std::fmt::Formatter<'_>) -> std::fmt::Result {
        f.write_str(&self.0)
    }
}

#[inline]
pub fn box_new<T>(_alloc: Global, item: T) -> Result<Box<T>, AllocFailed<T>> {
    Ok(Box::new(item))
}

pub trait RIterator: Iterator + Sized {
    #[inline]
    fn r_collect<C: RFromIterator<Self::Item>>(self, _alloc: Global) -> Result<C, AllocError> {
        Ok(C::r_from(self))
    }
}
impl<I: Iterator> RIterator for I {}
pub trait RFromIterator<T> {
    fn r_from<I: Iterator<Item = T>>(it: I) -> Self;
}
impl<T> RFromIterator<T> for Vec<T> {
    #[inline]
    fn r_from<I: Iterator<Item = T>>(it: I) -> Self {
        Vec(it.collect())
    }
}

pub trait RSlice<T> {
    fn r_to_vec(&self, alloc: Global) -> Result<Vec<T>, AllocError>
    where
        T: Clone;
    fn r_sort(&mut self, alloc: Global) -> Result<(), AllocError>
    where
        T: Ord;
}
impl<T> RSlice<T> for [T] {
    fn r_to_vec(&self, _alloc: Global) -> Result<Vec<T>, AllocError>
    where
        T: Clone,
    {
        Ok(Vec(self.to_vec()))
    }
    fn r_sort(&mut self, _alloc: Global) -> Result<(), AllocError>
    where
        T: Ord,
    {
        self.sort();
        Ok(())
    }
}

/// A copy of a value that Rust can clone.
pub trait RClone: Sized {
    fn r_clone(&self) -> Result<Self, AllocError>;
}
impl<T: Copy> RClone for T {
    #[inline]
    fn r_clone(&self) -> Result<Self, AllocError> {
        Ok(*self)
    }
}

#[macro_export]
macro_rules! rvec {
    ($alloc:expr; $item:expr; $n:expr) => {{
        let _ = $alloc;
        $crate::vec_of($item, $n)
    }};
    ($alloc:expr; $($item:expr),* $(,)?) => {{
        let _ = $alloc;
        $crate::vec_from([$($item),*])
    }};
}
#[inline]
pub fn vec_of<T: Clone>(item: T, n: usize) -> Result<Vec<T>, AllocError> {
    // The kit's fills item by item, so no pages that the system has cleared
    let mut v = std::vec::Vec::with_capacity(n);
    std::hint::black_box(&mut v);
    v.resize(n, item);
    Ok(Vec(v))
}
#[inline]
pub fn vec_from<T, const N: usize>(items: [T; N]) -> Result<Vec<T>, AllocError> {
    Ok(Vec(std::vec::Vec::from(items)))
}
#[macro_export]
macro_rules! rformat {
    ($alloc:expr; $($rest:tt)*) => {{
        let _ = $alloc;
        Ok::<$crate::String, $crate::alloc::AllocError>($crate::String(::std::format!($($rest)*)))
    }};
}
#[macro_export]
macro_rules! rprintln {
    ($rt:expr; $($rest:tt)*) => {{ let _ = &$rt; ::std::println!($($rest)*); Ok::<(), ::std::io::Error>(()) }};
}
#[macro_export]
macro_rules! reprintln {
    ($rt:expr; $($rest:tt)*) => {{ let _ = &$rt; ::std::eprintln!($($rest)*); Ok::<(), ::std::io::Error>(()) }};
}
#[macro_export]
macro_rules! rprint {
    ($rt:expr; $($rest:tt)*) => {{ let _ = &$rt; ::std::print!($($rest)*); Ok::<(), ::std::io::Error>(()) }};
}
#[macro_export]
macro_rules! reprint {
    ($rt:expr; $($rest:tt)*) => {{ let _ = &$rt; ::std::eprint!($($rest)*); Ok::<(), ::std::io::Error>(()) }};
}
/// Erased, as in the real thing. With the feature of rustc `--cfg checked` it is tested.
#[macro_export]
macro_rules! rprove {
    ($($rest:tt)*) => {
        ()
    };
}
#[macro_export]
macro_rules! rassert {
    ($rt:expr; $($rest:tt)*) => {{ let _ = &$rt; ::std::assert!($($rest)*) }};
}
#[macro_export]
macro_rules! rassert_eq {
    ($rt:expr; $($rest:tt)*) => {{ let _ = &$rt; ::std::assert_eq!($($rest)*) }};
}
#[macro_export]
macro_rules! rassert_ne {
    ($rt:expr; $($rest:tt)*) => {{ let _ = &$rt; ::std::assert_ne!($($rest)*) }};
}
#[macro_export]
macro_rules! rwrite {
    ($($rest:tt)*) => { ::std::write!($($rest)*) };
}
#[macro_export]
macro_rules! rwriteln {
    ($($rest:tt)*) => { ::std::writeln!($($rest)*) };
}
#[macro_export]
macro_rules! rpanic {
    ($rt:expr; $($rest:tt)*) => {{ let _ = &$rt; ::std::panic!($($rest)*) }};
}

pub mod prelude {
    pub use crate::runtime::HostRuntime;
    pub use crate::{RClone, RIterator, RSlice, String, Vec};
    pub use std::iter::Iterator;
}

/// A place or a range that is not tested. What `translate.py --unchecked` writes for indices.
pub struct Ix<I>(I);
#[inline(always)]
pub fn ix(i: usize) -> Ix<usize> {
    Ix(i)
}
#[inline(always)]
pub fn ix_range(r: std::ops::Range<usize>) -> Ix<std::ops::Range<usize>> {
    Ix(r)
}
#[inline(always)]
pub fn ix_from(r: std::ops::RangeFrom<usize>) -> Ix<std::ops::RangeFrom<usize>> {
    Ix(r)
}
#[inline(always)]
pub fn ix_to(r: std::ops::RangeTo<usize>) -> Ix<std::ops::RangeTo<usize>> {
    Ix(r)
}
macro_rules! unchecked {
    ($i:ty, $out:ty) => {
        impl<T> std::ops::Index<Ix<$i>> for [T] {
            type Output = $out;
            #[inline(always)]
            fn index(&self, i: Ix<$i>) -> &$out {
                unsafe { self.get_unchecked(i.0) }
            }
        }
        impl<T> std::ops::IndexMut<Ix<$i>> for [T] {
            #[inline(always)]
            fn index_mut(&mut self, i: Ix<$i>) -> &mut $out {
                unsafe { self.get_unchecked_mut(i.0) }
            }
        }
    };
}
unchecked!(usize, T);
unchecked!(std::ops::Range<usize>, [T]);
unchecked!(std::ops::RangeFrom<usize>, [T]);
unchecked!(std::ops::RangeTo<usize>, [T]);
macro_rules! unchecked_text {
    ($i:ty) => {
        impl std::ops::Index<Ix<$i>> for str {
            type Output = str;
            #[inline(always)]
            fn index(&self, i: Ix<$i>) -> &str {
                &self[i.0]
            }
        }
    };
}
unchecked_text!(std::ops::Range<usize>);
unchecked_text!(std::ops::RangeFrom<usize>);
unchecked_text!(std::ops::RangeTo<usize>);
