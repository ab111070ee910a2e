//! As much of atomic_table as hgpart uses: words that change in atomic steps, each SeqCst.
#![allow(warnings)]
use rstd::alloc::{AllocError, Global};
use std::marker::PhantomData;
use std::sync::atomic::AtomicU64;
use std::sync::atomic::Ordering::SeqCst;

pub trait TableRule<S, V, K> {}
pub trait Play<S, V> {}
pub trait Split<V> {}
pub trait Join<V> {}

/// What a thread steps with. It has no bytes.
pub struct Seat<S, V> {
    marker: PhantomData<fn() -> (S, V)>,
}
impl<S, V> Seat<S, V> {
    fn new() -> Self {
        Seat { marker: PhantomData }
    }
}
pub struct Badge<V> {
    marker: PhantomData<fn() -> V>,
}
impl<V> Badge<V> {
    pub fn blank() -> Badge<V> {
        Badge { marker: PhantomData }
    }
    pub fn into_seat<S>(self) -> Seat<S, V> {
        Seat::new()
    }
}

pub struct Shared<S, V, K, P> {
    words: *const AtomicU64,
    marker: PhantomData<fn() -> (S, V, K, P)>,
}
unsafe impl<S, V, K, P> Send for Shared<S, V, K, P> {}
unsafe impl<S, V, K, P> Sync for Shared<S, V, K, P> {}

pub struct Table<S, V, K, P, A> {
    pub shared: Shared<S, V, K, P>,
    held: Vec<AtomicU64>,
    marker: PhantomData<fn() -> A>,
}
pub struct Closed<S, A> {
    held: Vec<AtomicU64>,
    marker: PhantomData<fn() -> (S, A)>,
}

impl<S, V, K, P: TableRule<S, V, K>, A> Table<S, V, K, P, A> {
    pub fn of_words(_alloc: A, words: &[u64], _about: &K) -> Result<(Self, Seat<S, V>), AllocError> {
        let held: Vec<AtomicU64> = words.iter().map(|w| AtomicU64::new(*w)).collect();
        let shared = Shared { words: held.as_ptr(), marker: PhantomData };
        Ok((Table { shared, held, marker: PhantomData }, Seat::new()))
    }
    pub fn word_count(&self) -> usize {
        self.held.len()
    }
    pub fn close(self) -> Closed<S, A> {
        Closed { held: self.held, marker: PhantomData }
    }
    pub fn close_with(self, _seat: Seat<S, V>) -> Closed<S, A> {
        self.close()
    }
}
impl<S, A> Closed<S, A> {
    #[inline]
    pub fn word(&self, i: usize) -> u64 {
        self.held[i].load(SeqCst)
    }
    pub fn free(self) {}
}

impl<S, V, K, P: TableRule<S, V, K>> Shared<S, V, K, P> {
    #[inline(always)]
    fn at(&self, word: usize) -> &AtomicU64 {
        unsafe { &*self.words.add(word) }
    }
    #[inline(always)]
    pub fn peek(&self, word: usize) -> u64 {
        self.at(word).load(SeqCst)
    }
    #[inline(always)]
    pub fn load<M: Play<S, V>>(&self, _seat: &mut Seat<S, V>, word: usize) -> u64 {
        self.at(word).load(SeqCst)
    }
    #[inline(always)]
    pub fn store<M: Play<S, V>>(&self, _seat: &mut Seat<S, V>, word: usize, new: u64) {
        self.at(word).store(new, SeqCst)
    }
    #[inline(always)]
    pub fn swap<M: Play<S, V>>(&self, _seat: &mut Seat<S, V>, word: usize, new: u64) -> u64 {
        self.at(word).swap(new, SeqCst)
    }
    #[inline(always)]
    pub fn fetch_add<M: Play<S, V>>(&self, _seat: &mut Seat<S, V>, word: usize, k: u64) -> u64 {
        self.at(word).fetch_add(k, SeqCst)
    }
    #[inline(always)]
    pub fn fetch_sub<M: Play<S, V>>(&self, _seat: &mut Seat<S, V>, word: usize, k: u64) -> u64 {
        self.at(word).fetch_sub(k, SeqCst)
    }
    #[inline(always)]
    pub fn fetch_and<M: Play<S, V>>(&self, _seat: &mut Seat<S, V>, word: usize, k: u64) -> u64 {
        self.at(word).fetch_and(k, SeqCst)
    }
    #[inline(always)]
    pub fn fetch_or<M: Play<S, V>>(&self, _seat: &mut Seat<S, V>, word: usize, k: u64) -> u64 {
        self.at(word).fetch_or(k, SeqCst)
    }
    #[inline(always)]
    pub fn fetch_xor<M: Play<S, V>>(&self, _seat: &mut Seat<S, V>, word: usize, k: u64) -> u64 {
        self.at(word).fetch_xor(k, SeqCst)
    }
    #[inline(always)]
    pub fn fetch_max<M: Play<S, V>>(&self, _seat: &mut Seat<S, V>, word: usize, k: u64) -> u64 {
        self.at(word).fetch_max(k, SeqCst)
    }
    #[inline(always)]
    pub fn fetch_min<M: Play<S, V>>(&self, _seat: &mut Seat<S, V>, word: usize, k: u64) -> u64 {
        self.at(word).fetch_min(k, SeqCst)
    }
    /// The word as it was, which has become `new` if it was `old`.
    #[inline(always)]
    pub fn compare_exchange<M: Play<S, V>>(&self, _seat: &mut Seat<S, V>, word: usize, old: u64, new: u64) -> u64 {
        match self.at(word).compare_exchange(old, new, SeqCst, SeqCst) {
            Ok(n) => n,
            Err(n) => n,
        }
    }
    #[inline(always)]
    pub fn split_seat<M: Split<V>>(&self, _seat: &mut Seat<S, V>) -> Seat<S, V> {
        Seat::new()
    }
    #[inline(always)]
    pub fn join_seat<M: Join<V>>(&self, _seat: &mut Seat<S, V>, _other: Seat<S, V>) {}
}
