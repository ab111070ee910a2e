//! Threads, which are begun anew for each call, as in the toolchain's std.
use crate::alloc::{AllocError, Global};
use crate::Vec;

pub trait Threads {}
impl Threads for crate::runtime::HostRuntime {}

/// Calls f in a new thread and g in this one.
pub fn join<R: Threads, F: FnOnce() -> A + Send, G: FnOnce() -> B, A: Send, B>(_rt: &R, f: F, g: G) -> (A, B) {
    std::thread::scope(|s| {
        let t = s.spawn(f);
        let b = g();
        match t.join() {
            Ok(a) => (a, b),
            Err(_) => std::process::abort(),
        }
    })
}

pub fn join_mut<R: Threads, F: FnMut() -> A + Send, G: FnMut() -> B, A: Send, B>(
    rt: &R,
    f: &mut F,
    g: &mut G,
) -> (A, B) {
    join(rt, || f(), || g())
}

pub fn available_parallelism<R: Threads>(_rt: &R) -> usize {
    std::thread::available_parallelism().map(|n| n.get()).unwrap_or(1)
}

pub fn map_indices<R: Threads + Sync, X: Send, F: Fn(usize) -> X + Sync>(
    rt: &R,
    alloc: Global,
    n: usize,
    f: &F,
) -> Result<Vec<X>, AllocError> {
    if n == 0 {
        return Ok(Vec::new(alloc));
    }
    Ok(calls_from(rt, 0, n, f))
}

fn calls_from<R: Threads + Sync, X: Send, F: Fn(usize) -> X + Sync>(
    rt: &R,
    from: usize,
    count: usize,
    f: &F,
) -> Vec<X> {
    if count == 1 {
        return Vec(vec![f(from)]);
    }
    let low = count / 2;
    let high = count - low;
    let (mut a, mut b) = join(
        rt,
        move || calls_from(rt, from, low, f),
        move || calls_from(rt, from + low, high, f),
    );
    a.0.append(&mut b.0);
    a
}

pub fn for_each_chunk_mut<R: Threads + Sync, T: Send, F: Fn(usize, &mut [T]) + Sync>(
    rt: &R,
    s: &mut [T],
    size: usize,
    f: &F,
) {
    if !s.is_empty() {
        let count = s.len().div_ceil(size);
        chunks_from(rt, f, 0, size, count, s);
    }
}

pub fn for_each_mut<R: Threads + Sync, T: Send, F: Fn(usize, &mut T) + Sync>(
    rt: &R,
    s: &mut [T],
    threads: usize,
    f: &F,
) {
    if s.is_empty() {
        return;
    }
    let size = s.len().div_ceil(threads);
    let part = move |start: usize, p: &mut [T]| {
        for (k, item) in p.iter_mut().enumerate() {
            f(start + k, item);
        }
    };
    for_each_chunk_mut(rt, s, size, &part);
}

fn chunks_from<R: Threads + Sync, T: Send, F: Fn(usize, &mut [T]) + Sync>(
    rt: &R,
    f: &F,
    base: usize,
    size: usize,
    count: usize,
    s: &mut [T],
) {
    if count == 1 {
        f(base, s);
        return;
    }
    let low = count / 2;
    let mid = low * size;
    let (a, b) = s.split_at_mut(mid);
    join(
        rt,
        move || chunks_from(rt, f, base, size, low, a),
        move || chunks_from(rt, f, base + mid, size, count - low, b),
    );
}
