//! Integers to decimal text.
static PAIRS: [u8; 200] =
    *b"00010203040506070809101112131415161718192021222324252627282930313233343536373839404142434445464748495051525354555657585960616263646566676869707172737475767778798081828384858687888990919293949596979899";

pub struct Buffer {
    bytes: [u8; 40],
}
pub trait Integer: std::fmt::Display + Copy {}
impl Integer for u8 {}
impl Integer for u16 {}
impl Integer for u32 {}
impl Integer for u64 {}
impl Integer for u128 {}
impl Integer for usize {}
impl Integer for i8 {}
impl Integer for i16 {}
impl Integer for i32 {}
impl Integer for i64 {}
impl Integer for i128 {}
impl Integer for isize {}
impl Buffer {
    #[inline]
    pub fn new() -> Buffer {
        Buffer { bytes: [0; 40] }
    }
    pub fn format<I: Integer>(&mut self, n: I) -> &str {
        use std::io::Write;
        let mut rest: &mut [u8] = &mut self.bytes;
        let _ = write!(rest, "{}", n);
        let left = rest.len();
        std::str::from_utf8(&self.bytes[..40 - left]).unwrap()
    }
}
#[inline(always)]
fn write_pair(pair: u64, buf: &mut [u8], at: usize) {
    let from = pair as usize * 2;
    buf[at] = PAIRS[from];
    buf[at + 1] = PAIRS[from + 1];
}
#[inline]
pub fn write_digits(n: u64, buf: &mut [u8], end: usize) -> usize {
    let mut left = n;
    let mut at = end;
    while left >= 10_000 {
        let four = left % 10_000;
        left /= 10_000;
        write_pair(four % 100, buf, at - 2);
        write_pair(four / 100, buf, at - 4);
        at -= 4;
    }
    if left < 100 {
        return write_first(left, buf, at);
    }
    write_pair(left % 100, buf, at - 2);
    write_first(left / 100, buf, at - 2)
}
#[inline(always)]
fn write_first(n: u64, buf: &mut [u8], end: usize) -> usize {
    if n < 10 {
        buf[end - 1] = b'0' + n as u8;
        return end - 1;
    }
    write_pair(n, buf, end - 2);
    end - 2
}
