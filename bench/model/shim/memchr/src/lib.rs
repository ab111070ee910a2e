//! The first place of a byte.
extern "C" {
    #[link_name = "memchr"]
    fn c_memchr(s: *const u8, c: i32, n: usize) -> *const u8;
}
#[inline]
pub fn memchr(byte: u8, text: &[u8]) -> Option<usize> {
    unsafe {
        let p = c_memchr(text.as_ptr(), byte as i32, text.len());
        if p.is_null() {
            None
        } else {
            Some(p as usize - text.as_ptr() as usize)
        }
    }
}
