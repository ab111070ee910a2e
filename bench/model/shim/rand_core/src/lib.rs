//! rand_core, as much of it as hgpart uses.
pub mod utils {
    pub trait NextWord<W> {
        fn next_word(&mut self) -> W;
    }
}
