//! A lent buffer with numbers before and behind it that no call may touch.

const GUARD: usize = 64;

pub trait Guard: Copy + PartialEq {
    fn guard(place: usize) -> Self;
}

impl Guard for i64 {
    fn guard(place: usize) -> Self {
        (place as i64 + 1).wrapping_mul(0x6A09_E667_F3BC_C909)
    }
}

impl Guard for u8 {
    fn guard(place: usize) -> Self {
        (place as u8).wrapping_mul(37).wrapping_add(11)
    }
}

/// Guard, content, guard; kept from one trial to the next.
pub struct Guarded<T> {
    all: Vec<T>,
    length: usize,
}

impl<T> Default for Guarded<T> {
    fn default() -> Self {
        Self { all: Vec::new(), length: 0 }
    }
}

impl<T: Guard> Guarded<T> {
    pub fn put(&mut self, content: &[T]) {
        self.length = content.len();
        self.all.clear();
        self.all.extend((0..GUARD).map(T::guard));
        self.all.extend_from_slice(content);
        self.all.extend((GUARD..2 * GUARD).map(T::guard));
    }

    /// None, for a null pointer, where that is wanted and the content is empty.
    pub fn lend(&mut self, null: bool) -> Option<&mut [T]> {
        (!null || self.length > 0).then(|| &mut self.all[GUARD..GUARD + self.length])
    }

    pub fn show(&self, null: bool) -> Option<&[T]> {
        (!null || self.length > 0).then(|| self.content())
    }

    pub fn content(&self) -> &[T] {
        &self.all[GUARD..GUARD + self.length]
    }

    pub fn is_intact(&self) -> bool {
        let behind = &self.all[GUARD + self.length..];
        let same = |(place, held): (usize, &T)| *held == T::guard(place);
        self.all[..GUARD].iter().enumerate().all(same)
            && behind.iter().enumerate().all(|(place, held)| *held == T::guard(GUARD + place))
    }
}
