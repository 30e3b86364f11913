//! Stand-in for the crate `smallvec`: as many items as the array has without memory of their own, more in a `Vec`.
//! Only what canboat's files use, for items that are plain data.
use std::ops::{Deref, DerefMut};

pub trait Array: Copy {
    type Item: Copy;
    const SIZE: usize;
    fn blank() -> Self;
    fn items(&self) -> &[Self::Item];
    fn items_mut(&mut self) -> &mut [Self::Item];
}

impl<T: Copy + Default, const N: usize> Array for [T; N] {
    type Item = T;
    const SIZE: usize = N;
    fn blank() -> Self {
        [T::default(); N]
    }
    fn items(&self) -> &[T] {
        self
    }
    fn items_mut(&mut self) -> &mut [T] {
        self
    }
}

#[derive(Clone)]
pub enum SmallVec<A: Array> {
    Here(usize, A),
    There(Vec<A::Item>),
}

impl<A: Array> SmallVec<A> {
    pub fn new() -> Self {
        Self::Here(0, A::blank())
    }
    pub fn with_capacity(n: usize) -> Self {
        if n <= A::SIZE { Self::new() } else { Self::There(Vec::with_capacity(n)) }
    }
    pub fn truncate(&mut self, n: usize) {
        match self {
            Self::Here(len, _) => *len = n.min(*len),
            Self::There(v) => v.truncate(n),
        }
    }
    pub fn push(&mut self, x: A::Item) {
        match self {
            Self::Here(len, items) if *len < A::SIZE => {
                items.items_mut()[*len] = x;
                *len += 1;
            }
            Self::Here(..) => {
                let mut v = self.to_vec();
                v.push(x);
                *self = Self::There(v);
            }
            Self::There(v) => v.push(x),
        }
    }
    pub fn from_slice(s: &[A::Item]) -> Self {
        s.iter().copied().collect()
    }
    pub fn extend_from_slice(&mut self, s: &[A::Item]) {
        for x in s {
            self.push(*x);
        }
    }
}

impl<A: Array> Default for SmallVec<A> {
    fn default() -> Self {
        Self::new()
    }
}

impl<A: Array> Deref for SmallVec<A> {
    type Target = [A::Item];
    fn deref(&self) -> &[A::Item] {
        match self {
            Self::Here(len, items) => &items.items()[..*len],
            Self::There(v) => v,
        }
    }
}

impl<A: Array> DerefMut for SmallVec<A> {
    fn deref_mut(&mut self) -> &mut [A::Item] {
        match self {
            Self::Here(len, items) => &mut items.items_mut()[..*len],
            Self::There(v) => v,
        }
    }
}

impl<A: Array> FromIterator<A::Item> for SmallVec<A> {
    fn from_iter<I: IntoIterator<Item = A::Item>>(i: I) -> Self {
        let mut i = i.into_iter();
        if A::SIZE < i.size_hint().0 {
            return Self::There(i.collect());
        }
        let (mut len, mut items) = (0, A::blank());
        for (place, x) in items.items_mut().iter_mut().zip(&mut i) {
            *place = x;
            len += 1;
        }
        let mut v = Self::Here(len, items);
        i.for_each(|x| v.push(x));
        v
    }
}

impl<A: Array> PartialEq for SmallVec<A>
where
    A::Item: PartialEq,
{
    fn eq(&self, o: &Self) -> bool {
        **self == **o
    }
}

impl<A: Array> Eq for SmallVec<A> where A::Item: Eq {}

impl<A: Array> std::fmt::Debug for SmallVec<A>
where
    A::Item: std::fmt::Debug,
{
    fn fmt(&self, f: &mut std::fmt::Formatter<'_>) -> std::fmt::Result {
        (**self).fmt(f)
    }
}
