//! Stand-in for `itertools`: `zip_eq`, which panics where one side is longer.

pub trait Itertools: Iterator {
    fn zip_eq<J: IntoIterator>(self, other: J) -> ZipEq<Self, J::IntoIter>
    where
        Self: Sized,
    {
        ZipEq { left: self, right: other.into_iter() }
    }
}

impl<I: Iterator> Itertools for I {}

pub struct ZipEq<I, J> {
    left: I,
    right: J,
}

impl<I: Iterator, J: Iterator> Iterator for ZipEq<I, J> {
    type Item = (I::Item, J::Item);

    fn next(&mut self) -> Option<Self::Item> {
        match (self.left.next(), self.right.next()) {
            (Some(a), Some(b)) => Some((a, b)),
            (None, None) => None,
            _ => panic!("zip_eq: one side is longer than the other"),
        }
    }
}
