//! Stand-in for the original's solver/slicelike.rs, known only by use: a slice seen through a
//! trait, parts of it, and the two macros that split one into named parts from its front.

use core::ops::{Deref, DerefMut};
use num_traits::Float;

pub trait SliceLike
{
    type F: Float;

    fn new_ref(s: &[Self::F]) -> SliceRef<'_, Self>;
    fn new_mut(s: &mut [Self::F]) -> SliceMut<'_, Self>;

    /// The parts before and from `mid`; stops if `mid` is past the end.
    fn split_ref(&self, mid: usize) -> (SliceRef<'_, Self>, SliceRef<'_, Self>);
    fn split_mut(&mut self, mid: usize) -> (SliceMut<'_, Self>, SliceMut<'_, Self>);

    fn len(&self) -> usize;
    fn get_ref(&self) -> &[Self::F];
    fn get_mut(&mut self) -> &mut [Self::F];

    fn get(&self, idx: usize) -> Self::F
    {
        self.get_ref()[idx]
    }

    fn set(&mut self, idx: usize, val: Self::F)
    {
        self.get_mut()[idx] = val;
    }
}

#[derive(Debug)]
pub struct SliceRef<'a, S: SliceLike + ?Sized>
{
    s: &'a S,
}

#[derive(Debug)]
pub struct SliceMut<'a, S: SliceLike + ?Sized>
{
    s: &'a mut S,
}

impl<S: SliceLike + ?Sized> Deref for SliceRef<'_, S>
{
    type Target = S;

    fn deref(&self) -> &S
    {
        self.s
    }
}

impl<S: SliceLike + ?Sized> Deref for SliceMut<'_, S>
{
    type Target = S;

    fn deref(&self) -> &S
    {
        self.s
    }
}

impl<S: SliceLike + ?Sized> DerefMut for SliceMut<'_, S>
{
    fn deref_mut(&mut self) -> &mut S
    {
        self.s
    }
}

impl<F: Float> SliceLike for [F]
{
    type F = F;

    fn new_ref(s: &[F]) -> SliceRef<'_, [F]>
    {
        SliceRef { s }
    }

    fn new_mut(s: &mut [F]) -> SliceMut<'_, [F]>
    {
        SliceMut { s }
    }

    fn split_ref(&self, mid: usize) -> (SliceRef<'_, [F]>, SliceRef<'_, [F]>)
    {
        let (s, t) = self.split_at(mid);
        (SliceRef { s }, SliceRef { s: t })
    }

    fn split_mut(&mut self, mid: usize) -> (SliceMut<'_, [F]>, SliceMut<'_, [F]>)
    {
        let (s, t) = self.split_at_mut(mid);
        (SliceMut { s }, SliceMut { s: t })
    }

    fn len(&self) -> usize
    {
        <[F]>::len(self)
    }

    fn get_ref(&self) -> &[F]
    {
        self
    }

    fn get_mut(&mut self) -> &mut [F]
    {
        self
    }
}

/// `splitm!(s, (a; 2), (b; 3))` binds `a` to the first 2 places of `s` and `b` to the next 3.
#[macro_export]
macro_rules! splitm {
    ($s:expr, $(($part:ident; $len:expr)),+) => {
        let (_, rest) = $s.split_ref(0);
        $(
            let ($part, rest) = rest.split_ref($len);
        )+
        let _ = rest;
    };
}

/// As `splitm!`, the parts being mutable.
#[macro_export]
macro_rules! splitm_mut {
    ($s:expr, $(($part:ident; $len:expr)),+) => {
        let (_, mut rest) = $s.split_mut(0);
        $(
            #[allow(unused_mut)]
            let (mut $part, mut rest) = rest.split_mut($len);
        )+
        let _ = &mut rest;
    };
}
