//! The names of the crate `cipher` that the supplied source of twofish uses, written from that source, over plain arrays.
#![no_std]

use consts::{U16, U32};
use core::fmt;
use core::marker::PhantomData;

/// Numbers of bytes as types.
pub mod consts {
    pub struct U1;
    pub struct U16;
    pub struct U32;
}

/// A number of bytes, and the array of so many.
pub trait Size {
    type Bytes;
}

impl Size for U16 {
    type Bytes = [u8; 16];
}

impl Size for U32 {
    type Bytes = [u8; 32];
}

pub trait BlockSizeUser {
    type BlockSize: Size;
}

pub trait KeySizeUser {
    type KeySize: Size;
}

pub trait ParBlocksSizeUser: BlockSizeUser {
    type ParBlocksSize;
}

pub type Block<B> = <<B as BlockSizeUser>::BlockSize as Size>::Bytes;

pub type Key<K> = <<K as KeySizeUser>::KeySize as Size>::Bytes;

#[derive(Debug)]
pub struct InvalidLength;

pub trait KeyInit: KeySizeUser + Sized {
    fn new(key: &Key<Self>) -> Self;
    fn new_from_slice(key: &[u8]) -> Result<Self, InvalidLength>;
}

pub trait AlgorithmName {
    fn write_alg_name(f: &mut fmt::Formatter<'_>) -> fmt::Result;
}

/// A block that is read and written where it lies.
pub struct InOut<'inp, 'out, T> {
    block: &'out mut T,
    input: PhantomData<&'inp T>,
}

impl<'a, T> From<&'a mut T> for InOut<'a, 'a, T> {
    fn from(block: &'a mut T) -> Self {
        InOut { block, input: PhantomData }
    }
}

impl<T> InOut<'_, '_, T> {
    pub fn get_in(&self) -> &T {
        self.block
    }

    pub fn get_out(&mut self) -> &mut T {
        self.block
    }
}

pub trait BlockCipherEncBackend: ParBlocksSizeUser {
    fn encrypt_block(&self, block: InOut<'_, '_, Block<Self>>);
}

pub trait BlockCipherEncClosure: BlockSizeUser {
    fn call<B: BlockCipherEncBackend<BlockSize = Self::BlockSize>>(self, backend: &B);
}

pub trait BlockCipherEncrypt: BlockSizeUser {
    fn encrypt_with_backend(&self, f: impl BlockCipherEncClosure<BlockSize = Self::BlockSize>);
}

pub trait BlockCipherDecBackend: ParBlocksSizeUser {
    fn decrypt_block(&self, block: InOut<'_, '_, Block<Self>>);
}

pub trait BlockCipherDecClosure: BlockSizeUser {
    fn call<B: BlockCipherDecBackend<BlockSize = Self::BlockSize>>(self, backend: &B);
}

pub trait BlockCipherDecrypt: BlockSizeUser {
    fn decrypt_with_backend(&self, f: impl BlockCipherDecClosure<BlockSize = Self::BlockSize>);
}
