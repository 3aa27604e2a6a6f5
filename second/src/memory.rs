//! Memory as calls are lent it: numbers, two a cell, or bytes, one a cell (02, S-7). Inside it is numbers.

use crate::hold::{bytes_of_numbers, numbers_of_bytes};
use std::fmt::{Debug, Display};

/// An element of a lent memory.
pub trait Element: Copy + Default + PartialEq + Debug + Display + 'static {
    /// Elements of a cell.
    const A_CELL: usize;
    /// What stands beside a lent memory, and nobody may write.
    const GUARD: Self;

    fn numbers(memory: &[Self]) -> Vec<i16>;

    /// Numbers that a form cannot hold are cut to what it can; so is a number without its partner.
    fn memory(numbers: &[i16]) -> Vec<Self>;

    /// Makes a call on the numbers of a memory.
    fn with_numbers<T>(memory: &mut [Self], call: impl FnOnce(&mut [i16]) -> T) -> T;
}

impl Element for i16 {
    const A_CELL: usize = 2;
    const GUARD: i16 = 0x5A5A;

    fn numbers(memory: &[i16]) -> Vec<i16> {
        memory.to_vec()
    }

    fn memory(numbers: &[i16]) -> Vec<i16> {
        numbers.to_vec()
    }

    fn with_numbers<T>(memory: &mut [i16], call: impl FnOnce(&mut [i16]) -> T) -> T {
        call(memory)
    }
}

impl Element for u8 {
    const A_CELL: usize = 1;
    const GUARD: u8 = 0xA5;

    fn numbers(memory: &[u8]) -> Vec<i16> {
        numbers_of_bytes(memory)
    }

    fn memory(numbers: &[i16]) -> Vec<u8> {
        bytes_of_numbers(numbers)
    }

    fn with_numbers<T>(memory: &mut [u8], call: impl FnOnce(&mut [i16]) -> T) -> T {
        let mut numbers = numbers_of_bytes(memory);
        let answer = call(&mut numbers);
        memory.copy_from_slice(&bytes_of_numbers(&numbers));
        answer
    }
}

#[cfg(test)]
mod tests {
    use super::*;

    #[test]
    fn both_forms_hold_points() {
        let numbers = [7, -7, 1, -1, 0, 0, -3, 5];
        assert_eq!(<i16 as Element>::memory(&numbers), numbers);
        assert_eq!(<u8 as Element>::memory(&numbers), [0x79, 0x1F, 0x00, 0xD5]);
        assert_eq!(<u8 as Element>::numbers(&[0x79, 0x1F, 0x00, 0xD5]), numbers);
    }

    #[test]
    fn bytes_cut_what_they_cannot_hold() {
        assert_eq!(<u8 as Element>::memory(&[16 + 7, -32768, 5]), [0x70]);
    }
}
