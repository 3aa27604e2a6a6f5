//! The component code (clause 7.3.2) over bytes: every bit of a byte is a stream of its own.

use crate::layout::Level;
use crate::standard::{COLUMNS, RATES, RX, RY};

/// Zeros before a level's bits: the divider looks back this far.
pub const LEAD: usize = 96;
/// The divider's step.
const STEP: usize = 32;
/// Room for a level's bits and tail, whole steps.
pub const ROOM: usize = 11008;

/// The register: zeros, and then a level's input bits and six zeros.
pub type Input = [u8; LEAD + ROOM];

/// Parities b0, b1 and b2 (b3 is b0); the last only where a pattern keeps it.
pub type Parities = [[u8; ROOM]; 3];

/// Rates whose patterns keep b2.
const fn keeps_b2(rate: usize) -> bool {
    let mut column = 0;
    while column < RX[rate] {
        if COLUMNS[rate][column] & 4 != 0 {
            return true;
        }
        column += 1;
    }
    false
}

/// Generators 133, 171 and 145: sums of the bits so many steps back.
fn parities(level: &Level, input: &Input, out: &mut Parities) {
    let n = level.a.bits + level.b.bits;
    let back = |steps: usize| &input[LEAD - steps..][..n];
    let (a0, a1, a2, a3, a4, a5, a6) = (back(0), back(1), back(2), back(3), back(4), back(5), back(6));
    let [b0, b1, b2] = out.each_mut().map(|b| &mut b[..n]);
    for i in 0..n {
        let shared = a0[i] ^ a2[i] ^ a3[i] ^ a6[i];
        b0[i] = shared ^ a5[i];
        b1[i] = shared ^ a1[i];
    }
    if keeps_b2(level.a.rate) && level.a.bits > 0 || keeps_b2(level.b.rate) {
        for i in 0..n {
            b2[i] = a0[i] ^ a1[i] ^ a4[i] ^ a6[i];
        }
    }
}

/// What a rate's pattern does with the parities of a part and its coded bits, `STRIDE` apart.
trait Pattern {
    fn of<const RATE: usize, const STRIDE: usize>(self) -> u8;
}

/// Picks the pattern once a part.
fn by_rate<P: Pattern>(rate: usize, stride: usize, pattern: P) -> u8 {
    macro_rules! pick {
        ($($r:literal)*) => {
            match (rate, stride) {
                $(($r, 1) => pattern.of::<$r, 1>(), ($r, _) => pattern.of::<$r, 2>(),)*
                (RATES.., _) => unreachable!(),
            }
        };
    }
    pick!(0 1 2 3 4 5 6 7 8 9 10 11 12)
}

/// Goes through a rate's kept bits: column, row of the parity, place among the coded bits.
#[inline(always)]
fn each_kept<const RATE: usize>(mut take: impl FnMut(usize, usize, usize)) {
    let mut place = 0;
    for column in 0..RX[RATE] {
        for row in 0..4 {
            if COLUMNS[RATE][column] >> row & 1 == 1 {
                take(column, row % 3, place);
                place += 1;
            }
        }
    }
}

/// Writes the kept parities.
struct Keep<'a>([&'a [u8]; 3], &'a mut [u8]);

impl Pattern for Keep<'_> {
    fn of<const RATE: usize, const STRIDE: usize>(self) -> u8 {
        let Keep(b, coded) = self;
        let [b0, b1, b2] = b.map(|b| b.chunks_exact(RX[RATE]));
        for (((to, b0), b1), b2) in coded.chunks_mut(STRIDE * RY[RATE]).zip(b0).zip(b1).zip(b2) {
            let to = &mut to[..STRIDE * (RY[RATE] - 1) + 1];
            each_kept::<RATE>(|column, row, place| to[STRIDE * place] = [b0, b1, b2][row][column]);
        }
        0
    }
}

/// Takes b0 out of coded bits.
struct First<'a>(&'a [u8], &'a mut [u8]);

impl Pattern for First<'_> {
    fn of<const RATE: usize, const STRIDE: usize>(self) -> u8 {
        let First(coded, b0) = self;
        for (from, b0) in coded.chunks(STRIDE * RY[RATE]).zip(b0.chunks_exact_mut(RX[RATE])) {
            let from = &from[..STRIDE * (RY[RATE] - 1) + 1];
            let mut next = 0;
            each_kept::<RATE>(|column, _, place| {
                if column == next {
                    b0[column] = from[STRIDE * place];
                    next += 1;
                }
            });
        }
        0
    }
}

/// Where coded bits differ from the kept parities: 1 in each stream that does.
struct Differ<'a>(&'a [u8], [&'a [u8]; 3]);

impl Pattern for Differ<'_> {
    fn of<const RATE: usize, const STRIDE: usize>(self) -> u8 {
        let Differ(coded, b) = self;
        let [b0, b1, b2] = b.map(|b| b.chunks_exact(RX[RATE]));
        let mut differ = 0;
        for (((from, b0), b1), b2) in coded.chunks(STRIDE * RY[RATE]).zip(b0).zip(b1).zip(b2) {
            let from = &from[..STRIDE * (RY[RATE] - 1) + 1];
            let mut next = 0;
            each_kept::<RATE>(|column, row, place| {
                // b0 stands first in its column and is right by the division.
                if column == next {
                    next += 1;
                } else {
                    differ |= from[STRIDE * place] ^ [b0, b1, b2][row][column];
                }
            });
        }
        differ
    }
}

/// A part's own piece of the parities.
fn piece(b: &Parities, from: usize, bits: usize) -> [&[u8]; 3] {
    b.each_ref().map(|b| &b[from..from + bits])
}

/// Places where the coded bits of part B and of the tail begin.
fn starts(level: &Level) -> [usize; 2] {
    let coded = |bits: usize, rate: usize| bits / RX[rate] * RY[rate] * level.stride;
    let b = level.first + coded(level.a.bits, level.a.rate);
    [b, b + coded(level.b.bits, level.b.rate)]
}

/// Codes a level's bits, which stand in the input behind its lead, into its row.
pub fn encode(level: &Level, input: &Input, b: &mut Parities, coded: &mut [u8]) {
    let [at_b, at_tail] = starts(level);
    parities(level, input, b);
    by_rate(level.a.rate, level.stride, Keep(piece(b, 0, level.a.bits), &mut coded[level.first..at_b]));
    let of_b = piece(b, level.a.bits, level.b.bits);
    by_rate(level.b.rate, level.stride, Keep(of_b, &mut coded[at_b..at_tail]));
    let mut at = at_tail;
    for (i, column) in level.tail.iter().enumerate() {
        let four = tail_parities(input, level, i);
        for row in (0..4).filter(|row| column >> row & 1 == 1) {
            coded[at] = four[row];
            at += level.stride;
        }
    }
}

/// The four parities of the tail's bit i.
fn tail_parities(input: &Input, level: &Level, i: usize) -> [u8; 4] {
    let a = |steps: usize| input[LEAD + level.a.bits + level.b.bits + i - steps];
    let b0 = a(0) ^ a(2) ^ a(3) ^ a(5) ^ a(6);
    [b0, a(0) ^ a(1) ^ a(2) ^ a(3) ^ a(6), a(0) ^ a(1) ^ a(4) ^ a(6), b0]
}

/// Finds the bits that give a level's coded bits, behind the input's lead; 1 in each stream that has none.
pub fn decode(level: &Level, coded: &[u8], work: &mut Input, input: &mut Input, b: &mut Parities) -> u8 {
    let [at_b, at_tail] = starts(level);
    let (bits_a, n) = (level.a.bits, level.a.bits + level.b.bits);
    let (of_a, of_b) = (&coded[level.first..at_b], &coded[at_b..at_tail]);
    let (b0_a, b0_b) = work[LEAD..LEAD + n].split_at_mut(bits_a);
    by_rate(level.a.rate, level.stride, First(of_a, b0_a));
    by_rate(level.b.rate, level.stride, First(of_b, b0_b));
    divide(n, work, input);
    parities(level, input, b);
    by_rate(level.a.rate, level.stride, Differ(of_a, piece(b, 0, bits_a)))
        | by_rate(level.b.rate, level.stride, Differ(of_b, piece(b, bits_a, level.b.bits)))
        | decode_tail(level, &coded[at_tail..], input)
}

/// The tail's bits are zeros, so its coded bits are known.
fn decode_tail(level: &Level, coded: &[u8], input: &mut Input) -> u8 {
    let n = LEAD + level.a.bits + level.b.bits;
    input[n..n + 6].fill(0);
    let (mut at, mut differ) = (0, 0);
    for (i, column) in level.tail.iter().enumerate() {
        let four = tail_parities(input, level, i);
        for row in (0..4).filter(|row| column >> row & 1 == 1) {
            differ |= coded[at] ^ four[row];
            at += level.stride;
        }
    }
    differ
}

/// Divides by g, 133 octal: 1/g = g g(x²) g(x⁴) g(x⁸) / g(x¹⁶), since g(x²) is the square of g. `out` gets the quotient.
fn divide(n: usize, work: &mut Input, out: &mut Input) {
    times::<1>(n, work, out);
    times::<2>(n, out, work);
    times::<4>(n, work, out);
    times::<8>(n, out, work);
    for at in (LEAD..LEAD + n).step_by(STEP) {
        let (done, rest) = out.split_at_mut(at);
        let back = |steps: usize| -> &[u8; STEP] { done[at - 16 * steps..].first_chunk().unwrap() };
        let (a2, a3, a5, a6) = (back(2), back(3), back(5), back(6));
        let from: &[u8; STEP] = work[at..].first_chunk().unwrap();
        let to: &mut [u8; STEP] = rest.first_chunk_mut().unwrap();
        for i in 0..STEP {
            to[i] = from[i] ^ a2[i] ^ a3[i] ^ a5[i] ^ a6[i];
        }
    }
}

/// Multiplies by g(x^D).
fn times<const D: usize>(n: usize, from: &Input, out: &mut Input) {
    let back = |steps: usize| &from[LEAD - D * steps..][..n];
    let (a0, a2, a3, a5, a6) = (back(0), back(2), back(3), back(5), back(6));
    let out = &mut out[LEAD..LEAD + n];
    for i in 0..n {
        out[i] = a0[i] ^ a2[i] ^ a3[i] ^ a5[i] ^ a6[i];
    }
}
