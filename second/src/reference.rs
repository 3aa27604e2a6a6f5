//! The rules once more for the tests, slowly and literally, with the wrong turnings to be taken on request.

use crate::rates::{Rate, R3_5, RATES, SDC, TAIL};
use crate::settings::{Settings, HMMIX, HMSYM, SM16, SM64};
use crate::table::Table;

#[derive(Clone, Copy, PartialEq, Eq, Debug)]
pub enum Turning {
    Right,
    /// A place is reduced modulo n instead of stepping again.
    PlaceModuloN,
    /// One interleaver runs across parts A and B.
    OneInterleaver,
    /// The FAC's tail is cut by the tail table.
    FacTailTable,
    /// The frame delay is taken from P(i).
    DelayFromPlace,
    /// One dispersal runs across VSPP and remainder.
    OneDispersal,
}

pub type Cell = (i16, i16);

pub fn places(n: usize, t: usize, turning: Turning) -> Vec<usize> {
    let mut s = 1;
    while s < n {
        s *= 2;
    }
    let mut all = vec![0];
    while all.len() < n {
        let mut place = (t * all[all.len() - 1] + s / 4 - 1) % s;
        while place >= n {
            place = if turning == Turning::PlaceModuloN { place % n } else { (t * place + s / 4 - 1) % s };
        }
        all.push(place);
    }
    all
}

fn unpacked(bytes: &[u8], bits: usize) -> Vec<u8> {
    (0..bits).map(|i| bytes[i / 8] >> (7 - i % 8) & 1).collect()
}

fn dispersed(bits: &[u8]) -> Vec<u8> {
    let mut p = vec![1; 9];
    for n in 9..9 + bits.len() {
        p.push(p[n - 9] ^ p[n - 5]);
    }
    bits.iter().zip(&p[9..]).map(|(b, p)| b ^ p).collect()
}

/// The mother code's four bits for each input and six zeros.
fn mother(input: &[u8]) -> Vec<[u8; 4]> {
    let a = |i: usize, d: usize| if i >= d && i - d < input.len() { input[i - d] } else { 0 };
    let codeword = |i: usize| {
        let b0 = a(i, 0) ^ a(i, 2) ^ a(i, 3) ^ a(i, 5) ^ a(i, 6);
        let b1 = a(i, 0) ^ a(i, 1) ^ a(i, 2) ^ a(i, 3) ^ a(i, 6);
        let b2 = a(i, 0) ^ a(i, 1) ^ a(i, 4) ^ a(i, 6);
        [b0, b1, b2, b0]
    };
    (0..input.len() + 6).map(codeword).collect()
}

fn kept(codeword: &[[u8; 4]], columns: &[u8]) -> Vec<u8> {
    let pairs = codeword.iter().zip(columns.iter().cycle());
    pairs.flat_map(|(b, keep)| (0..4).filter(move |j| keep >> j & 1 == 1).map(|j| b[j])).collect()
}

/// The columns of a rate in a table: rate after rate, and of each the rows B0 to B3.
fn columns(table: &Table, rate: &Rate) -> Vec<u8> {
    let mut rows = &table[..];
    for r in RATES {
        let (own, rest) = rows.split_at(4 * r.numerator);
        if r == rate {
            let column = |c: usize| (0..4).map(|j| own[j * r.numerator + c] << j).sum();
            return (0..r.numerator).map(column).collect();
        }
        rows = rest;
    }
    unreachable!()
}

/// Coded bits of a level with parts A and B.
fn level(table: &Table, a: &[u8], rate_a: &Rate, b: &[u8], rate_b: &Rate, remainder: usize) -> Vec<u8> {
    let word = mother(&[a, b].concat());
    let (word_a, rest) = word.split_at(a.len());
    let (word_b, tail) = rest.split_at(b.len());
    let (columns_a, columns_b) = (columns(table, rate_a), columns(table, rate_b));
    [kept(word_a, &columns_a), kept(word_b, &columns_b), kept(tail, &TAIL[remainder])].concat()
}

/// Interleaves part A (its first bits) and part B of a level; t = 0 is no interleaver.
fn interleaved(v: &[u8], part_a: usize, t: usize, turning: Turning) -> Vec<u8> {
    let parts = match turning {
        Turning::OneInterleaver => (&v[..0], v),
        _ => v.split_at(part_a),
    };
    let one = |v: &[u8]| -> Vec<u8> {
        match (t, v.len()) {
            (0, _) | (_, 0) => v.to_vec(),
            _ => places(v.len(), t, turning).into_iter().map(|p| v[p]).collect(),
        }
    };
    [one(parts.0), one(parts.1)].concat()
}

/// Coordinates by the formulas of 01.
pub fn sm64(i: [u8; 3]) -> i16 {
    7 - 2 * (i[0] as i16 + 2 * i[1] as i16 + 4 * i[2] as i16)
}

pub fn hmsym(i: [u8; 3]) -> i16 {
    7 - 2 * (4 * i[0] as i16 + i[1] as i16 + 2 * i[2] as i16)
}

fn qam16(i: [u8; 2]) -> i16 {
    3 - 2 * (i[0] as i16 + 2 * i[1] as i16)
}

fn qam4(i: u8) -> i16 {
    1 - 2 * i as i16
}

pub fn fac(table: &Table, bytes: &[u8], turning: Turning) -> Vec<Cell> {
    let word = mother(&dispersed(&unpacked(bytes, 72)));
    let columns = columns(table, &R3_5);
    let mut v = match turning {
        Turning::FacTailTable => [kept(&word[..72], &columns), kept(&word[72..], &TAIL[(130 - 12) % 5])].concat(),
        _ => kept(&word, &columns),
    };
    v.truncate(130);
    let y = interleaved(&v, 0, 21, turning);
    (0..65).map(|k| (qam4(y[2 * k]), qam4(y[2 * k + 1]))).collect()
}

pub fn sdc(table: &Table, s: &Settings, bytes: &[u8], turning: Turning) -> Vec<Cell> {
    let cells = s.n_sdc();
    let u = dispersed(&unpacked(bytes, s.sdc_bits()));
    let rates = SDC[s.sdc as usize];
    let t: &[usize] = if s.sdc == 0 { &[13, 21] } else { &[21] };
    let y = standard(table, &u, rates, 0, rates, 2 * cells, t, turning);
    match s.sdc {
        0 => (0..cells).map(|k| (qam16([y[0][2 * k], y[1][2 * k]]), qam16([y[0][2 * k + 1], y[1][2 * k + 1]]))).collect(),
        _ => (0..cells).map(|k| (qam4(y[0][2 * k]), qam4(y[0][2 * k + 1]))).collect(),
    }
}

/// Interleaved levels of the part without VSPP: parts A and B, coded bits per level, each level's t.
fn standard(
    table: &Table, u: &[u8], rates_a: &[&Rate], a: usize, rates_b: &[&Rate], b: usize, t: &[usize], turning: Turning,
) -> Vec<Vec<u8>> {
    let m1: Vec<usize> = rates_a.iter().map(|r| a * r.numerator / r.denominator).collect();
    let m2: Vec<usize> = rates_b.iter().map(|r| r.numerator * ((b - 12) / r.denominator)).collect();
    let lengths = [m1, m2].concat();
    let mut u = u;
    let mut streams = Vec::new();
    for m in lengths {
        streams.push(&u[..m]);
        u = &u[m..];
    }
    assert!(u.is_empty());
    let code = |p: usize| {
        let remainder = (b - 12) % rates_b[p].denominator;
        let v = level(table, streams[p], rates_a[p], streams[p + t.len()], rates_b[p], remainder);
        assert_eq!(v.len(), a + b);
        interleaved(&v, a, t[p], turning)
    };
    (0..t.len()).map(code).collect()
}

/// Cells of a multiplex frame in mapping order.
pub fn frame(table: &Table, s: &Settings, bytes: &[u8], turning: Turning) -> Vec<Cell> {
    let l = s.lengths();
    let bits = unpacked(bytes, l.frame_bits());
    let dispersed = match turning {
        Turning::OneDispersal => dispersed(&bits),
        _ => [dispersed(&bits[..l.vspp]), dispersed(&bits[l.vspp..])].concat(),
    };
    let (vspp, u) = dispersed.split_at(l.vspp);
    let (a, b) = (s.part_a().rates, s.part_b().rates);
    let two = |y: &[Vec<u8>], k: usize| [y[0][k], y[1][k]];
    let three = |y: &[Vec<u8>], k: usize| [y[0][k], y[1][k], y[2][k]];
    let n = s.n_mux();
    match s.msc {
        SM64 => {
            let y = standard(table, u, a, 2 * l.n1, b, 2 * l.n2, &[0, 13, 21], turning);
            (0..n).map(|k| (sm64(three(&y, 2 * k)), sm64(three(&y, 2 * k + 1)))).collect()
        }
        HMSYM => {
            let r = s.vspp_rate();
            let y0 = level(table, &[], r, vspp, r, (2 * n - 12) % r.denominator);
            let y = standard(table, u, a, 2 * l.n1, b, 2 * l.n2, &[13, 21], turning);
            let number = |k: usize| hmsym([y0[k], y[0][k], y[1][k]]);
            (0..n).map(|k| (number(2 * k), number(2 * k + 1))).collect()
        }
        HMMIX => {
            let r = s.vspp_rate();
            let re0 = level(table, &[], r, vspp, r, (n - 12) % r.denominator);
            let y = standard(table, u, a, l.n1, b, l.n2, &[0, 13, 13, 21, 21], turning);
            (0..n).map(|k| (hmsym([re0[k], y[1][k], y[3][k]]), sm64([y[0][k], y[2][k], y[4][k]]))).collect()
        }
        SM16 => {
            let y = standard(table, u, a, 2 * l.n1, b, 2 * l.n2, &[13, 21], turning);
            (0..n).map(|k| (qam16(two(&y, 2 * k)), qam16(two(&y, 2 * k + 1)))).collect()
        }
        _ => unreachable!(),
    }
}

/// The cells of frames before the first: those of a frame whose bits are all zero before dispersal.
pub fn before_the_first(table: &Table, s: &Settings) -> Vec<Cell> {
    frame(table, s, &vec![0; s.lengths().frame_bits().div_ceil(8)], Turning::Right)
}

/// Sent cells of frame n, from all frames' cells and without any memory.
pub fn sent_row(s: &Settings, before: &[Cell], frames: &[Vec<Cell>], n: usize, turning: Turning) -> Vec<Cell> {
    let places = places(s.n_mux(), 5, turning);
    let cell = |(i, &place): (usize, &usize)| {
        let delay = match (s.long(), turning) {
            (false, _) => 0,
            (true, Turning::DelayFromPlace) => place % 5,
            (true, _) => i % 5,
        };
        if delay > n { before[place] } else { frames[n - delay][place] }
    };
    places.iter().enumerate().map(cell).collect()
}

/// MSC cells of super frame m, with fillers.
pub fn super_frame(s: &Settings, before: &[Cell], frames: &[Vec<Cell>], m: usize, turning: Turning) -> Vec<Cell> {
    let mut cells: Vec<Cell> = (3 * m..3 * m + 3).flat_map(|n| sent_row(s, before, frames, n, turning)).collect();
    cells.extend(&[(1, 1), (1, -1)][..s.n_sfa() - 3 * s.n_mux()]);
    cells
}
