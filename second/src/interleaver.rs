//! Places of the bit and cell interleavers (clauses 7.3.3 and 7.6).

/// P(0), P(1), ... of n places, n at least 5: output i is input P(i).
pub struct Places {
    place: usize,
    t: usize,
    q: usize,
    /// s − 1; s is a power of two, so this takes a number modulo s.
    mask: usize,
    n: usize,
}

impl Places {
    pub fn new(n: usize, t: usize) -> Places {
        let s = n.next_power_of_two();
        Places { place: 0, t, q: s / 4 - 1, mask: s - 1, n }
    }
}

impl Iterator for Places {
    type Item = usize;

    #[inline]
    fn next(&mut self) -> Option<usize> {
        let now = self.place;
        loop {
            self.place = (self.t * self.place + self.q) & self.mask;
            if self.place < self.n {
                return Some(now);
            }
        }
    }
}

#[cfg(test)]
mod tests {
    use super::*;

    fn places(n: usize, t: usize) -> Vec<usize> {
        Places::new(n, t).take(n).collect()
    }

    #[test]
    fn places_of_the_cases() {
        assert_eq!(places(6, 13), [0, 1, 4, 5, 2, 3]);
        assert_eq!(places(8, 21), [0, 1, 6, 7, 4, 5, 2, 3]);
        assert_eq!(places(8, 5), [0, 1, 6, 7, 4, 5, 2, 3]);
    }

    #[test]
    fn each_place_once() {
        for n in 5..600 {
            for t in [5, 13, 21] {
                let mut all = places(n, t);
                all.sort();
                assert!(all.into_iter().eq(0..n));
            }
        }
    }
}
