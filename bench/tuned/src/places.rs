//! Places of the interleavers for one size: a cycle without the places that are n or more.

/// Writes P(0) + from, P(1) + from, ..; one place more is written over.
fn put(cycles: &[u16], n: usize, from: usize, out: &mut [u16]) {
    let s = n.next_power_of_two();
    let mut len = 0;
    for &place in &cycles[s..2 * s] {
        out[len] = place + from as u16;
        len += ((place as usize) < n) as usize;
    }
}

/// Room for the places of the most numbers, and one more.
pub const ROOM: usize = 2 * crate::standard::MOST_CELLS + 1;

/// Places of a block's numbers: part A's, and then part B's with part A before them.
pub fn in_parts(cycles: &[u16], parts: [usize; 2], out: &mut [u16; ROOM]) {
    if parts[0] > 0 {
        put(cycles, parts[0], 0, out);
    }
    put(cycles, parts[1], parts[0], &mut out[parts[0]..]);
}

/// The same where each axis is interleaved by itself: numbers of one axis are two apart.
pub fn by_axes(cycles: &[u16], parts: [usize; 2], out: &mut [u16; ROOM]) {
    in_parts(cycles, parts, out);
    for k in (0..parts[0] + parts[1]).rev() {
        let place = 2 * out[k];
        out[2 * k] = place;
        out[2 * k + 1] = place + 1;
    }
}
