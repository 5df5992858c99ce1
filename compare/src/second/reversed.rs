//! Codes and rings the other way round (ticket 6).

/// "An edge code is 8·length class + octant, classes 0 to 30; codes 248 to 255 aren't edges" (ticket 6).
pub const OCTANTS: u8 = 8;
pub const CLASSES: u8 = 31;
/// The first code that is no edge.
pub const NO_EDGE: u8 = OCTANTS * CLASSES;

/// "each octant turns by 4 modulo 8, length class kept; codes 248 to 255 map to themselves" (ticket 6).
pub fn reversed_code(code: u8) -> u8 {
    if code >= NO_EDGE {
        return code;
    }
    let (class, octant) = (code / OCTANTS, code % OCTANTS);
    OCTANTS * class + (octant + 4) % OCTANTS
}

/// "Reversed, the edges come in opposite order" (ticket 6): place q has the reversed code of ring place m − 1 − q.
pub fn reversed(ring: &[u8]) -> Vec<u8> {
    let m = ring.len();
    (0..m).map(|q| reversed_code(ring[m - 1 - q])).collect()
}
