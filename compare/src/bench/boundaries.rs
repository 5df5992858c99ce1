//! Boundaries like real ones. A boundary is closed and runs for some edges along each of sixteen directions, with lengths
//! that vary little, so its edges come in runs of similar codes. An edge code is 8·length class + octant, as in tickets 6
//! and 7 of document 02.
use super::numbers::Numbers;

/// Steps north and east, clockwise from north. The other eight directions are these turned by half a circle.
const DIRECTIONS: [(i64, i64); 8] = [(8, 0), (7, 3), (6, 6), (3, 7), (0, 8), (-3, 7), (-6, 6), (-7, 3)];

/// The code of an edge with these steps north and east.
fn edge_code(north: i64, east: i64) -> u8 {
    let (quarter, ahead, aside) = match (north, east) {
        (n, e) if n > 0 && e >= 0 => (0, n, e),
        (n, e) if e > 0 => (1, e, -n),
        (n, e) if n < 0 => (2, -n, -e),
        (n, e) => (3, -e, n),
    };
    let octant = 2 * quarter + (aside >= ahead) as u8;
    let larger = north.abs().max(east.abs()).max(1);
    8 * larger.ilog2().min(30) as u8 + octant
}

/// The vertices of a boundary of m edges, m even. Each run has as many edges as the one that leads back.
fn vertices(numbers: &mut Numbers, m: usize) -> Vec<(i64, i64)> {
    let mut runs = [0; 8];
    for _ in 0..m / 2 {
        runs[numbers.below(8)] += 1;
    }
    let scale = 20 + numbers.below(400) as i64;
    let mut at = (0, 0);
    let mut vertices = Vec::new();
    for sign in [1, -1] {
        for (&(north, east), &edges) in DIRECTIONS.iter().zip(&runs) {
            for _ in 0..edges {
                vertices.push((at.0 + numbers.about_zero(scale), at.1 + numbers.about_zero(scale)));
                at = (at.0 + sign * scale * north, at.1 + sign * scale * east);
            }
        }
    }
    vertices
}

/// The edge codes of a boundary of m edges, m even.
pub fn boundary(numbers: &mut Numbers, m: usize) -> Vec<u8> {
    let vertices = vertices(numbers, m);
    let nexts = vertices.iter().cycle().skip(1);
    vertices.iter().zip(nexts).map(|(from, to)| edge_code(to.0 - from.0, to.1 - from.1)).collect()
}

/// Boundaries one after another, n edges in all; the last one is cut off.
pub fn boundaries(numbers: &mut Numbers, n: usize) -> Vec<u8> {
    let mut line = Vec::new();
    while line.len() < n {
        let edges = 2 * (8 + numbers.below(120));
        line.extend(boundary(numbers, edges));
    }
    line.truncate(n);
    line
}
