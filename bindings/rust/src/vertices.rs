//! Edge bytes from vertices.

use crate::{Counts, Refused, raw};

/// Makes the edge bytes of a boundary from its vertices.
///
/// `numbers` has two numbers for each vertex, north before east. There are [`FEWEST_VERTICES`](crate::FEWEST_VERTICES) to
/// [`MOST_VERTICES`](crate::MOST_VERTICES) vertices, 3 to 4,096, and no two neighbours may be equal. The first vertex is the last one's
/// neighbour too: do not give it again at the end.
///
/// Edge i leads from vertex i to vertex i + 1, the last from the last vertex to the first. dn and de are its steps north and east,
/// computed exactly. Its byte is 8 · length class + octant, at most [`MOST_CODE`](crate::MOST_CODE):
///
/// - The rays north, northeast, east, southeast, south, southwest, west and northwest begin the octants 0 to 7. An octant holds its
///   first ray and not its last: octant 0 is dn > 0 and 0 ≤ de < dn.
/// - The length class is the bit length of the larger of |dn| and |de|, less one, and 30 if that is 31.
///
/// Moving all vertices by the same step changes no byte. Starting from vertex s turns the bytes by s. The vertices in opposite order
/// give the reversed ring of [`scan_two_way`](crate::scan_two_way), turned by 1. To make a line of several boundaries, import each and
/// put [`MARK`](crate::MARK) between them.
///
/// Lend one byte for each vertex. Returns the number of edges as `found`. Writes one byte for each vertex; the bytes behind them keep
/// their values.
///
/// # Errors
///
/// Refused, in this order, by [`VertexCount`](crate::Refusal::VertexCount), [`EqualNeighbours`](crate::Refusal::EqualNeighbours) and
/// [`RoomForOutput`](crate::Refusal::RoomForOutput). A refused call has written nothing.
///
/// ```
/// use outlines::{Refusal, Refused, import_vertices};
///
/// let mut edges = [0; 4];
/// assert_eq!(import_vertices(&[0, 0, 8, 0, 8, 8, 0, 8], &mut edges)?.found, 4);
/// assert_eq!(edges, [24, 26, 28, 30]); // length class 3; north, east, south, west
///
/// let given_again = import_vertices(&[0, 0, 5, 0, 5, -3, 0, 0], &mut edges);
/// assert_eq!(given_again, Err(Refused { refusal: Refusal::EqualNeighbours, place: 3 }));
/// # Ok::<(), outlines::Refused>(())
/// ```
pub fn import_vertices(numbers: &[i32], edges: &mut [u8]) -> Result<Counts, Refused> {
    // SAFETY: each pointer goes with the length of its slice, which is borrowed until the call returns; `edges` mutably.
    unsafe { raw::outlines_import_vertices(numbers.as_ptr(), numbers.len(), edges.as_mut_ptr(), edges.len()) }.result()
}
