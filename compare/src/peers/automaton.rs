//! An Aho-Corasick automaton over fragments of one common length, with every fall-back computed beforehand: one table
//! lookup for each line edge.

/// Nodes are numbered level by level, so the nodes of whole fragments are the last ones.
pub struct Automaton {
    /// The column of each edge code: column 0 is for the codes that no fragment has.
    column_of: [u16; 256],
    columns: usize,
    /// For each node a row of the nodes that follow it, given by where their rows begin.
    rows: Vec<u32>,
    first_whole: usize,
    /// For each whole fragment's node, the places where that fragment begins.
    places: Vec<Vec<usize>>,
}

impl Automaton {
    /// The automaton of all whole fragments of a text, the rest dropped.
    pub fn new(text: &[u8], length: usize) -> Self {
        let (column_of, columns) = columns_of(text);
        let rows = vec![0; columns];
        let mut automaton = Automaton { column_of, columns, rows, first_whole: 0, places: Vec::new() };
        let mut nodes = vec![0; text.len() / length];
        for depth in 0..length {
            automaton.add_level(&mut nodes, text[depth..].iter().step_by(length));
        }
        automaton.places = vec![Vec::new(); (automaton.rows.len() - automaton.first_whole) / columns];
        for (fragment, node) in nodes.iter().enumerate() {
            automaton.places[(node - automaton.first_whole) / columns].push(fragment * length);
        }
        automaton
    }

    /// Each fragment's node goes on by the fragment's next edge. A new node's row is that of the node it falls back to, and is
    /// copied once the level is whole: what it falls back to may be on the level above.
    fn add_level<'a>(&mut self, nodes: &mut [usize], edges: impl Iterator<Item = &'a u8>) {
        self.first_whole = self.rows.len();
        let mut falls = Vec::new();
        for (node, &edge) in nodes.iter_mut().zip(edges) {
            let at = *node + self.column_of[edge as usize] as usize;
            let follows = self.rows[at] as usize;
            if follows < self.first_whole {
                self.rows[at] = (self.first_whole + falls.len() * self.columns) as u32;
                falls.push(follows);
            }
            *node = self.rows[at] as usize;
        }
        for fall in falls {
            self.rows.extend_from_within(fall..fall + self.columns);
        }
    }

    /// The next hit from a line place on: the place just past the fragment. The caller keeps the node reached.
    fn next_hit(&self, line: &[u8], from: usize, node: &mut usize) -> Option<usize> {
        for (place, &edge) in line.iter().enumerate().skip(from) {
            *node = self.rows[*node + self.column_of[edge as usize] as usize] as usize;
            if *node >= self.first_whole {
                return Some(place + 1);
            }
        }
        None
    }

    /// Calls `hit` with the line place just past each fragment that the line holds, and the fragment's places in the text.
    pub fn run(&self, line: &[u8], mut hit: impl FnMut(usize, &[usize])) {
        let mut node = 0;
        let mut place = 0;
        while let Some(past) = self.next_hit(line, place, &mut node) {
            hit(past, &self.places[(node - self.first_whole) / self.columns]);
            place = past;
        }
    }
}

/// A column for each edge code that a text has, and how many columns that makes.
fn columns_of(text: &[u8]) -> ([u16; 256], usize) {
    let mut column_of = [0; 256];
    let mut columns = 1;
    for &code in text {
        if column_of[code as usize] == 0 {
            column_of[code as usize] = columns as u16;
            columns += 1;
        }
    }
    (column_of, columns)
}
