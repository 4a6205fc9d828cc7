//! Many patterns sought at once (Aho and Corasick, 1975), letters in either case: a dense table of states, with a column for
//! each class of bytes that the patterns tell apart.

pub struct Automaton {
    /// The column of each byte: those of no pattern share the first, and a letter has one for both its cases.
    columns: [u8; 256],
    width: u32,
    /// For each state and column the next state; states are counted by the places of their rows.
    table: Vec<u32>,
    /// From this state on patterns end.
    accepting: u32,
    /// Of each of these states the patterns that end there.
    found: Vec<Vec<u32>>,
}

/// States while they are made: rows of next states, and the patterns that end in each.
struct Trie {
    width: usize,
    rows: Vec<u32>,
    found: Vec<Vec<u32>>,
}

impl Trie {
    fn add(&mut self, pattern: &[u8], columns: &[u8; 256], number: u32) {
        let mut state = 0;
        for &byte in pattern {
            let at = state * self.width + usize::from(columns[usize::from(byte)]);
            if self.rows[at] == 0 {
                self.rows[at] = self.found.len() as u32;
                self.rows.resize(self.rows.len() + self.width, 0);
                self.found.push(Vec::new());
            }
            state = self.rows[at] as usize;
        }
        self.found[state].push(number);
    }

    /// Makes each way that leads nowhere that of the longest end of the state's word which is a state, too.
    fn complete(&mut self) {
        let mut failing = vec![0; self.found.len()];
        let mut states: Vec<usize> = self.rows[..self.width].iter().filter(|&&it| it != 0).map(|&it| it as usize).collect();
        let mut next = 0;
        while next < states.len() {
            let state = states[next];
            next += 1;
            let shorter: usize = failing[state];
            let ending = self.found[shorter].clone();
            self.found[state].extend(ending);
            for column in 0..self.width {
                let other = self.rows[shorter * self.width + column];
                match self.rows[state * self.width + column] as usize {
                    0 => self.rows[state * self.width + column] = other,
                    child => {
                        failing[child] = other as usize;
                        states.push(child);
                    }
                }
            }
        }
    }
}

impl Automaton {
    pub fn new(patterns: &[&[u8]]) -> Automaton {
        let mut columns = [0; 256];
        let mut width = 1;
        for &byte in patterns.iter().copied().flatten() {
            if columns[usize::from(byte)] == 0 {
                columns[usize::from(byte.to_ascii_lowercase())] = width;
                columns[usize::from(byte.to_ascii_uppercase())] = width;
                width += 1;
            }
        }
        let width = usize::from(width);
        let mut trie = Trie { width, rows: vec![0; width], found: vec![Vec::new()] };
        for (number, pattern) in patterns.iter().enumerate() {
            trie.add(pattern, &columns, number as u32);
        }
        trie.complete();
        Automaton::laid_out(columns, trie)
    }

    /// The states anew, those last in which patterns end: to see one takes a comparison.
    fn laid_out(columns: [u8; 256], trie: Trie) -> Automaton {
        let (ends, others): (Vec<usize>, Vec<usize>) = (0..trie.found.len()).partition(|&it| !trie.found[it].is_empty());
        let accepting = (others.len() * trie.width) as u32;
        let order: Vec<usize> = others.into_iter().chain(ends.iter().copied()).collect();
        let mut places = vec![0; order.len()];
        for (place, &state) in order.iter().enumerate() {
            places[state] = (place * trie.width) as u32;
        }
        let table = order.iter().flat_map(|&it| &trie.rows[it * trie.width..(it + 1) * trie.width]);
        Automaton {
            columns,
            width: trie.width as u32,
            table: table.map(|&it| places[it as usize]).collect(),
            accepting,
            found: ends.into_iter().map(|it| trie.found[it].clone()).collect(),
        }
    }

    /// Gives the patterns that occur, each as often as it does.
    pub fn search(&self, bytes: &[u8], mut give: impl FnMut(u32)) {
        let (table, columns, accepting) = (self.table.as_slice(), &self.columns, self.accepting);
        let mut state = 0;
        for &byte in bytes {
            state = table[state as usize + usize::from(columns[usize::from(byte)])];
            if state >= accepting {
                self.found_in(state).iter().copied().for_each(&mut give);
            }
        }
    }

    #[cold]
    fn found_in(&self, state: u32) -> &[u32] {
        &self.found[((state - self.accepting) / self.width) as usize]
    }
}
