//! The set of open levels of a flood, levels below 65,536, as three layers of bits, and behind it the number of nodes.

use crate::twin::Cells;

/// The first words of the three layers, and the word with the number of nodes.
const WORDS: usize = 0;
const MIDDLE: usize = 1024;
const ROOT: usize = 1040;
const NODES: usize = 1041;

/// How many words there are.
pub const LENGTH: usize = 1042;

pub struct OpenLevels<'a, const CHECKED: bool>(pub Cells<'a, u64, CHECKED>);

impl<const CHECKED: bool> OpenLevels<'_, CHECKED> {
    /// Adds j, which is not a member, to a layer; j's word before.
    fn add(&mut self, layer: usize, j: usize) -> u64 {
        let word = self.0[layer + j / 64];
        self.0[layer + j / 64] = word + (1 << (j % 64));
        word
    }

    /// Removes j, which is a member, from a layer; j's word after.
    fn remove(&mut self, layer: usize, j: usize) -> u64 {
        let word = self.0[layer + j / 64] - (1 << (j % 64));
        self.0[layer + j / 64] = word;
        word
    }

    /// The greatest member in a word, which is not 0, of a layer.
    fn greatest(&self, layer: usize, word: usize) -> usize {
        64 * word + 63 - self.0[layer + word].leading_zeros() as usize
    }

    /// The lightest open level below 4096 (b + 1), where word b of the middle layer is not 0.
    fn lightest(&self, b: usize) -> usize {
        self.greatest(WORDS, self.greatest(MIDDLE, b))
    }

    /// Opens the level m, which is not open.
    pub fn open(&mut self, m: usize) {
        if self.add(WORDS, m) == 0 && self.add(MIDDLE, m / 64) == 0 {
            self.add(ROOT, m / 4096);
        }
    }

    /// Shuts the lightest open level h; one more than the lightest that is left, 0 where none is.
    pub fn shut(&mut self, h: usize) -> usize {
        if self.remove(WORDS, h) != 0 {
            return self.greatest(WORDS, h / 64) + 1;
        }
        if self.remove(MIDDLE, h / 64) != 0 {
            return self.lightest(h / 4096) + 1;
        }
        if self.remove(ROOT, h / 4096) == 0 {
            return 0;
        }
        self.lightest(self.greatest(ROOT, 0)) + 1
    }

    /// The number of the next node, which is counted.
    pub fn next_node(&mut self) -> u32 {
        let node = self.0[NODES];
        self.0[NODES] = node + 1;
        node as u32
    }
}
