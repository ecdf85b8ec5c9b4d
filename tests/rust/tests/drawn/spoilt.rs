//! Small trees, and slices a small change away from one: most are no tree.
use super::{Random, Style};
use model::calls::insert;

impl Random {
    /// A tree of few clauses, under numbers from 0; each that is kept is handed on.
    pub fn small_tree(
        &mut self,
        style: Style,
        mut kept: impl FnMut(&mut Random, &[u16]),
    ) -> Vec<u64> {
        let mut tree = vec![0; 12 + self.below(24)];
        for number in 0..4 {
            let clause = self.clause(style);
            if insert(&mut tree, &clause, number).is_ok() {
                kept(self, &clause);
            }
        }
        tree
    }
}

/// Calls with each bit changed, each two words exchanged, and each field one more and one less.
pub fn each_change(tree: &[u64], mut call: impl FnMut(&[u64])) {
    let mut call = |changes: &[(usize, u64)]| {
        let mut changed = tree.to_vec();
        for (at, word) in changes {
            changed[*at] = *word;
        }
        call(&changed);
    };
    for at in 0..tree.len() {
        for bit in 0..64 {
            call(&[(at, tree[at] ^ 1 << bit)]);
        }
        for other in 0..at {
            call(&[(at, tree[other]), (other, tree[at])]);
        }
        for by in [1, 1 << 28, 1 << 32] {
            call(&[(at, tree[at].wrapping_add(by))]);
            call(&[(at, tree[at].wrapping_sub(by))]);
        }
    }
}
