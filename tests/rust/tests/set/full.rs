//! A slice of the greatest length with its book.
use model::book::Book;
use model::limits::TREE_MOST;
use model::refusal::Refusal;

pub struct Full {
    pub tree: Vec<u64>,
    pub book: Book,
}

impl Full {
    /// An empty one.
    pub fn new() -> Full {
        let (tree, book) = (vec![0; TREE_MOST], Book::new(TREE_MOST));
        Full { tree, book }
    }

    /// Keeps a clause in both, or in neither.
    pub fn keep(&mut self, clause: &[u16], number: u32) -> Result<(), Refusal> {
        let answer = self.book.insert(clause, number);
        let inserted = code_tree::insert(&mut self.tree, clause, number);
        assert_eq!(inserted.is_ok(), answer.is_ok());
        answer
    }
}
