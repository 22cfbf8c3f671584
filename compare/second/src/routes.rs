//! Routes and cells. Every route is written down, the routes of a round are sorted, and a route's
//! cell is the place where it then stands. There is no formula for a cell.

use std::cell::RefCell;
use std::collections::HashMap;
use std::rc::Rc;

/// The routes of one N, m and sender, in the order of their cells.
pub struct Routes {
    list: Vec<Vec<u8>>,
    cells: HashMap<Vec<u8>, usize>,
}

impl Routes {
    fn new(n: u8, m: u8, sender: u8) -> Routes {
        let others: Vec<u8> = (0..n).filter(|&node| node != sender).collect();
        let mut list = Vec::new();
        for round in 0..=m {
            let mut routes = permutations(&others, round + 1);
            routes.sort();
            list.extend(routes);
        }
        let mut cells = HashMap::new();
        for (cell, route) in list.iter().enumerate() {
            cells.insert(route.clone(), cell);
        }
        Routes { list, cells }
    }

    /// M, the number of cells.
    pub fn messages(&self) -> usize {
        self.list.len()
    }

    /// The cell of a route; nothing if `nodes` is not a route.
    pub fn cell(&self, nodes: &[u8]) -> Option<usize> {
        self.cells.get(nodes).copied()
    }

    /// The route of a cell; nothing if the cell is M or above.
    pub fn route(&self, cell: usize) -> Option<&[u8]> {
        self.list.get(cell).map(|route| &route[..])
    }

    /// The first cell of a round and the first cell after it.
    pub fn round(&self, round: u32) -> (usize, usize) {
        let length = round as usize + 1;
        let start = self.list.iter().filter(|route| route.len() < length).count();
        let cells = self.list.iter().filter(|route| route.len() == length).count();
        (start, start + cells)
    }
}

/// Every row of `length` different members of `nodes`.
fn permutations(nodes: &[u8], length: u8) -> Vec<Vec<u8>> {
    let mut rows: Vec<Vec<u8>> = vec![Vec::new()];
    for _ in 0..length {
        let mut longer = Vec::new();
        for row in &rows {
            for node in nodes {
                if !row.contains(node) {
                    longer.push(with(row, *node));
                }
            }
        }
        rows = longer;
    }
    rows
}

/// `row` and one more node at its end.
pub fn with(row: &[u8], node: u8) -> Vec<u8> {
    let mut longer = row.to_vec();
    longer.push(node);
    longer
}

thread_local! {
    static KNOWN: RefCell<HashMap<(u8, u8, u8), Rc<Routes>>> = RefCell::new(HashMap::new());
}

/// The routes of N, m and sender, written down once. The three are small numbers: they are judged
/// before anyone asks for routes.
pub fn routes(n: u32, m: u32, sender: u32) -> Rc<Routes> {
    assert!((4..=15).contains(&n) && (1..=3).contains(&m) && sender < n);
    let key = (n as u8, m as u8, sender as u8);
    KNOWN.with(|known| {
        let mut known = known.borrow_mut();
        known.entry(key).or_insert_with(|| Rc::new(Routes::new(key.0, key.1, key.2))).clone()
    })
}

/// M for N and m. It is the same for every sender.
pub fn messages(n: u32, m: u32) -> usize {
    routes(n, m, 0).messages()
}
