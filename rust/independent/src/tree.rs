//! An ordered tree of nodes: read from columns, changed, walked, written to columns.

use crate::table::{Origin, Table};

/// A node stands in the tree's store of nodes; this is its place there.
pub type Id = usize;

/// One node.
#[derive(Debug)]
pub struct Node {
    pub value: u32,
    pub origin: Origin,
    /// None for the root.
    pub parent: Option<Id>,
    pub children: Vec<Id>,
    /// The nodes below it, and itself.
    pub count: usize,
}

/// A tree. Nodes that were cut off stay in the store, but no walk meets them.
#[derive(Debug)]
pub struct Tree {
    nodes: Vec<Node>,
}

const ROOT: Id = 0;

/// Three columns that a tree is written to.
#[derive(Debug, PartialEq, Eq)]
pub struct Columns {
    pub dist: Vec<u32>,
    pub size: Vec<u32>,
    pub value: Vec<u32>,
}

impl Tree {
    /// The tree that the sizes spell, each node painted with its origin; none if they spell no tree.
    pub fn read(table: Table, origin: impl Fn(u32) -> Origin) -> Option<Tree> {
        let rows = table.rows();
        if rows == 0 || table.size[0] as usize != rows {
            return None;
        }
        let mut nodes: Vec<Node> = Vec::with_capacity(rows);
        // the nodes whose children are still coming, with the row number after each one's last row
        let mut open: Vec<(Id, usize)> = Vec::new();
        for row in 0..rows {
            while open.last().is_some_and(|&(_, end)| end == row) {
                open.pop();
            }
            let end = row + table.size[row] as usize;
            if end == row || end > open.last().map_or(rows, |&(_, end)| end) {
                return None;
            }
            let parent = open.last().map(|&(id, _)| id);
            if let Some(parent) = parent {
                nodes[parent].children.push(row);
            }
            nodes.push(Node {
                value: table.value[row],
                origin: origin(row as u32),
                parent,
                children: Vec::new(),
                count: end - row,
            });
            open.push((row, end));
        }
        Some(Tree { nodes })
    }

    /// How many nodes it has.
    pub fn count(&self) -> usize {
        self.nodes[ROOT].count
    }

    /// The node at a row number: down from the root, past the children that end before it.
    pub fn find(&self, row: usize) -> Id {
        let (mut id, mut here) = (ROOT, 0);
        while here != row {
            let place = self.place(id, row - here - 1);
            let earlier = &self.nodes[id].children[..place];
            here += 1 + earlier.iter().map(|&child| self.nodes[child].count).sum::<usize>();
            id = self.nodes[id].children[place];
        }
        id
    }

    /// Which child of a node holds the row so many rows behind the first child's, or would start
    /// there: the number of children that end before it.
    pub fn place(&self, id: Id, behind: usize) -> usize {
        let mut rows = 0;
        let ends_before = |&&child: &&Id| {
            rows += self.nodes[child].count;
            rows <= behind
        };
        self.nodes[id].children.iter().take_while(ends_before).count()
    }

    pub fn rename(&mut self, id: Id, value: u32) {
        self.nodes[id].value = value;
    }

    /// Cuts off a node that has a parent, with all below it; says which child of which node it was.
    pub fn cut(&mut self, id: Id) -> (Id, usize) {
        let parent = self.nodes[id].parent.expect("the root is never cut off");
        let siblings = &mut self.nodes[parent].children;
        let place = siblings.iter().position(|&child| child == id);
        let place = place.expect("a node is among its parent's children");
        siblings.remove(place);
        let gone = self.nodes[id].count;
        self.recount(parent, |count| count - gone);
        (parent, place)
    }

    /// Puts a whole tree under a node, as the child at a place among its children.
    pub fn put(&mut self, parent: Id, place: usize, run: Tree) {
        let shift = self.nodes.len();
        let come = run.count();
        for node in run.nodes {
            self.nodes.push(Node {
                parent: Some(node.parent.map_or(parent, |id| id + shift)),
                children: node.children.iter().map(|id| id + shift).collect(),
                ..node
            });
        }
        self.nodes[parent].children.insert(place, ROOT + shift);
        self.recount(parent, |count| count + come);
    }

    /// Changes the count of a node and of all above it.
    fn recount(&mut self, id: Id, change: impl Fn(usize) -> usize) {
        let mut above = Some(id);
        while let Some(id) = above {
            self.nodes[id].count = change(self.nodes[id].count);
            above = self.nodes[id].parent;
        }
    }

    /// The nodes in preorder: a node's place in it is its row number.
    fn walk(&self) -> Vec<Id> {
        let mut rows = Vec::with_capacity(self.count());
        let mut ahead = vec![ROOT];
        while let Some(id) = ahead.pop() {
            rows.push(id);
            ahead.extend(self.nodes[id].children.iter().rev());
        }
        rows
    }

    /// The table that a walk of the tree gives.
    pub fn columns(&self) -> Columns {
        let rows = self.walk();
        let mut number = vec![0u32; self.nodes.len()];
        for (row, &id) in rows.iter().enumerate() {
            number[id] = row as u32;
        }
        let mut dist = vec![1u32; rows.len()];
        let mut size = vec![1u32; rows.len()];
        // from the last row on, so that a row's own size is known before its parent adds it
        for (row, &id) in rows.iter().enumerate().rev() {
            if let Some(parent) = self.nodes[id].parent {
                let parent = number[parent];
                dist[row] = row as u32 - parent;
                size[parent as usize] += size[row];
            }
        }
        Columns { dist, size, value: rows.iter().map(|&id| self.nodes[id].value).collect() }
    }

    /// The origin of each row.
    pub fn origins(&self) -> Vec<Origin> {
        self.walk().iter().map(|&id| self.nodes[id].origin).collect()
    }
}
