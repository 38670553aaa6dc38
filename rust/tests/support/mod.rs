//! A tree builder and a generator of numbers, for the tests.
#![allow(dead_code)] // each test file uses a part
use vatnext_dts::Record;

/// A record that owns what it holds.
#[derive(Clone, Debug, PartialEq)]
pub struct Node {
    pub mark: [u8; 2],
    pub flags: u8,
    pub start: u32,
    pub end: u32,
    pub text: Vec<u8>,
    pub children: Vec<Node>,
}

/// A record without flags, range and text.
pub fn node(mark: &str, children: impl IntoIterator<Item = Node>) -> Node {
    Node {
        mark: mark.as_bytes().try_into().expect("two letters"),
        flags: 0,
        start: 0,
        end: 0,
        text: vec![],
        children: children.into_iter().collect(),
    }
}

pub fn leaf(mark: &str) -> Node {
    node(mark, [])
}

/// An Id: its context, and a symbol.
pub fn name(context: u32, symbol: &str) -> Node {
    leaf("Id").text([&context.to_le_bytes(), symbol.as_bytes()].concat())
}

/// A module of these items.
pub fn module(items: impl IntoIterator<Item = Node>) -> Vec<u8> {
    node("Mo", items).bytes()
}

/// `export default` of an expression.
pub fn default(expression: Node) -> Node {
    node("Xe", [expression])
}

impl Node {
    pub fn flags(self, flags: u8) -> Node {
        Node { flags, ..self }
    }

    pub fn at(self, start: u32, end: u32) -> Node {
        Node { start, end, ..self }
    }

    pub fn text(self, text: impl AsRef<[u8]>) -> Node {
        Node { text: text.as_ref().to_vec(), ..self }
    }

    pub fn bytes(&self) -> Vec<u8> {
        let mut bytes = vec![];
        self.write(&mut bytes);
        bytes
    }

    fn write(&self, bytes: &mut Vec<u8>) {
        let two = |length: usize| u16::try_from(length).expect("two bytes").to_le_bytes();
        bytes.extend(self.mark);
        bytes.push(self.flags);
        bytes.extend(self.start.to_le_bytes());
        bytes.extend(self.end.to_le_bytes());
        bytes.extend(two(self.text.len()));
        bytes.extend(two(self.children.len()));
        bytes.extend(&self.text);
        for child in &self.children {
            child.write(bytes);
        }
    }

    /// What a record says of itself and of all that it holds.
    pub fn read(record: Record<'_>) -> Node {
        Node {
            mark: record.mark(),
            flags: record.flags(),
            start: record.start(),
            end: record.end(),
            text: record.text().to_vec(),
            children: record.children().map(Node::read).collect(),
        }
    }
}

/// Numbers from a seed (splitmix64).
pub struct Numbers(pub u64);

impl Numbers {
    pub fn next(&mut self) -> u64 {
        self.0 = self.0.wrapping_add(0x9e37_79b9_7f4a_7c15);
        let mut z = self.0;
        z = (z ^ (z >> 30)).wrapping_mul(0xbf58_476d_1ce4_e5b9);
        z = (z ^ (z >> 27)).wrapping_mul(0x94d0_49bb_1331_11eb);
        z ^ (z >> 31)
    }

    /// A number below `end`.
    pub fn below(&mut self, end: usize) -> usize {
        (self.next() % end as u64) as usize
    }
}
