//! The picture of a placement as Graphviz text (docs/FORMAT.md, section 5), written once for both
//! calls: to bytes, or only to be measured.

use panel::calls::PICTURE;

use super::candidates::Clouds;
use super::description::{Description, Edge, Few, Kind, Way};

/// Where a text goes.
pub trait Output {
    fn put(&mut self, bytes: &[u8]);

    /// A number below 100 in decimal.
    fn put_number(&mut self, number: u8) {
        let [tens, ones] = [b'0' + number / 10, b'0' + number % 10];
        if number < 10 {
            self.put(&[ones]);
        } else {
            self.put(&[tens, ones]);
        }
    }
}

impl Output for Few<u8, PICTURE> {
    fn put(&mut self, bytes: &[u8]) {
        self.extend(bytes);
    }
}

/// A text of which only the length is wanted.
pub struct Length(pub usize);

impl Output for Length {
    fn put(&mut self, bytes: &[u8]) {
        self.0 += bytes.len();
    }
}

impl Description {
    pub fn put_picture(&self, placement: &Clouds, out: &mut impl Output) {
        out.put(b"digraph p {\n");
        let mut linked = 0u16;
        for (number, edge) in (0..).zip(self.edges.iter()) {
            linked |= 1 << edge.service | 1 << edge.datum;
            edge.put(number, placement, out);
        }
        for (number, block) in (0..).zip(self.blocks.iter()) {
            if (linked >> number) & 1 == 0 {
                let letter = match block.kind {
                    Kind::Datum { .. } => b"d",
                    Kind::Service { .. } => b"s",
                };
                out.put(b"  ");
                put_block(letter, number, placement, out);
                out.put(b";\n");
            }
        }
        out.put(b"}\n");
    }
}

impl Edge {
    fn put(&self, number: u8, placement: &Clouds, out: &mut impl Output) {
        let [leaves, enters] = self.course(placement);
        let is_moved = leaves != enters;
        out.put(b"  ");
        match self.way {
            Way::Reads => {
                put_block(b"d", self.datum, placement, out);
                if is_moved {
                    out.put(b" -> x");
                    out.put_number(number);
                    out.put(b" -> ");
                    self.put_copy(number, enters, out);
                }
                out.put(b" -> ");
                put_block(b"s", self.service, placement, out);
            }
            Way::Writes => {
                put_block(b"s", self.service, placement, out);
                if is_moved {
                    out.put(b" -> ");
                    self.put_copy(number, leaves, out);
                    out.put(b" -> x");
                    out.put_number(number);
                }
                out.put(b" -> ");
                put_block(b"d", self.datum, placement, out);
            }
        }
        out.put(b";\n");
    }

    fn put_copy(&self, number: u8, cloud: u8, out: &mut impl Output) {
        out.put(b"d");
        out.put_number(self.datum);
        out.put(&[b'_', b'0' + cloud]);
        out.put(b"_e");
        out.put_number(number);
    }
}

fn put_block(letter: &[u8; 1], number: u8, placement: &Clouds, out: &mut impl Output) {
    out.put(letter);
    out.put_number(number);
    out.put(&[b'_', b'0' + placement[usize::from(number)]]);
}
