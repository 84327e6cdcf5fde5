//! Names beside the numbers of a description.

use std::fmt;

use super::Kind;
use crate::parts::{Block, Edge, Pair, Part, Parts, Way};
use crate::{Misplaced, Placement, Reason, Refusal};

/// The names of the clouds and blocks of a description, and with them its edges and pairs. They
/// turn the numbers that the library answers into words.
///
/// A [`Builder`](super::Builder) gives them along with the bytes. For a description that comes as
/// bytes, [`Names::new`] gives names to its parts.
///
/// ```
/// use panel::Description;
/// use panel::builder::Names;
///
/// let interview = Description::read(include_bytes!("../../../../examples/interview.bin"))?;
/// let names = Names::new(&interview.parts(), &["rented", "own"], &["interview", "mask"]);
/// assert_eq!(names.cloud(0), Some("rented"));
/// assert_eq!(names.block(1), Some("mask"));
/// // What gets no name is named by its kind and number.
/// assert_eq!(names.block(4), Some("datum 4"));
/// # Ok::<(), panel::Refusal>(())
/// ```
#[derive(Debug, Clone, PartialEq, Eq, Default)]
pub struct Names {
    clouds: Vec<String>,
    blocks: Vec<(Kind, String)>,
    edges: Vec<Edge>,
    pairs: Vec<Pair>,
}

/// A read or a write by its names. Shown, it is such as `service "mask" reads datum "interview"`.
#[derive(Debug, Clone, Copy, PartialEq, Eq)]
pub struct NamedEdge<'a> {
    /// Whether it reads or writes.
    pub way: Way,
    /// The name of the service.
    pub service: &'a str,
    /// The name of the datum.
    pub datum: &'a str,
}

impl fmt::Display for NamedEdge<'_> {
    fn fmt(&self, f: &mut fmt::Formatter<'_>) -> fmt::Result {
        let NamedEdge {
            way,
            service,
            datum,
        } = self;
        write!(f, "service {service:?} {way} datum {datum:?}")
    }
}

impl Names {
    /// Names for the parts of a description: for its clouds and for its blocks, in the order of
    /// their numbers. If a list ends too soon, the others are named by their kind and number,
    /// such as `cloud 1` or `datum 4`; names too many are left out.
    #[must_use]
    pub fn new(parts: &Parts, clouds: &[&str], blocks: &[&str]) -> Self {
        let mut names = Names::default();
        for part in parts.in_order() {
            let (cloud, block) = (names.clouds.len(), names.blocks.len());
            let name = match part {
                Part::Cloud(_) => given(clouds, Kind::Cloud, cloud),
                Part::Block(declared) => given(blocks, kind_of(declared), block),
                Part::Edge(_) | Part::Pin(_) | Part::Pair(_) => String::new(),
            };
            names.add(part, name);
        }
        names
    }

    /// Takes up a part; the name is that of a cloud or block, and not looked at otherwise.
    pub(super) fn add(&mut self, part: &Part, name: String) {
        match part {
            Part::Cloud(_) => self.clouds.push(name),
            Part::Block(block) => self.blocks.push((kind_of(block), name)),
            Part::Edge(edge) => self.edges.push(*edge),
            Part::Pin(_) => {}
            Part::Pair(pair) => self.pairs.push(*pair),
        }
    }

    /// How many clouds, blocks, edges or pairs there are.
    pub(super) fn count(&self, kind: Kind) -> usize {
        match kind {
            Kind::Cloud => self.clouds.len(),
            Kind::Block | Kind::Datum | Kind::Service => self.blocks.len(),
            Kind::Edge => self.edges.len(),
            Kind::Pair => self.pairs.len(),
        }
    }

    pub(super) fn edges(&self) -> &[Edge] {
        &self.edges
    }

    pub(super) fn pairs(&self) -> &[Pair] {
        &self.pairs
    }

    /// The name of a cloud.
    #[must_use]
    pub fn cloud(&self, number: usize) -> Option<&str> {
        self.clouds.get(number).map(String::as_str)
    }

    /// The name of a block.
    #[must_use]
    pub fn block(&self, number: usize) -> Option<&str> {
        self.blocks.get(number).map(|(_, name)| name.as_str())
    }

    /// Whether a block is a datum or a service.
    #[must_use]
    pub fn kind(&self, block: usize) -> Option<Kind> {
        self.blocks.get(block).map(|(kind, _)| *kind)
    }

    /// An edge by its names.
    #[must_use]
    pub fn edge(&self, number: usize) -> Option<NamedEdge<'_>> {
        let edge = self.edges.get(number)?;
        Some(NamedEdge {
            way: edge.way,
            service: self.block(edge.service.into())?,
            datum: self.block(edge.datum.into())?,
        })
    }

    /// The names of the two data of a pair.
    #[must_use]
    pub fn pair(&self, number: usize) -> Option<[&str; 2]> {
        let pair = self.pairs.get(number)?;
        Some([self.block(pair.one.into())?, self.block(pair.other.into())?])
    }

    /// The number of the cloud with this name.
    #[must_use]
    pub fn cloud_number(&self, name: &str) -> Option<u8> {
        let named = |cloud: &&String| cloud.as_str() == name;
        let (number, _) = (0..).zip(&self.clouds).find(|(_, cloud)| named(cloud))?;
        Some(number)
    }

    /// The number of the block with this name.
    #[must_use]
    pub fn block_number(&self, name: &str) -> Option<u8> {
        let named = |(_, block): &(Kind, String)| block.as_str() == name;
        let (number, _) = (0..).zip(&self.blocks).find(|(_, block)| named(block))?;
        Some(number)
    }

    /// The name of each block, and the name of the cloud on which it stands; `None` if a block
    /// stands on a cloud that is not declared.
    #[must_use]
    pub fn placed(&self, placement: &Placement) -> Option<Vec<(&str, &str)>> {
        let blocks = self.blocks.iter().zip(placement.0);
        let named = blocks.map(|((_, block), cloud)| {
            let cloud = self.cloud(cloud.into())?;
            Some((block.as_str(), cloud))
        });
        named.collect()
    }

    /// The refusal as a sentence that names the block, the edge or the pair that it speaks of. If
    /// it speaks of none of these, it is shown as it is.
    #[must_use]
    pub fn explain(&self, refusal: &Refusal) -> String {
        match self.place_of(refusal) {
            Some(place) => format!("{place}: {}", refusal.reason()),
            None => refusal.to_string(),
        }
    }

    /// The thing that a refusal speaks of, in words.
    fn place_of(&self, refusal: &Refusal) -> Option<String> {
        let number = usize::try_from(refusal.place).ok()?;
        match refusal.reason() {
            Reason::LocationNotCleared | Reason::NoCandidate => self.block_in_words(number),
            Reason::ReadUp | Reason::WriteDown | Reason::ReadExposes | Reason::WriteExposes => self
                .edge(number)
                .map(|edge| format!("edge {number}, {edge}")),
            Reason::PairMeets => {
                let [one, other] = self.pair(number)?;
                Some(format!("pair {number}, data {one:?} and {other:?}"))
            }
            _ => None,
        }
    }

    fn block_in_words(&self, number: usize) -> Option<String> {
        let (kind, name) = self.blocks.get(number)?;
        Some(format!("{kind} {name:?}"))
    }

    /// Why a placement is no candidate, as a sentence that names the block and the cloud.
    #[must_use]
    pub fn explain_misplaced(&self, misplaced: &Misplaced) -> String {
        let Misplaced {
            position,
            cloud,
            standing,
        } = *misplaced;
        let Some(block) = self.block_in_words(position) else {
            return misplaced.to_string();
        };
        match self.cloud(cloud.into()) {
            Some(name) => format!("{block} on cloud {name:?}: {standing}"),
            None => format!("{block} on cloud {cloud}: {standing}"),
        }
    }
}

fn kind_of(block: &Block) -> Kind {
    match block {
        Block::Datum(_) => Kind::Datum,
        Block::Service(_) => Kind::Service,
    }
}

/// The name at this place of the list, or else the kind and the number.
fn given(names: &[&str], kind: Kind, number: usize) -> String {
    match names.get(number) {
        Some(name) => (*name).to_string(),
        None => format!("{kind} {number}"),
    }
}
