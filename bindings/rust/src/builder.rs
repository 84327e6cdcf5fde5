//! Descriptions by names: clouds, data and services are declared and named, and edges, pins and
//! pairs speak of them by their names.
//!
//! What the declarations alone show to be wrong is an error before any bytes are made: a name that
//! is not there or is used twice, a thing too many, a byte that is no label, what is repeated, and
//! no cloud or no block. The security rules are the library's to test: rules 2, 3 and 4 and the
//! limit on candidates are refused by [`Description::read`](crate::Description::read), and
//! [`Names::explain`] puts its refusal into words.
//!
//! ```
//! use panel::Description;
//! use panel::builder::Builder;
//! use panel::parts::{Cloud, Datum, Service};
//!
//! # fn main() -> Result<(), Box<dyn std::error::Error>> {
//! let rented = Cloud { label: 0, storage: 10, inward: 10, outward: 10, cpu: 10 };
//! let own = Cloud { label: 1, ..rented };
//! let mut builder = Builder::new();
//! builder
//!     .cloud("rented", rented)?
//!     .cloud("own", own)?
//!     .datum("interview", Datum { label: 1, size: 100, longevity: 12 })?
//!     .service("mask", Service { location: 0, clearance: 1, units: 100 })?
//!     .reads("mask", "interview")?;
//! let (bytes, names) = builder.build()?;
//!
//! let description = Description::read(&bytes).map_err(|refusal| names.explain(&refusal))?;
//! let cheapest = description.rows().next().ok_or("no placement is secure")?;
//! assert_eq!(
//!     names.placed(cheapest.placement()),
//!     Some(vec![("interview", "own"), ("mask", "own")])
//! );
//!
//! let refusal = description.judge(&[1, 0].into()).unwrap_err();
//! let sentence = names.explain(&refusal);
//! assert!(sentence.starts_with("edge 0, service \"mask\" reads datum \"interview\": "));
//!
//! let error = builder.reads("grade", "interview").unwrap_err();
//! assert_eq!(error.to_string(), "there is no service \"grade\" so far; declare it first");
//! # Ok(())
//! # }
//! ```

mod error;
mod names;

pub use error::{BuildError, Kind, Repetition};
pub use names::{NamedEdge, Names};

use crate::Label;
use crate::parts::{Block, Cloud, Datum, Edge, Pair, Part, Parts, Pin, Service, Way};

/// A description in the making. Things get their numbers, and the bytes their order, by the order
/// of the calls. A call that fails changes nothing.
///
/// Clouds have names of their own; data and services share theirs, since both can be pinned.
#[derive(Debug, Clone, PartialEq, Eq, Default)]
pub struct Builder {
    parts: Parts,
    names: Names,
}

impl Builder {
    /// Nothing is declared yet.
    #[must_use]
    pub fn new() -> Self {
        Builder::default()
    }

    /// From the parts of a description and their names, to change it. What the names leave out is
    /// named by its kind and number.
    ///
    /// ```
    /// use panel::Description;
    /// use panel::builder::{Builder, Names};
    ///
    /// # fn main() -> Result<(), Box<dyn std::error::Error>> {
    /// let bytes = include_bytes!("../../../examples/interview.bin");
    /// let parts = Description::read(bytes)?.parts();
    /// let names = Names::new(&parts, &["rented", "own"], &[]);
    /// let mut builder = Builder::from_parts(&parts, &names)?;
    /// assert_eq!(builder.to_bytes()?, bytes);
    /// builder.pin("datum 4", "own")?;
    /// assert_eq!(Description::read(&builder.to_bytes()?)?.census().candidates, 8);
    /// # Ok(())
    /// # }
    /// ```
    ///
    /// # Errors
    ///
    /// Two clouds have the same name, or two blocks.
    pub fn from_parts(parts: &Parts, names: &Names) -> Result<Self, BuildError> {
        let mut builder = Builder::new();
        for part in parts.in_order() {
            builder.add(part, names)?;
        }
        Ok(builder)
    }

    fn add(&mut self, part: &Part, names: &Names) -> Result<&mut Self, BuildError> {
        let cloud = |number: usize| name_or_number(names.cloud(number), Kind::Cloud, number);
        let block = |number: usize| name_or_number(names.block(number), Kind::Block, number);
        match *part {
            Part::Cloud(declared) => self.cloud(cloud(self.names.count(Kind::Cloud)), declared),
            Part::Block(declared) => {
                let name = block(self.names.count(Kind::Block));
                match declared {
                    Block::Datum(datum) => self.datum(name, datum),
                    Block::Service(service) => self.service(name, service),
                }
            }
            Part::Edge(edge) => {
                let [service, datum] = [edge.service, edge.datum].map(|b| block(b.into()));
                self.edge(edge.way, &service, &datum)
            }
            Part::Pin(pin) => self.pin(&block(pin.block.into()), &cloud(pin.cloud.into())),
            Part::Pair(pair) => self.apart(&block(pair.one.into()), &block(pair.other.into())),
        }
    }

    /// Declares a cloud.
    ///
    /// # Errors
    ///
    /// There are eight clouds already, its label is none, or a cloud has this name.
    pub fn cloud(
        &mut self,
        name: impl Into<String>,
        cloud: Cloud,
    ) -> Result<&mut Self, BuildError> {
        let labels = [("label", cloud.label)];
        self.declare(Kind::Cloud, name.into(), &labels, Part::Cloud(cloud))
    }

    /// Declares a datum.
    ///
    /// # Errors
    ///
    /// There are sixteen blocks already, its label is none, or a datum or service has this name.
    pub fn datum(
        &mut self,
        name: impl Into<String>,
        datum: Datum,
    ) -> Result<&mut Self, BuildError> {
        let labels = [("label", datum.label)];
        let part = Part::Block(Block::Datum(datum));
        self.declare(Kind::Datum, name.into(), &labels, part)
    }

    /// Declares a service.
    ///
    /// # Errors
    ///
    /// There are sixteen blocks already, its location or clearance is no label, or a datum or
    /// service has this name.
    pub fn service(
        &mut self,
        name: impl Into<String>,
        service: Service,
    ) -> Result<&mut Self, BuildError> {
        let labels = [
            ("location", service.location),
            ("clearance", service.clearance),
        ];
        let part = Part::Block(Block::Service(service));
        self.declare(Kind::Service, name.into(), &labels, part)
    }

    fn declare(
        &mut self,
        kind: Kind,
        name: String,
        labels: &[(&'static str, u8)],
        part: Part,
    ) -> Result<&mut Self, BuildError> {
        self.has_room(kind, || format!("{name:?}"))?;
        let above = labels.iter().find(|(_, byte)| *byte > Label::HIGHEST);
        if let Some(&(operand, byte)) = above {
            return Err(BuildError::NoLabel {
                kind,
                name,
                operand,
                byte,
            });
        }
        let (taken, kind) = match kind {
            Kind::Cloud => (self.names.cloud_number(&name), Kind::Cloud),
            _ => (self.names.block_number(&name), Kind::Block),
        };
        if taken.is_some() {
            return Err(BuildError::NameTaken { kind, name });
        }
        Ok(self.take(part, name))
    }

    /// Lets a service read a datum.
    ///
    /// # Errors
    ///
    /// There are 32 edges already, a name is not there or is of the other kind, or the service
    /// reads the datum already.
    pub fn reads(&mut self, service: &str, datum: &str) -> Result<&mut Self, BuildError> {
        self.edge(Way::Reads, service, datum)
    }

    /// Lets a service write a datum.
    ///
    /// # Errors
    ///
    /// There are 32 edges already, a name is not there or is of the other kind, or some service
    /// writes the datum already.
    pub fn writes(&mut self, service: &str, datum: &str) -> Result<&mut Self, BuildError> {
        self.edge(Way::Writes, service, datum)
    }

    fn edge(&mut self, way: Way, service: &str, datum: &str) -> Result<&mut Self, BuildError> {
        self.has_room(Kind::Edge, || format!("{service:?} {way} {datum:?}"))?;
        let edge = Edge {
            way,
            service: self.find(Kind::Service, service)?,
            datum: self.find(Kind::Datum, datum)?,
        };
        if self.names.edges().contains(&edge) {
            let [service, datum] = [service, datum].map(str::to_string);
            let repeated = Repetition::Edge {
                way,
                service,
                datum,
            };
            return Err(repeated.into());
        }
        if let Some(writer) = self.writer(edge.datum).filter(|_| way == Way::Writes) {
            let [datum, writer] = [datum, writer].map(str::to_string);
            return Err(Repetition::Writer { datum, writer }.into());
        }
        Ok(self.take(Part::Edge(edge), String::new()))
    }

    /// The name of the service that writes a datum.
    fn writer(&self, datum: u8) -> Option<&str> {
        let mut edges = self.names.edges().iter();
        let writes = |edge: &&Edge| edge.way == Way::Writes && edge.datum == datum;
        self.names.block(edges.find(writes)?.service.into())
    }

    /// Pins a datum or a service to a cloud.
    ///
    /// # Errors
    ///
    /// A name is not there, or the block is pinned already.
    pub fn pin(&mut self, block: &str, cloud: &str) -> Result<&mut Self, BuildError> {
        let pin = Pin {
            block: self.find(Kind::Block, block)?,
            cloud: self.find(Kind::Cloud, cloud)?,
        };
        let known = self.parts.pins().find(|known| known.block == pin.block);
        if let Some(known) = known {
            let cloud = self.names.cloud(known.cloud.into()).unwrap_or(cloud);
            let [block, cloud] = [block, cloud].map(str::to_string);
            return Err(Repetition::Pin { block, cloud }.into());
        }
        Ok(self.take(Part::Pin(pin), String::new()))
    }

    /// Keeps two data apart: no cloud may hold both, or copies of both.
    ///
    /// # Errors
    ///
    /// There are eight pairs already, a name is not there or is a service's, the two are the same,
    /// or they are apart already.
    pub fn apart(&mut self, one: &str, other: &str) -> Result<&mut Self, BuildError> {
        self.has_room(Kind::Pair, || format!("{one:?} and {other:?}"))?;
        let pair = Pair {
            one: self.find(Kind::Datum, one)?,
            other: self.find(Kind::Datum, other)?,
        };
        if pair.one == pair.other {
            let datum = one.to_string();
            return Err(Repetition::Datum { datum }.into());
        }
        let turned = Pair {
            one: pair.other,
            other: pair.one,
        };
        let mut pairs = self.names.pairs().iter();
        if pairs.any(|&known| known == pair || known == turned) {
            let [one, other] = [one, other].map(str::to_string);
            return Err(Repetition::Pair { one, other }.into());
        }
        Ok(self.take(Part::Pair(pair), String::new()))
    }

    /// There may be one more of this kind.
    fn has_room(&self, kind: Kind, thing: impl Fn() -> String) -> Result<(), BuildError> {
        if self.names.count(kind) < kind.most() {
            return Ok(());
        }
        let thing = thing();
        Err(BuildError::TooMany { kind, thing })
    }

    /// The number of the thing with this name, if it is of the kind.
    fn find(&self, kind: Kind, name: &str) -> Result<u8, BuildError> {
        let number = match kind {
            Kind::Cloud => self.names.cloud_number(name),
            _ => self.names.block_number(name),
        };
        let Some(number) = number else {
            let name = name.to_string();
            return Err(BuildError::NotDeclared { kind, name });
        };
        let is_block = matches!(kind, Kind::Datum | Kind::Service);
        if is_block && self.names.kind(number.into()) != Some(kind) {
            let name = name.to_string();
            return Err(BuildError::WrongKind { kind, name });
        }
        Ok(number)
    }

    fn take(&mut self, part: Part, name: String) -> &mut Self {
        self.names.add(&part, name);
        self.parts.push(part);
        self
    }

    /// What is declared so far.
    #[must_use]
    pub fn parts(&self) -> &Parts {
        &self.parts
    }

    /// The names of what is declared so far.
    #[must_use]
    pub fn names(&self) -> &Names {
        &self.names
    }

    /// The bytes of the description.
    ///
    /// # Errors
    ///
    /// There is no cloud, or no block.
    pub fn to_bytes(&self) -> Result<Vec<u8>, BuildError> {
        for kind in [Kind::Cloud, Kind::Block] {
            if self.names.count(kind) == 0 {
                return Err(BuildError::NothingDeclared { kind });
            }
        }
        Ok(self.parts.to_bytes())
    }

    /// The bytes of the description, and the names that turn its numbers into words.
    ///
    /// # Errors
    ///
    /// There is no cloud, or no block.
    pub fn build(&self) -> Result<(Vec<u8>, Names), BuildError> {
        Ok((self.to_bytes()?, self.names.clone()))
    }
}

fn name_or_number(name: Option<&str>, kind: Kind, number: usize) -> String {
    name.map_or_else(|| format!("{kind} {number}"), str::to_string)
}
