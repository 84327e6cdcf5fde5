//! What a builder does not take.

use std::error::Error;
use std::fmt;

use crate::parts::{BLOCKS, CLOUDS, EDGES, PAIRS, Way};
use crate::{Label, Reason};

/// A kind of thing that a description declares.
#[derive(Debug, Clone, Copy, PartialEq, Eq, Hash)]
pub enum Kind {
    /// A cloud.
    Cloud,
    /// A datum or a service.
    Block,
    /// A datum.
    Datum,
    /// A service.
    Service,
    /// A read or a write.
    Edge,
    /// Two data that are kept apart.
    Pair,
}

impl Kind {
    /// How many of them there may be; data and services are counted together.
    #[must_use]
    pub fn most(self) -> usize {
        match self {
            Kind::Cloud => CLOUDS,
            Kind::Block | Kind::Datum | Kind::Service => BLOCKS,
            Kind::Edge => EDGES,
            Kind::Pair => PAIRS,
        }
    }
}

impl fmt::Display for Kind {
    fn fmt(&self, f: &mut fmt::Formatter<'_>) -> fmt::Result {
        f.write_str(match self {
            Kind::Cloud => "cloud",
            Kind::Block => "block",
            Kind::Datum => "datum",
            Kind::Service => "service",
            Kind::Edge => "edge",
            Kind::Pair => "pair",
        })
    }
}

/// What a builder does not take, with the name of the thing. Shown, it is a sentence.
#[derive(Debug, Clone, PartialEq, Eq, Hash)]
#[non_exhaustive]
pub enum BuildError {
    /// There may be no more of this kind.
    TooMany {
        /// What kind of thing it is.
        kind: Kind,
        /// The thing, in words with quoted names.
        thing: String,
    },
    /// A byte is no label.
    NoLabel {
        /// What kind of thing it is.
        kind: Kind,
        /// Its name.
        name: String,
        /// Which byte of it: its label, location or clearance.
        operand: &'static str,
        /// The byte, which is above [`Label::HIGHEST`].
        byte: u8,
    },
    /// Another cloud, or another block, has this name.
    NameTaken {
        /// [`Kind::Cloud`] or [`Kind::Block`].
        kind: Kind,
        /// The name.
        name: String,
    },
    /// Nothing of this kind has this name so far.
    NotDeclared {
        /// What was looked for.
        kind: Kind,
        /// The name.
        name: String,
    },
    /// The name is that of a block of the other kind.
    WrongKind {
        /// What was looked for: [`Kind::Datum`] or [`Kind::Service`].
        kind: Kind,
        /// The name.
        name: String,
    },
    /// What may be there once only is there already.
    Repeated(Repetition),
    /// There is none of this kind, and there must be one.
    NothingDeclared {
        /// [`Kind::Cloud`] or [`Kind::Block`].
        kind: Kind,
    },
}

impl BuildError {
    /// What Read would refuse the bytes with if they were made; nothing for a name that is taken,
    /// since bytes have no names.
    #[must_use]
    pub fn reason(&self) -> Option<Reason> {
        match self {
            BuildError::TooMany { .. } => Some(Reason::TooMany),
            BuildError::NoLabel { .. } => Some(Reason::LabelTooHigh),
            BuildError::NameTaken { .. } => None,
            BuildError::NotDeclared { .. } => Some(Reason::NotDeclared),
            BuildError::WrongKind { .. } => Some(Reason::NotDeclared),
            BuildError::Repeated(_) => Some(Reason::Repeated),
            BuildError::NothingDeclared { .. } => Some(Reason::NothingDeclared),
        }
    }
}

impl Error for BuildError {}

impl fmt::Display for BuildError {
    fn fmt(&self, f: &mut fmt::Formatter<'_>) -> fmt::Result {
        match self {
            BuildError::TooMany { kind, thing } => {
                let most = kind.most();
                write!(f, "{kind} {thing} is one too many; there may be {most}")
            }
            BuildError::NoLabel {
                kind,
                name,
                operand,
                byte,
            } => {
                let highest = Label::HIGHEST;
                write!(
                    f,
                    "{kind} {name:?} has the {operand} {byte}; the highest is {highest}"
                )
            }
            BuildError::NameTaken { kind, name } => {
                write!(f, "there is a {kind} {name:?} already; take another name")
            }
            BuildError::NotDeclared { kind, name } => {
                write!(f, "there is no {kind} {name:?} so far; declare it first")
            }
            BuildError::WrongKind { kind, name } => write!(f, "block {name:?} is no {kind}"),
            BuildError::Repeated(repetition) => repetition.fmt(f),
            BuildError::NothingDeclared { kind } => {
                write!(f, "no {kind} is declared; declare at least one")
            }
        }
    }
}

/// What is there already, or needs two different things.
#[derive(Debug, Clone, PartialEq, Eq, Hash)]
pub enum Repetition {
    /// The edge is there already.
    Edge {
        /// Whether it reads or writes.
        way: Way,
        /// The name of its service.
        service: String,
        /// The name of its datum.
        datum: String,
    },
    /// The datum has a writer already.
    Writer {
        /// The name of the datum.
        datum: String,
        /// The name of the service that writes it.
        writer: String,
    },
    /// The block has a pin already.
    Pin {
        /// The name of the block.
        block: String,
        /// The name of the cloud that it is pinned to.
        cloud: String,
    },
    /// The pair is there already, in this order or the other.
    Pair {
        /// The name of the datum that is named first now.
        one: String,
        /// The name of the datum that is named second now.
        other: String,
    },
    /// Both data of a pair are the same.
    Datum {
        /// The name of the datum.
        datum: String,
    },
}

impl From<Repetition> for BuildError {
    fn from(repetition: Repetition) -> Self {
        BuildError::Repeated(repetition)
    }
}

impl fmt::Display for Repetition {
    fn fmt(&self, f: &mut fmt::Formatter<'_>) -> fmt::Result {
        match self {
            Repetition::Edge {
                way,
                service,
                datum,
            } => write!(f, "service {service:?} {way} datum {datum:?} already"),
            Repetition::Writer { datum, writer } => {
                write!(
                    f,
                    "datum {datum:?} has a writer already: service {writer:?}"
                )
            }
            Repetition::Pin { block, cloud } => {
                write!(f, "block {block:?} is pinned already: to cloud {cloud:?}")
            }
            Repetition::Pair { one, other } => {
                write!(f, "data {one:?} and {other:?} are apart already")
            }
            Repetition::Datum { datum } => {
                write!(f, "datum {datum:?} cannot be apart from itself")
            }
        }
    }
}
