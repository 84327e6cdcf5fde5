//! Options, and the row that stands for each (docs/FORMAT.md, section 4).

use std::collections::HashMap;

use crate::description::{Description, Way};
use crate::rules::{Placement, Priced};

/// No cloud has these numbers: they set off the lists in a key.
const END: u8 = 255;
const EMPTY: u8 = 254;

/// The services at the two sides of a datum, the readers in edge order.
struct Links {
    datum: usize,
    writer: Option<usize>,
    readers: Vec<usize>,
}

impl Links {
    fn of(described: &Description, datum: usize) -> Self {
        let services = |way| {
            let edges = described.edges.iter();
            edges
                .filter(move |e| e.way == way && e.datum == datum)
                .map(|e| e.service)
        };
        Links {
            datum,
            writer: services(Way::Writes).next(),
            readers: services(Way::Reads).collect(),
        }
    }

    /// Adds the datum's stem and branches to a key.
    fn put(&self, placement: &Placement, key: &mut Vec<u8>) {
        let home = placement[self.datum];
        let elsewhere = |service: usize| Some(placement[service]).filter(|&cloud| cloud != home);
        key.extend(self.writer.and_then(elsewhere));
        key.push(home);
        if let [reader] = self.readers[..] {
            key.extend(elsewhere(reader));
        } else {
            let branches = self.readers.iter().map(|&reader| elsewhere(reader));
            key.push(END);
            key.extend(branches.map(|branch| branch.unwrap_or(EMPTY)));
        }
        key.push(END);
    }
}

/// What makes two placements of a description one option.
pub struct Sameness {
    services: Vec<usize>,
    links: Vec<Links>,
}

impl Sameness {
    pub fn of(described: &Description) -> Self {
        let blocks = 0..described.blocks.len();
        let (data, services): (Vec<_>, _) = blocks.partition(|&b| described.blocks[b].is_datum());
        Sameness {
            services,
            links: data.iter().map(|&d| Links::of(described, d)).collect(),
        }
    }

    /// Equal exactly for secure placements of one option.
    pub fn key(&self, placement: &Placement) -> Vec<u8> {
        let mut key = Vec::with_capacity(64);
        key.extend(self.services.iter().map(|&service| placement[service]));
        for links in &self.links {
            links.put(placement, &mut key);
        }
        key
    }
}

/// The placement that stands for each option, with its cost.
pub fn cheapest_by_option(described: &Description) -> HashMap<Vec<u8>, Priced> {
    cheapest_by(described, |placement| described.cost(placement))
}

/// The first placement of each option by what it costs in the caller's view, and then by its bytes.
pub fn cheapest_by(
    described: &Description,
    cost: impl Fn(&Placement) -> u64,
) -> HashMap<Vec<u8>, Priced> {
    let sameness = Sameness::of(described);
    let mut cheapest = HashMap::new();
    for placement in described.candidates() {
        if described.is_secure(&placement) {
            let cost = cost(&placement);
            let priced = Priced { cost, placement };
            cheapest
                .entry(sameness.key(&placement))
                .and_modify(|kept: &mut Priced| *kept = priced.min(*kept))
                .or_insert(priced);
        }
    }
    cheapest
}

/// Those placements in the order of rows.
pub fn sorted_options(described: &Description) -> Vec<Priced> {
    let mut options: Vec<Priced> = cheapest_by_option(described).into_values().collect();
    options.sort_unstable();
    options
}
