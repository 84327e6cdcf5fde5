//! The rules, the candidates and the cost of one of them (docs/FORMAT.md, sections 2 and 3).

use crate::description::{Block, Cloud, Description, Edge, Kind, Refusal, Way};

/// The cloud of each block, then zeros.
pub type Placement = [u8; 16];

/// A placement and its cost: what rows are ordered by, and a cursor, whose bytes may be any.
#[derive(Clone, Copy, Debug, PartialEq, Eq, PartialOrd, Ord)]
pub struct Priced {
    pub cost: u64,
    pub placement: Placement,
}

/// The placement of an option, its cost, and the amounts that this is made up of.
#[derive(Clone, Copy, Debug, PartialEq, Eq)]
pub struct Row {
    pub cost: u64,
    pub placement: Placement,
    pub storage: u64,
    pub transfer: u64,
    pub cpu: u64,
}

impl Row {
    /// What it is ordered by; the amounts play no part.
    pub fn priced(&self) -> Priced {
        let Row {
            cost, placement, ..
        } = *self;
        Priced { cost, placement }
    }
}

impl Cloud {
    /// What a block is charged where it stands.
    pub fn charge(&self, block: &Block) -> u64 {
        match block.kind {
            Kind::Datum {
                gigabytes,
                longevity,
            } => gigabytes * longevity * self.storage,
            Kind::Service { units, .. } => units * self.cpu,
        }
    }

    /// What a copy of a datum is charged here: one month in storage.
    pub fn month(&self, block: &Block) -> u64 {
        match block.kind {
            Kind::Datum { gigabytes, .. } => gigabytes * self.storage,
            Kind::Service { .. } => 0,
        }
    }
}

impl Description {
    /// Rules 2, 3 and 4 and the limit on candidates: numbers 9 to 12.
    pub(crate) fn check(&self) -> Result<(), Refusal> {
        let blocks = self.blocks.iter().position(breaks_rule_2);
        let reads = self.edges.iter().position(|e| self.breaks_rule_3(e));
        let writes = self.edges.iter().position(|e| self.breaks_rule_4(e));
        let crowd = (self.candidate_count() > 65536).then_some(0);
        for (number, broken) in [(9, blocks), (10, reads), (11, writes), (12, crowd)] {
            if let Some(place) = broken {
                return Err(Refusal { number, place });
            }
        }
        Ok(())
    }

    fn breaks_rule_3(&self, edge: &Edge) -> bool {
        let Kind::Service { clearance, .. } = self.blocks[edge.service].kind else {
            return false;
        };
        edge.way == Way::Reads && !clearance.covers(self.blocks[edge.datum].label)
    }

    fn breaks_rule_4(&self, edge: &Edge) -> bool {
        let [service, datum] = [edge.service, edge.datum].map(|block| self.blocks[block].label);
        edge.way == Way::Writes && !datum.covers(service)
    }

    /// Rule 7 and the pin.
    pub fn may_stand(&self, block: &Block, cloud: usize) -> bool {
        self.clouds[cloud].label.covers(block.label)
            && block.pin.is_none_or(|pin| usize::from(pin) == cloud)
    }

    /// The clouds that a block may stand on.
    fn choices(&self, block: &Block) -> Vec<u8> {
        let clouds = 0..self.clouds.len();
        clouds
            .filter(|&cloud| self.may_stand(block, cloud))
            .map(|cloud| cloud as u8)
            .collect()
    }

    pub fn candidate_count(&self) -> u64 {
        let choices = |block| {
            let clouds = 0..self.clouds.len();
            clouds.filter(|&c| self.may_stand(block, c)).count() as u64
        };
        self.blocks.iter().map(choices).product()
    }

    pub fn candidates(&self) -> Candidates {
        Candidates::of(self.blocks.iter().map(|b| self.choices(b)).collect())
    }

    /// The edge would leave a copy on a cloud that does not cover the datum's label: rule 16 for a
    /// read, 17 for a write.
    pub fn exposes(&self, edge: &Edge, service: usize, datum: usize) -> bool {
        let label = self.blocks[edge.datum].label;
        service != datum && !self.clouds[service].label.covers(label)
    }

    /// What the edge's transfer is charged, its service and datum on these clouds.
    pub fn transfer(&self, edge: &Edge, service: usize, datum: usize) -> u64 {
        let Kind::Datum { gigabytes, .. } = self.blocks[edge.datum].kind else {
            return 0;
        };
        let (source, destination) = match edge.way {
            Way::Reads => (datum, service),
            Way::Writes => (service, datum),
        };
        if source == destination {
            return 0;
        }
        gigabytes * (self.clouds[source].outward + self.clouds[destination].inward)
    }

    /// What the copy is charged that the edge's transfer leaves with its service.
    pub fn copy(&self, edge: &Edge, service: usize, datum: usize) -> u64 {
        if service == datum {
            return 0;
        }
        self.clouds[service].month(&self.blocks[edge.datum])
    }

    /// The clouds that hold a datum, a bit for each: its own, and those where a transfer leaves a
    /// copy.
    fn holders(&self, datum: usize, placement: &Placement) -> u8 {
        let mut clouds = 1 << placement[datum];
        for edge in self.edges.iter().filter(|e| e.datum == datum) {
            let [service, home] = edge.ends(placement);
            if service != home {
                clouds |= 1 << service;
            }
        }
        clouds
    }

    /// The first pair whose data some cloud holds both of.
    pub fn first_meeting(&self, placement: &Placement) -> Option<usize> {
        let meets = |pair: &[usize; 2]| {
            let [one, other] = pair.map(|datum| self.holders(datum, placement));
            one & other != 0
        };
        self.apart.iter().position(meets)
    }

    pub fn is_secure(&self, placement: &Placement) -> bool {
        let exposes = |e: &Edge| {
            let [service, datum] = e.ends(placement);
            self.exposes(e, service, datum)
        };
        !self.edges.iter().any(exposes) && self.first_meeting(placement).is_none()
    }

    pub fn cost(&self, placement: &Placement) -> u64 {
        let charge = |edge: &Edge, service, datum| {
            self.transfer(edge, service, datum) + self.copy(edge, service, datum)
        };
        self.in_place(placement, |_| true) + self.over_edges(placement, charge)
    }

    /// The placement with its cost, and with each amount as a sum of its own.
    pub fn row(&self, priced: Priced) -> Row {
        let Priced { cost, placement } = priced;
        Row {
            cost,
            placement,
            storage: self.in_place(&placement, Block::is_datum) + self.copies(&placement),
            transfer: self.moving(&placement),
            cpu: self.in_place(&placement, |block| !block.is_datum()),
        }
    }

    /// What some of the blocks are charged where they stand: data for their time in storage,
    /// services for cpu.
    fn in_place(&self, placement: &Placement, counts: impl Fn(&Block) -> bool) -> u64 {
        let blocks = self.blocks.iter().zip(placement);
        blocks
            .filter(|(block, _)| counts(block))
            .map(|(block, &cloud)| self.clouds[usize::from(cloud)].charge(block))
            .sum()
    }

    /// What all transfers are charged.
    fn moving(&self, placement: &Placement) -> u64 {
        self.over_edges(placement, |edge, service, datum| {
            self.transfer(edge, service, datum)
        })
    }

    /// What all copies are charged.
    pub fn copies(&self, placement: &Placement) -> u64 {
        self.over_edges(placement, |edge, service, datum| {
            self.copy(edge, service, datum)
        })
    }

    /// The sum over all edges of a charge, by the clouds of their services and data.
    fn over_edges(
        &self,
        placement: &Placement,
        charge: impl Fn(&Edge, usize, usize) -> u64,
    ) -> u64 {
        let edges = self.edges.iter();
        let charges = edges.map(|edge| {
            let [service, datum] = edge.ends(placement);
            charge(edge, service, datum)
        });
        charges.sum()
    }
}

fn breaks_rule_2(block: &Block) -> bool {
    matches!(block.kind, Kind::Service { clearance, .. } if !clearance.covers(block.label))
}

impl Edge {
    /// The clouds of the edge's service and of its datum.
    pub fn ends(&self, placement: &Placement) -> [usize; 2] {
        [self.service, self.datum].map(|block| usize::from(placement[block]))
    }
}

/// All candidates in dictionary order, counted up like the wheels of an odometer.
pub struct Candidates {
    choices: Vec<Vec<u8>>,
    picks: [usize; 16],
    upcoming: Option<Placement>,
}

impl Candidates {
    fn of(choices: Vec<Vec<u8>>) -> Self {
        let mut first = [0; 16];
        let mut some = true;
        for (cloud, choice) in first.iter_mut().zip(&choices) {
            match choice.first() {
                Some(&lowest) => *cloud = lowest,
                None => some = false,
            }
        }
        Candidates {
            choices,
            picks: [0; 16],
            upcoming: some.then_some(first),
        }
    }

    fn after(&mut self, mut placement: Placement) -> Option<Placement> {
        for (b, choice) in self.choices.iter().enumerate().rev() {
            self.picks[b] += 1;
            if let Some(&cloud) = choice.get(self.picks[b]) {
                placement[b] = cloud;
                return Some(placement);
            }
            self.picks[b] = 0;
            placement[b] = choice[0];
        }
        None
    }
}

impl Iterator for Candidates {
    type Item = Placement;

    fn next(&mut self) -> Option<Placement> {
        let placement = self.upcoming?;
        self.upcoming = self.after(placement);
        Some(placement)
    }
}
