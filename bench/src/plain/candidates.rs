//! The candidates, which of them are secure, what each costs, and which are one option
//! (docs/FORMAT.md, sections 2, 3 and 4).

use super::description::{Block, Cloud, Description, Edge, Few, Kind, Way};

/// The cloud of each block, then zeros.
pub type Clouds = [u8; 16];

/// All candidates in dictionary order, counted up like the wheels of an odometer.
pub struct Candidates {
    /// A bit for each cloud that the block may stand on.
    masks: [u8; 16],
    blocks: usize,
    upcoming: Option<Clouds>,
}

impl Candidates {
    fn of(described: &Description) -> Self {
        let (masks, blocks) = (described.masks(), described.blocks.len());
        let mut first = [0; 16];
        for (cloud, mask) in first.iter_mut().zip(&masks[..blocks]) {
            *cloud = mask.trailing_zeros() as u8;
        }
        let some = !masks[..blocks].contains(&0);
        Candidates {
            masks,
            blocks,
            upcoming: some.then_some(first),
        }
    }

    fn after(&self, mut placement: Clouds) -> Option<Clouds> {
        for b in (0..self.blocks).rev() {
            // The clouds above its own.
            let higher = self.masks[b] & (0xFE << placement[b]);
            if higher != 0 {
                placement[b] = higher.trailing_zeros() as u8;
                return Some(placement);
            }
            placement[b] = self.masks[b].trailing_zeros() as u8;
        }
        None
    }
}

impl Iterator for Candidates {
    type Item = Clouds;

    fn next(&mut self) -> Option<Clouds> {
        let placement = self.upcoming?;
        self.upcoming = self.after(placement);
        Some(placement)
    }
}

impl Edge {
    /// The clouds of the edge's service and of its datum.
    fn ends(&self, placement: &Clouds) -> [u8; 2] {
        [self.service, self.datum].map(|block| placement[usize::from(block)])
    }

    /// The cloud that the datum leaves and the one that it enters.
    pub fn course(&self, placement: &Clouds) -> [u8; 2] {
        let [service, datum] = self.ends(placement);
        match self.way {
            Way::Reads => [datum, service],
            Way::Writes => [service, datum],
        }
    }
}

impl Block {
    /// What the datum's gigabytes are charged at these rates, all together.
    fn charged<const N: usize>(&self, rates: [u16; N]) -> u64 {
        match self.kind {
            Kind::Datum { gigabytes, .. } => {
                u64::from(gigabytes) * rates.map(u64::from).iter().sum::<u64>()
            }
            Kind::Service { .. } => 0,
        }
    }
}

impl Cloud {
    /// What a block is charged where it stands.
    fn charge(&self, block: &Block) -> u64 {
        match block.kind {
            Kind::Datum {
                gigabytes,
                longevity,
            } => u64::from(gigabytes) * u64::from(longevity) * u64::from(self.storage),
            Kind::Service { units, .. } => u64::from(units) * u64::from(self.cpu),
        }
    }
}

impl Description {
    pub fn candidates(&self) -> Candidates {
        Candidates::of(self)
    }

    fn cloud(&self, number: u8) -> &Cloud {
        &self.clouds[usize::from(number)]
    }

    fn datum(&self, edge: &Edge) -> &Block {
        &self.blocks[usize::from(edge.datum)]
    }

    /// The edge leaves a copy on a cloud that does not cover the datum's label: rule 16 for a read,
    /// 17 for a write.
    fn exposes(&self, edge: &Edge, placement: &Clouds) -> bool {
        let [service, datum] = edge.ends(placement);
        service != datum && !self.cloud(service).label.covers(self.datum(edge).label)
    }

    /// The first edge that breaks rule 16, where the way is reads, or 17.
    pub fn first_breaking(&self, way: Way, placement: &Clouds) -> Option<usize> {
        let breaks = |e: &Edge| e.way == way && self.exposes(e, placement);
        self.edges.iter().position(breaks)
    }

    /// What a candidate costs; none where it breaks rule 16 or 17.
    pub fn cost(&self, placement: &Clouds) -> Option<u64> {
        let mut cost = 0;
        for edge in self.edges.iter() {
            let [service, home] = edge.ends(placement);
            if service == home {
                continue;
            }
            let (service, home, datum) = (self.cloud(service), self.cloud(home), self.datum(edge));
            if !service.label.covers(datum.label) {
                return None;
            }
            let [outward, inward] = match edge.way {
                Way::Reads => [home.outward, service.inward],
                Way::Writes => [service.outward, home.inward],
            };
            // The copy lies with the service for a month.
            cost += datum.charged([outward, inward, service.storage]);
        }
        for (block, &cloud) in self.blocks.iter().zip(placement) {
            cost += self.cloud(cloud).charge(block);
        }
        Some(cost)
    }

    /// What a secure placement is charged for storage, copies and all, for transfers and for cpu.
    pub fn amounts(&self, placement: &Clouds) -> [u64; 3] {
        let [mut storage, mut transfer, mut cpu] = [0; 3];
        for (block, &cloud) in self.blocks.iter().zip(placement) {
            let charge = self.cloud(cloud).charge(block);
            match block.kind {
                Kind::Datum { .. } => storage += charge,
                Kind::Service { .. } => cpu += charge,
            }
        }
        for edge in self.edges.iter() {
            let [leaves, enters] = edge.course(placement);
            if leaves != enters {
                let (datum, [service, _]) = (self.datum(edge), edge.ends(placement));
                let (outward, inward) = (self.cloud(leaves).outward, self.cloud(enters).inward);
                transfer += datum.charged([outward, inward]);
                storage += datum.charged([self.cloud(service).storage]);
            }
        }
        [storage, transfer, cpu]
    }
}

impl Description {
    /// A bit for each block whose cloud holds the datum: itself, and the services that read or write
    /// it, which have a copy where they stand elsewhere.
    fn holders(&self, datum: u8) -> u16 {
        let edges = self.edges.iter().filter(|e| e.datum == datum);
        edges.fold(1 << datum, |blocks, edge| blocks | 1 << edge.service)
    }

    /// The first pair whose data some cloud holds both of.
    pub fn first_meeting(&self, placement: &Clouds) -> Option<usize> {
        let clouds = |datum| {
            let holders = self.holders(datum);
            let blocks = (0..16).filter(|block| (holders >> block) & 1 == 1);
            blocks.fold(0u8, |clouds, block| clouds | 1 << placement[block])
        };
        let meets = |&[one, other]: &[u8; 2]| clouds(one) & clouds(other) != 0;
        self.apart.iter().position(meets)
    }
}

/// Blocks that may not share a cloud, of two the later one first: each time one whose cloud holds
/// the one datum of a pair and one whose cloud holds the other. Most descriptions have no pairs,
/// and do without the list.
pub struct Conflicts(Option<Few<[u8; 2], 136>>);

impl Conflicts {
    pub fn of(described: &Description) -> Self {
        if described.apart.is_empty() {
            return Conflicts(None);
        }
        let mut foes = [0u16; 16];
        for pair in described.apart.iter() {
            let [one, other] = pair.map(|datum| described.holders(datum));
            for (block, foes) in foes.iter_mut().enumerate() {
                if (one >> block) & 1 == 1 {
                    *foes |= other;
                }
                if (other >> block) & 1 == 1 {
                    *foes |= one;
                }
            }
        }
        let mut conflicts = Few::none([0; 2]);
        for (later, foes) in foes.iter().enumerate() {
            for earlier in (0..=later).filter(|block| (foes >> block) & 1 == 1) {
                conflicts.push([later as u8, earlier as u8]);
            }
        }
        Conflicts(Some(conflicts))
    }

    /// All pairs are kept.
    pub fn are_kept(&self, placement: &Clouds) -> bool {
        let cloud = |block: u8| placement[usize::from(block)];
        let clash = |&[one, other]: &[u8; 2]| cloud(one) == cloud(other);
        let conflicts = self.0.as_deref().unwrap_or_default();
        !conflicts.iter().any(clash)
    }
}

/// A datum that has a writer and only one reader.
#[derive(Clone, Copy)]
struct Link {
    datum: usize,
    writer: usize,
    reader: usize,
}

/// What makes two placements of a description one option.
pub struct Sameness(Few<Link, 16>);

impl Sameness {
    pub fn of(described: &Description) -> Self {
        let (mut writers, mut readers, mut counts) = ([None; 16], [0; 16], [0; 16]);
        for edge in described.edges.iter() {
            let [service, datum] = [edge.service, edge.datum].map(usize::from);
            match edge.way {
                Way::Writes => writers[datum] = Some(service),
                Way::Reads => {
                    readers[datum] = service;
                    counts[datum] += 1;
                }
            }
        }
        let mut links = Few::none(Link {
            datum: 0,
            writer: 0,
            reader: 0,
        });
        for datum in 0..16 {
            if let (Some(writer), 1) = (writers[datum], counts[datum]) {
                let reader = readers[datum];
                links.push(Link {
                    datum,
                    writer,
                    reader,
                });
            }
        }
        Sameness(links)
    }

    /// Equal exactly for secure placements of one option. A datum of a link goes from its writer to
    /// its reader whether it stands with the one or the other; anywhere else, and for all other
    /// blocks, another cloud is another option.
    pub fn key(&self, placement: &Clouds) -> u64 {
        let mut same = *placement;
        for link in self.0.iter() {
            if placement[link.datum] == placement[link.reader] {
                same[link.datum] = placement[link.writer];
            }
        }
        packed(&same)
    }
}

/// The clouds as the digits of one number to the base 8, the first block's digit the highest.
pub fn packed(clouds: &[u8]) -> u64 {
    clouds.iter().fold(0, |n, &cloud| n * 8 + u64::from(cloud))
}

/// The clouds of so many blocks, from their digits.
pub fn unpacked(packed: u64, blocks: usize) -> Clouds {
    let mut clouds = [0; 16];
    let mut rest = packed;
    for cloud in clouds[..blocks].iter_mut().rev() {
        *cloud = (rest % 8) as u8;
        rest /= 8;
    }
    clouds
}
