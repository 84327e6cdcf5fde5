//! Builds the interview file by names, prints its options with names, and says in words why two
//! placements are refused. It fails if its bytes are not those of `examples/interview.bin`.

use std::error::Error;

use panel::builder::{Builder, Names};
use panel::parts::{Cloud, Datum, Service};
use panel::{Description, Placement, Row};

const STORED: &[u8] = include_bytes!("../../../examples/interview.bin");

/// All rates are the same; the clouds differ in their labels.
fn cloud(label: u8) -> Cloud {
    Cloud {
        label,
        storage: 10,
        inward: 10,
        outward: 10,
        cpu: 10,
    }
}

fn datum(label: u8, size: u16, longevity: u16) -> Datum {
    Datum {
        label,
        size,
        longevity,
    }
}

fn service(clearance: u8, units: u32) -> Service {
    Service {
        location: 0,
        clearance,
        units,
    }
}

/// The interview's faces are masked, and what is left is graded into a master.
fn interview() -> Result<(Vec<u8>, Names), Box<dyn Error>> {
    let mut builder = Builder::new();
    builder
        .cloud("rented", cloud(0))?
        .cloud("own", cloud(1))?
        .datum("interview", datum(1, 100, 12))?
        .service("mask", service(1, 100))?
        .datum("masked", datum(0, 50, 0))?
        .service("grade", service(0, 50))?
        .datum("master", datum(0, 10, 12))?
        .reads("mask", "interview")?
        .writes("mask", "masked")?
        .reads("grade", "masked")?
        .writes("grade", "master")?;
    Ok(builder.build()?)
}

/// The cost, and for each block the name of its cloud.
fn line(row: &Row, names: &Names) -> Option<String> {
    let placed = names.placed(row.placement())?;
    let blocks = placed
        .iter()
        .map(|(block, cloud)| format!("{block}: {cloud}"));
    let blocks: Vec<String> = blocks.collect();
    Some(format!("{} {}", row.cost(), blocks.join(", ")))
}

/// Why a placement is refused, with names.
fn why(description: &Description, names: &Names, placement: &Placement) -> Option<String> {
    let refusal = description.judge(placement).err()?;
    let misplaced = description.why_not(placement);
    let in_words = misplaced.map(|misplaced| names.explain_misplaced(&misplaced));
    Some(in_words.unwrap_or_else(|| names.explain(&refusal)))
}

fn main() -> Result<(), Box<dyn Error>> {
    let (bytes, names) = interview()?;
    if bytes != STORED {
        return Err("these are not the bytes of examples/interview.bin".into());
    }
    let description = Description::read(&bytes).map_err(|refusal| names.explain(&refusal))?;
    for row in description.list() {
        println!("{}", line(&row, &names).ok_or("a row has a cloud more")?);
    }
    let everything_rented = Placement::default();
    let mask_rented = Placement::from([1, 0, 0, 0, 0]);
    for placement in [everything_rented, mask_rented] {
        let sentence = why(&description, &names, &placement);
        println!("refused: {}", sentence.ok_or("it is secure")?);
    }
    Ok(())
}
