//! Descriptions by names: what the builder takes and what it does not, its bytes, and the way back.

use panel::builder::{BuildError, Builder, Kind, Names, Repetition};
use panel::parts::{Block, Cloud, Datum, Pair, Part, Pin, Service, Way};
use panel::{Description, Placement, Reason, Refusal, Standing};

const INTERVIEW: &[u8] = include_bytes!("../../../examples/interview.bin");
const SECOND: &[u8] = include_bytes!("../../../examples/second.bin");
const APART: &[u8] = include_bytes!("../../../examples/apart.bin");

const CLOUD: Cloud = Cloud {
    label: 0,
    storage: 1,
    inward: 2,
    outward: 3,
    cpu: 4,
};
const DATUM: Datum = Datum {
    label: 0,
    size: 5,
    longevity: 6,
};
const SERVICE: Service = Service {
    location: 0,
    clearance: 0,
    units: 7,
};

type Taken<'a> = Result<&'a mut Builder, BuildError>;

/// Two clouds, two data and two services.
fn small() -> Builder {
    let mut builder = Builder::new();
    let built = declare_small(&mut builder).map(|_| ());
    assert_eq!(built, Ok(()));
    builder
}

fn declare_small(builder: &mut Builder) -> Taken<'_> {
    builder
        .cloud("rented", CLOUD)?
        .cloud("own", CLOUD)?
        .datum("film", DATUM)?
        .datum("master", DATUM)?
        .service("cut", SERVICE)?
        .service("grade", SERVICE)
}

/// The call must fail and leave the builder as it was; gives the error and its sentence.
fn refused(builder: &Builder, call: impl Fn(&mut Builder) -> Taken<'_>) -> (BuildError, String) {
    let mut changed = builder.clone();
    let error = call(&mut changed).map(|_| ()).expect_err("it is no call");
    assert_eq!(&changed, builder);
    let sentence = error.to_string();
    (error, sentence)
}

fn text(name: &str) -> String {
    name.to_string()
}

#[test]
fn a_name_is_used_once() {
    let small = small();
    let (error, sentence) = refused(&small, |builder| builder.cloud("own", CLOUD));
    let (kind, name) = (Kind::Cloud, text("own"));
    assert_eq!(error, BuildError::NameTaken { kind, name });
    assert_eq!(
        sentence,
        "there is a cloud \"own\" already; take another name"
    );
    assert_eq!(error.reason(), None);
    // Data and services share their names.
    let (error, _) = refused(&small, |builder| builder.service("film", SERVICE));
    let (kind, name) = (Kind::Block, text("film"));
    assert_eq!(error, BuildError::NameTaken { kind, name });
    let (error, sentence) = refused(&small, |builder| builder.datum("cut", DATUM));
    let name = text("cut");
    assert_eq!(error, BuildError::NameTaken { kind, name });
    assert_eq!(
        sentence,
        "there is a block \"cut\" already; take another name"
    );
    // A cloud may have the name of a block.
    assert!(small.clone().cloud("film", CLOUD).is_ok());
}

#[test]
fn a_name_must_be_there() {
    let small = small();
    let missing = |kind: Kind, name: &str| {
        let sentence = format!("there is no {kind} {name:?} so far; declare it first");
        let name = text(name);
        (BuildError::NotDeclared { kind, name }, sentence)
    };
    let is_missing = |kind, name, call: &dyn Fn(&mut Builder) -> Taken<'_>| {
        assert_eq!(refused(&small, call), missing(kind, name));
    };
    is_missing(Kind::Service, "mix", &|b| b.reads("mix", "film"));
    is_missing(Kind::Datum, "song", &|b| b.writes("cut", "song"));
    is_missing(Kind::Block, "song", &|b| b.pin("song", "own"));
    is_missing(Kind::Cloud, "film", &|b| b.pin("film", "film"));
    is_missing(Kind::Datum, "song", &|b| b.apart("song", "film"));
    is_missing(Kind::Datum, "own", &|b| b.apart("film", "own"));
    let (error, _) = missing(Kind::Cloud, "film");
    assert_eq!(error.reason(), Some(Reason::NotDeclared));
}

#[test]
fn a_name_must_be_of_the_right_kind() {
    let small = small();
    let wrong = |kind: Kind, name: &str| {
        let sentence = format!("block {name:?} is no {kind}");
        let name = text(name);
        (BuildError::WrongKind { kind, name }, sentence)
    };
    let is_wrong = |kind, name, call: &dyn Fn(&mut Builder) -> Taken<'_>| {
        assert_eq!(refused(&small, call), wrong(kind, name));
    };
    is_wrong(Kind::Service, "film", &|b| b.reads("film", "cut"));
    is_wrong(Kind::Datum, "grade", &|b| b.reads("cut", "grade"));
    is_wrong(Kind::Datum, "cut", &|b| b.apart("cut", "film"));
    is_wrong(Kind::Datum, "cut", &|b| b.apart("film", "cut"));
    let (error, _) = wrong(Kind::Datum, "cut");
    assert_eq!(error.reason(), Some(Reason::NotDeclared));
}

#[test]
fn labels_have_a_highest() {
    let small = small();
    let above = |kind: Kind, operand: &'static str| {
        let sentence = format!("{kind} \"more\" has the {operand} 64; the highest is 63");
        let error = BuildError::NoLabel {
            kind,
            name: text("more"),
            operand,
            byte: 64,
        };
        assert_eq!(error.reason(), Some(Reason::LabelTooHigh));
        (error, sentence)
    };
    let cloud = |label| Cloud { label, ..CLOUD };
    let datum = |label| Datum { label, ..DATUM };
    let service = |location, clearance| Service {
        location,
        clearance,
        units: 0,
    };
    let found = refused(&small, |b| b.cloud("more", cloud(64)));
    assert_eq!(found, above(Kind::Cloud, "label"));
    let found = refused(&small, |b| b.datum("more", datum(64)));
    assert_eq!(found, above(Kind::Datum, "label"));
    let found = refused(&small, |b| b.service("more", service(64, 63)));
    assert_eq!(found, above(Kind::Service, "location"));
    let found = refused(&small, |b| b.service("more", service(63, 64)));
    assert_eq!(found, above(Kind::Service, "clearance"));
    let mut highest = small;
    assert!(highest.cloud("more", cloud(63)).is_ok());
    assert!(highest.datum("more", datum(63)).is_ok());
    assert!(highest.service("most", service(63, 63)).is_ok());
}

#[test]
fn there_are_so_many_clouds_and_blocks() {
    let too_many = |kind: Kind, most: usize| {
        let sentence = format!("{kind} \"more\" is one too many; there may be {most}");
        let thing = text("\"more\"");
        (BuildError::TooMany { kind, thing }, sentence)
    };
    let mut full = Builder::new();
    for number in 0..8 {
        assert!(full.cloud(format!("cloud {number}"), CLOUD).is_ok());
    }
    for number in 0..8 {
        assert!(full.datum(format!("datum {number}"), DATUM).is_ok());
        assert!(full.service(format!("service {number}"), SERVICE).is_ok());
    }
    let found = refused(&full, |b| b.cloud("more", CLOUD));
    assert_eq!(found, too_many(Kind::Cloud, 8));
    let found = refused(&full, |b| b.datum("more", DATUM));
    assert_eq!(found, too_many(Kind::Datum, 16));
    let found = refused(&full, |b| b.service("more", SERVICE));
    assert_eq!(found, too_many(Kind::Service, 16));
    assert_eq!(found.0.reason(), Some(Reason::TooMany));
}

#[test]
fn there_are_so_many_edges_and_pairs() {
    let mut full = Builder::new();
    assert!(full.cloud("own", CLOUD).is_ok());
    for number in 0..8 {
        assert!(full.datum(format!("d{number}"), DATUM).is_ok());
        assert!(full.service(format!("s{number}"), SERVICE).is_ok());
    }
    for edge in 0..32 {
        let (service, datum) = (format!("s{}", edge / 8), format!("d{}", edge % 8));
        assert!(full.reads(&service, &datum).is_ok());
    }
    let (error, sentence) = refused(&full, |b| b.writes("s7", "d7"));
    assert_eq!(
        sentence,
        "edge \"s7\" writes \"d7\" is one too many; there may be 32"
    );
    assert_eq!(error.reason(), Some(Reason::TooMany));
    for other in 1..8 {
        assert!(full.apart("d0", &format!("d{other}")).is_ok());
    }
    assert!(full.apart("d1", "d2").is_ok());
    let (error, sentence) = refused(&full, |b| b.apart("d3", "d2"));
    assert_eq!(
        sentence,
        "pair \"d3\" and \"d2\" is one too many; there may be 8"
    );
    assert_eq!(error.reason(), Some(Reason::TooMany));
    let (bytes, _) = full.build().expect("it is whole");
    let edges = Description::read(&bytes).map(|description| description.edges());
    assert_eq!(edges, Ok(32));
}

#[test]
fn edges_are_there_once_and_a_datum_has_one_writer() {
    let mut builder = small();
    let taken = builder
        .reads("cut", "film")
        .and_then(|builder| builder.writes("cut", "film"))
        .and_then(|builder| builder.reads("grade", "film"));
    assert!(taken.is_ok());
    for (way, sentence) in [
        (Way::Reads, "service \"cut\" reads datum \"film\" already"),
        (Way::Writes, "service \"cut\" writes datum \"film\" already"),
    ] {
        let repeated = Repetition::Edge {
            way,
            service: text("cut"),
            datum: text("film"),
        };
        let found = refused(&builder, |builder| match way {
            Way::Reads => builder.reads("cut", "film"),
            Way::Writes => builder.writes("cut", "film"),
        });
        assert_eq!(found, (BuildError::Repeated(repeated), text(sentence)));
    }
    let (datum, writer) = (text("film"), text("cut"));
    let (error, sentence) = refused(&builder, |builder| builder.writes("grade", "film"));
    assert_eq!(error, Repetition::Writer { datum, writer }.into());
    assert_eq!(error.reason(), Some(Reason::Repeated));
    assert_eq!(
        sentence,
        "datum \"film\" has a writer already: service \"cut\""
    );
}

#[test]
fn a_block_has_one_pin() {
    let mut builder = small();
    assert!(builder.pin("cut", "own").is_ok());
    assert!(builder.pin("film", "rented").is_ok());
    for cloud in ["own", "rented"] {
        let (error, sentence) = refused(&builder, |builder| builder.pin("cut", cloud));
        let (block, cloud) = (text("cut"), text("own"));
        assert_eq!(error, Repetition::Pin { block, cloud }.into());
        assert_eq!(error.reason(), Some(Reason::Repeated));
        assert_eq!(
            sentence,
            "block \"cut\" is pinned already: to cloud \"own\""
        );
    }
}

#[test]
fn a_pair_is_two_data_and_there_once() {
    let mut builder = small();
    assert!(builder.apart("film", "master").is_ok());
    for [one, other] in [["film", "master"], ["master", "film"]] {
        let (error, sentence) = refused(&builder, |builder| builder.apart(one, other));
        assert_eq!(
            sentence,
            format!("data {one:?} and {other:?} are apart already")
        );
        let [one, other] = [one, other].map(text);
        assert_eq!(error, Repetition::Pair { one, other }.into());
        assert_eq!(error.reason(), Some(Reason::Repeated));
    }
    let (error, sentence) = refused(&builder, |builder| builder.apart("film", "film"));
    let datum = text("film");
    assert_eq!(error, Repetition::Datum { datum }.into());
    assert_eq!(error.reason(), Some(Reason::Repeated));
    assert_eq!(sentence, "datum \"film\" cannot be apart from itself");
}

#[test]
fn there_must_be_a_cloud_and_a_block() {
    let nothing = |kind: Kind| BuildError::NothingDeclared { kind };
    let mut builder = Builder::new();
    assert_eq!(builder.to_bytes(), Err(nothing(Kind::Cloud)));
    assert!(builder.cloud("own", CLOUD).is_ok());
    assert_eq!(builder.to_bytes(), Err(nothing(Kind::Block)));
    assert_eq!(builder.build().err(), Some(nothing(Kind::Block)));
    assert!(builder.service("cut", SERVICE).is_ok());
    assert!(builder.build().is_ok());
    let mut without_cloud = Builder::new();
    assert!(without_cloud.datum("film", DATUM).is_ok());
    let error = without_cloud.build().unwrap_err();
    assert_eq!(error, nothing(Kind::Cloud));
    assert_eq!(
        error.to_string(),
        "no cloud is declared; declare at least one"
    );
    assert_eq!(error.reason(), Some(Reason::NothingDeclared));
    let error: Box<dyn std::error::Error> = Box::new(nothing(Kind::Block));
    assert_eq!(
        error.to_string(),
        "no block is declared; declare at least one"
    );
}

/// The interview by names.
fn interview(builder: &mut Builder) -> Taken<'_> {
    let rented = Cloud {
        label: 0,
        storage: 10,
        inward: 10,
        outward: 10,
        cpu: 10,
    };
    let datum = |label, size, longevity| Datum {
        label,
        size,
        longevity,
    };
    let service = |clearance, units| Service {
        location: 0,
        clearance,
        units,
    };
    builder
        .cloud("rented", rented)?
        .cloud("own", Cloud { label: 1, ..rented })?
        .datum("interview", datum(1, 100, 12))?
        .service("mask", service(1, 100))?
        .datum("masked", datum(0, 50, 0))?
        .service("grade", service(0, 50))?
        .datum("master", datum(0, 10, 12))?
        .reads("mask", "interview")?
        .writes("mask", "masked")?
        .reads("grade", "masked")?
        .writes("grade", "master")
}

fn built_interview() -> Builder {
    let mut builder = Builder::new();
    let built = interview(&mut builder).map(|_| ());
    assert_eq!(built, Ok(()));
    builder
}

#[test]
fn the_interview_has_the_stored_bytes() {
    let mut builder = built_interview();
    assert_eq!(builder.to_bytes().as_deref(), Ok(INTERVIEW));
    assert!(builder.apart("interview", "master").is_ok());
    let (bytes, names) = builder.build().expect("it is whole");
    assert_eq!(bytes, APART);
    assert_eq!(&names, builder.names());
}

#[test]
fn numbers_have_names_and_names_have_numbers() {
    let mut builder = built_interview();
    assert!(builder.apart("master", "interview").is_ok());
    let (_, names) = builder.build().expect("it is whole");
    assert_eq!((names.cloud(1), names.cloud(2)), (Some("own"), None));
    assert_eq!((names.block(3), names.block(5)), (Some("grade"), None));
    assert_eq!(
        (names.kind(3), names.kind(4)),
        (Some(Kind::Service), Some(Kind::Datum))
    );
    assert_eq!(
        (names.cloud_number("own"), names.cloud_number("mask")),
        (Some(1), None)
    );
    assert_eq!(
        (names.block_number("mask"), names.block_number("own")),
        (Some(1), None)
    );
    let edge = names.edge(1).expect("there are four");
    assert_eq!(
        (edge.way, edge.service, edge.datum),
        (Way::Writes, "mask", "masked")
    );
    assert_eq!(edge.to_string(), "service \"mask\" writes datum \"masked\"");
    assert_eq!(names.edge(4), None);
    assert_eq!(names.pair(0), Some(["master", "interview"]));
    assert_eq!(names.pair(1), None);
    let placed = names.placed(&[1, 1, 0, 0, 1].into());
    let placed = placed.map(|placed| placed.iter().map(|(_, cloud)| *cloud).collect());
    assert_eq!(placed, Some(vec!["own", "own", "rented", "rented", "own"]));
    assert_eq!(names.placed(&[1, 1, 2, 0, 1].into()), None);
}

fn message(number: u8) -> &'static str {
    Reason::from(number).message()
}

/// What Read refuses after a change, and that in words.
fn explained(change: impl Fn(&mut Builder) -> Taken<'_>) -> (u8, String) {
    let mut builder = built_interview();
    assert!(change(&mut builder).is_ok());
    let (bytes, names) = builder.build().expect("it is whole");
    let refusal = Description::read(&bytes).expect_err("a rule is broken");
    (refusal.number, names.explain(&refusal))
}

fn service_of(location: u8, clearance: u8) -> Service {
    Service {
        location,
        clearance,
        units: 0,
    }
}

#[test]
fn refusals_of_a_description_have_names() {
    let found = explained(|builder| builder.service("mix", service_of(1, 0)));
    assert_eq!(found, (9, format!("service \"mix\": {}", message(9))));
    let found = explained(|builder| builder.reads("grade", "interview"));
    let edge = "edge 4, service \"grade\" reads datum \"interview\"";
    assert_eq!(found, (10, format!("{edge}: {}", message(10))));
    let found = explained(|builder| {
        let builder = builder.service("mix", service_of(1, 1))?;
        builder.datum("film", DATUM)?.writes("mix", "film")
    });
    let edge = "edge 4, service \"mix\" writes datum \"film\"";
    assert_eq!(found, (11, format!("{edge}: {}", message(11))));
    // Too many candidates are no matter of one block.
    let found = explained(|builder| {
        for number in 0..6 {
            builder.cloud(format!("more {number}"), CLOUD)?;
            builder.datum(format!("film {number}"), DATUM)?;
        }
        Ok(builder)
    });
    assert_eq!(found, (12, format!("refused 12 0: {}", message(12))));
}

/// The interview with its first and last datum apart.
fn built_apart() -> (Description, Names) {
    let mut builder = built_interview();
    assert!(builder.apart("interview", "master").is_ok());
    let (bytes, names) = builder.build().expect("it is whole");
    (Description::read(&bytes).expect("it is accepted"), names)
}

/// What Judge refuses in words, and the test that led to a 13 in words.
fn judged(placement: Placement) -> (String, Option<String>) {
    let (description, names) = built_apart();
    let refusal = description.judge(&placement).expect_err("it is refused");
    let why = description.why_not(&placement);
    let why = why.map(|misplaced| names.explain_misplaced(&misplaced));
    (names.explain(&refusal), why)
}

#[test]
fn a_misplaced_block_has_its_name() {
    let (sentence, why) = judged([0, 1, 1, 1, 1].into());
    assert_eq!(sentence, format!("datum \"interview\": {}", message(13)));
    let not_covered = Standing::NotCovered.message();
    let expected = format!("datum \"interview\" on cloud \"rented\": {not_covered}");
    assert_eq!(why, Some(expected));
    let (_, why) = judged([1, 7, 1, 1, 1].into());
    let no_cloud = Standing::NoSuchCloud.message();
    assert_eq!(
        why,
        Some(format!("service \"mask\" on cloud 7: {no_cloud}"))
    );
    // There is no block to name.
    let (sentence, why) = judged([1, 1, 1, 1, 1, 1].into());
    assert!(sentence.starts_with("refused 13 5 (position 5): "));
    assert!(why.is_some_and(|why| why.starts_with("position 5, cloud 1: there is no block")));
}

#[test]
fn refusals_of_a_placement_have_names() {
    let (sentence, why) = judged([1, 0, 0, 0, 0].into());
    let edge = "edge 0, service \"mask\" reads datum \"interview\"";
    assert_eq!((sentence, why), (format!("{edge}: {}", message(14)), None));
    let (sentence, why) = judged([1, 1, 1, 1, 1].into());
    let pair = "pair 0, data \"interview\" and \"master\"";
    assert_eq!((sentence, why), (format!("{pair}: {}", message(17)), None));
    let (_, names) = built_apart();
    let fifteen = |place| Refusal { number: 15, place };
    let edge = "edge 3, service \"grade\" writes datum \"master\"";
    let sentence = names.explain(&fifteen(3));
    assert_eq!(sentence, format!("{edge}: {}", message(15)));
    // A place that is not there is shown as it is.
    assert_eq!(names.explain(&fifteen(4)), fifteen(4).to_string());
}

/// Taken apart and built again, with names by number and with names of one's own.
fn comes_back(bytes: &[u8]) {
    let parts = Description::read(bytes).expect("it is accepted").parts();
    for names in [
        Names::new(&parts, &[], &[]),
        Names::new(&parts, &["one"], &["two", "three"]),
    ] {
        let builder = Builder::from_parts(&parts, &names).expect("no name is used twice");
        assert_eq!(builder.parts(), &parts);
        assert_eq!(builder.build(), Ok((bytes.to_vec(), names)));
    }
}

#[test]
fn the_examples_come_back() {
    for bytes in [INTERVIEW, SECOND, APART] {
        comes_back(bytes);
    }
}

#[test]
fn the_parts_of_the_interview() {
    let bytes = [&INTERVIEW[..64], &[6, 4, 0, 7, 4, 0, 0]].concat();
    let parts = Description::read(&bytes).expect("it is accepted").parts();
    assert_eq!(parts.in_order().len(), 13);
    assert!(matches!(parts.in_order()[0], Part::Cloud(_)));
    let is_datum = |block| matches!(block, Block::Datum(_));
    let data: Vec<bool> = parts.blocks().map(is_datum).collect();
    assert_eq!(data, [true, false, true, false, true]);
    let last = parts.edges().last().expect("there are four");
    assert_eq!((last.way, last.service, last.datum), (Way::Writes, 3, 4));
    assert!(parts.pins().eq([Pin { block: 4, cloud: 0 }]));
    assert!(parts.pairs().eq([Pair { one: 4, other: 0 }]));
    comes_back(&bytes);
}

#[test]
fn names_too_few_are_filled_up_and_names_used_twice_are_refused() {
    let parts = built_interview().parts().clone();
    let names = Names::new(&parts, &["rented"], &["interview", "mask"]);
    assert_eq!(names.cloud(1), Some("cloud 1"));
    assert_eq!(
        (names.block(2), names.block(3)),
        (Some("datum 2"), Some("service 3"))
    );
    let twice = Names::new(&parts, &[], &["film", "cut", "film"]);
    let (kind, name) = (Kind::Block, text("film"));
    let error = Builder::from_parts(&parts, &twice).err();
    assert_eq!(error, Some(BuildError::NameTaken { kind, name }));
}

/// Numbers that are the same in every run.
struct Numbers(u64);

impl Numbers {
    fn below(&mut self, limit: u64) -> u64 {
        self.0 = self
            .0
            .wrapping_mul(6_364_136_223_846_793_005)
            .wrapping_add(1);
        (self.0 >> 33) % limit
    }

    fn byte(&mut self, limit: u8) -> u8 {
        self.below(limit.into()) as u8
    }

    fn short(&mut self) -> u16 {
        self.below(65_536) as u16
    }
}

/// One more call with names from small pools, so that many are taken, missing or of the wrong kind.
fn any_call<'a>(builder: &'a mut Builder, numbers: &mut Numbers) -> Taken<'a> {
    let [one, other] = [(); 2].map(|()| format!("b{}", numbers.below(18)));
    let cloud = format!("c{}", numbers.below(9));
    let label = [0, 0, 1, 1, 16, 33, 63, 64][numbers.below(8) as usize];
    match numbers.below(8) {
        0 => {
            let [storage, inward, outward, cpu] = [(); 4].map(|()| numbers.short());
            let declared = Cloud {
                label,
                storage,
                inward,
                outward,
                cpu,
            };
            builder.cloud(cloud, declared)
        }
        1 | 2 => {
            let [size, longevity] = [(); 2].map(|()| numbers.short());
            let declared = Datum {
                label,
                size,
                longevity,
            };
            builder.datum(one, declared)
        }
        3 => {
            let declared = Service {
                location: label,
                clearance: numbers.byte(66),
                units: numbers.below(1 << 32) as u32,
            };
            builder.service(one, declared)
        }
        4 => builder.reads(&one, &other),
        5 => builder.writes(&one, &other),
        6 => builder.pin(&one, &cloud),
        _ => builder.apart(&one, &other),
    }
}

/// Whatever the builder takes, Read finds nothing in it but what the builder cannot know: rules 2,
/// 3 and 4 and the number of candidates. What it accepts comes back.
#[test]
fn what_is_built_is_spelt_well() {
    let mut numbers = Numbers(1);
    let (mut accepted, mut by_rules, mut errors) = (0, [0; 4], 0);
    for _ in 0..3000 {
        let mut builder = Builder::new();
        for _ in 0..4 + numbers.below(60) {
            let before = builder.clone();
            if any_call(&mut builder, &mut numbers).is_err() {
                assert_eq!(builder, before);
                errors += 1;
            }
        }
        let Ok((bytes, names)) = builder.build() else {
            continue;
        };
        match Description::read(&bytes) {
            Ok(_) => {
                comes_back(&bytes);
                accepted += 1;
            }
            Err(refusal) => {
                assert!((9..=12).contains(&refusal.number), "{refusal}");
                assert!(
                    names
                        .explain(&refusal)
                        .ends_with(refusal.reason().message())
                );
                by_rules[usize::from(refusal.number) - 9] += 1;
            }
        }
    }
    assert!(accepted > 300, "{accepted}");
    assert!(by_rules.iter().all(|&times| times > 10), "{by_rules:?}");
    assert!(errors > 10_000, "{errors}");
}
