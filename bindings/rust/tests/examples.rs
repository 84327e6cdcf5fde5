//! The stored examples and the examples of docs/FORMAT.md, through the public types.

use panel::{Bill, Census, Cursor, Description, Label, Misplaced, NoLabel, NoPlacement, Placement};
use panel::{Reason, Refusal, Row, Rows, Standing, Transfer, builder, calls, parts};

const INTERVIEW: &[u8] = include_bytes!("../../../examples/interview.bin");
const SECOND: &[u8] = include_bytes!("../../../examples/second.bin");
const APART: &[u8] = include_bytes!("../../../examples/apart.bin");

const CLOUD: [u8; 10] = [1, 0, 0, 0, 0, 0, 0, 0, 0, 0];
const DATUM: [u8; 6] = [2, 0, 0, 0, 0, 0];
const SERVICE: [u8; 7] = [3, 0, 0, 0, 0, 0, 0];

fn accepted(bytes: &[u8]) -> Description {
    Description::read(bytes).expect("the description is accepted")
}

fn refusal(bytes: &[u8]) -> (u8, u64) {
    let refusal = Description::read(bytes).expect_err("the description is refused");
    (refusal.number, refusal.place)
}

/// Free clouds and data without edges.
fn data_alone(clouds: usize, data: usize) -> Vec<u8> {
    [&CLOUD.repeat(clouds)[..], &DATUM.repeat(data), &[0]].concat()
}

fn printed(description: &Description) -> String {
    let rows = description.list();
    let lines: String = rows.iter().map(|row| format!("{row}\n")).collect();
    format!("{lines}options {}\n", rows.len())
}

#[test]
fn the_examples_are_listed_as_stored() {
    let stored = include_str!("../../../examples/interview.expected");
    assert_eq!(printed(&accepted(INTERVIEW)), stored);
    let stored = include_str!("../../../examples/second.expected");
    assert_eq!(printed(&accepted(SECOND)), stored);
    let stored = include_str!("../../../examples/apart.expected");
    assert_eq!(printed(&accepted(APART)), stored);
}

#[test]
fn draws_and_list_have_the_same_rows() {
    for bytes in [INTERVIEW, SECOND, APART, &data_alone(3, 4)] {
        let description = accepted(bytes);
        let drawn: Vec<_> = description.rows().collect();
        assert_eq!(drawn, description.list());
        assert!(drawn.is_sorted_by(|one, other| one < other));
        assert_eq!(drawn.len() as u64, description.census().options);
    }
}

#[test]
fn the_amounts_of_a_row_make_up_its_cost() {
    for bytes in [INTERVIEW, SECOND] {
        for row in accepted(bytes).list() {
            assert_eq!(row.cost(), row.storage() + row.transfer() + row.cpu());
        }
    }
    let first = accepted(SECOND).draw(Cursor::Start);
    let amounts = first.map(|row| [row.storage(), row.transfer(), row.cpu()]);
    assert_eq!(amounts, Some([3950, 50, 2350]));
}

#[test]
fn a_list_takes_what_its_rows_need() {
    let list = |rows: usize, scratch: usize| {
        let (mut rows, mut scratch) = (vec![7; rows], vec![7; scratch]);
        let listed = calls::list(INTERVIEW, &mut rows, &mut scratch, &mut [0; 2]);
        listed.map(|()| (rows, scratch))
    };
    let (rows, scratch) = list(31, 13).expect("six rows fit");
    assert_eq!(rows[25..], [3150, 0o11010, 1430, 220, 1500, 7]);
    assert_eq!(scratch, [0, 0, 0, 0, 0, 0, 0, 0, 0, 0, 0, 0, 7]);
    let refusal = Refusal {
        number: 16,
        place: 30,
    };
    assert!(list(30, 12).is_ok());
    assert_eq!(list(29, 12), Err(refusal));
    assert_eq!(list(30, 11), Err(refusal));
}

#[test]
fn every_row_is_secure() {
    for bytes in [SECOND, APART] {
        let description = accepted(bytes);
        for row in description.list() {
            assert_eq!(description.judge(row.placement()), Ok(()));
        }
    }
}

#[test]
fn rows_stay_finished() {
    let description = accepted(INTERVIEW);
    let mut rows = description.rows();
    assert_eq!(rows.by_ref().count(), 6);
    assert_eq!((rows.next(), rows.next()), (None, None));
}

#[test]
fn the_description_keeps_its_bytes_and_counts() {
    let description = accepted(INTERVIEW);
    assert_eq!(description.bytes(), INTERVIEW);
    assert_eq!(description.clouds(), 2);
    assert_eq!(description.blocks(), 5);
    assert_eq!(description.edges(), 4);
    assert_eq!(description.clone(), description);
}

#[test]
fn descriptions_are_refused_as_documented() {
    assert_eq!(refusal(&[]), (1, 0));
    assert_eq!(refusal(&[0]), (8, 1));
    assert_eq!(refusal(&[0, 0]), (3, 1));
    assert_eq!(refusal(&INTERVIEW[..64]), (1, 64));
    assert_eq!(refusal(&INTERVIEW[..63]), (1, 61));
    assert_eq!(refusal(&[INTERVIEW, &[7]].concat()), (3, 65));
    assert_eq!(refusal(&data_alone(3, 11)), (12, 0));
}

/// The interview with commands before its end.
fn interview_with(commands: &[u8]) -> Vec<u8> {
    [&INTERVIEW[..64], commands, &[0]].concat()
}

/// The bytes of the declared blocks; those past the last one are 0.
fn masks(bytes: &[u8]) -> Vec<u8> {
    let description = accepted(bytes);
    let mut masks = [7; 16];
    assert_eq!(calls::masks(bytes, &mut masks), Ok(()));
    assert_eq!(description.masks(), masks);
    let (declared, rest) = masks.split_at(description.blocks());
    assert!(rest.iter().all(|&mask| mask == 0));
    declared.to_vec()
}

#[test]
fn the_examples_have_their_masks() {
    assert_eq!(masks(INTERVIEW), [2, 3, 3, 3, 3]);
    assert_eq!(masks(SECOND), [3, 2, 2, 2, 3, 2, 3, 3, 2, 2]);
    // A pair takes nothing from the clouds that each datum may use.
    assert_eq!(masks(APART), masks(INTERVIEW));
}

fn datum(label: u8) -> Vec<u8> {
    vec![2, label, 0, 0, 0, 0]
}

fn service(location: u8, clearance: u8) -> Vec<u8> {
    vec![3, location, clearance, 0, 0, 0, 0]
}

/// Clouds of these labels, and then these commands.
fn on_clouds(labels: &[u8], commands: &[Vec<u8>]) -> Vec<u8> {
    let cloud = |&label| [1, label, 0, 0, 0, 0, 0, 0, 0, 0];
    let clouds: Vec<_> = labels.iter().map(cloud).collect();
    [clouds.as_flattened(), &commands.concat(), &[0]].concat()
}

/// Eight clouds whose levels rise and fall.
const MIXED: [u8; 8] = [2, 1, 0, 1, 0, 1, 0, 2];

#[test]
fn a_mask_has_the_clouds_that_are_high_enough() {
    let data: Vec<_> = (0..4).map(datum).collect();
    assert_eq!(masks(&on_clouds(&MIXED, &data)), [0xff, 0xab, 0x81, 0]);
    // A service's location counts, and not its clearance.
    let services: Vec<_> = (0..4).map(|location| service(location, 15)).collect();
    assert_eq!(masks(&on_clouds(&MIXED, &services)), [0xff, 0xab, 0x81, 0]);
    // Clouds that are not declared are nowhere to stand, although level 0 would do.
    assert_eq!(masks(&on_clouds(&MIXED[..3], &data)), [7, 3, 1, 0]);
    assert_eq!(masks(&data_alone(2, 16)), [3; 16]);
}

/// The four combinations of marks, without a level.
const MARKS: [u8; 4] = [
    0,
    Label::EMBARGO,
    Label::SOURCE,
    Label::EMBARGO | Label::SOURCE,
];

#[test]
fn a_mask_has_the_clouds_that_cover_the_label() {
    let data: Vec<_> = MARKS.into_iter().map(datum).collect();
    assert_eq!(masks(&on_clouds(&MARKS, &data)), [0xf, 0xa, 0xc, 0x8]);
    let services: Vec<_> = MARKS.into_iter().map(|mark| service(mark, 63)).collect();
    assert_eq!(masks(&on_clouds(&MARKS, &services)), [0xf, 0xa, 0xc, 0x8]);
    // A higher level is no mark, and a mark is no level.
    let both = Label::EMBARGO | 1;
    let clouds = [15, Label::EMBARGO, both, 15 | Label::SOURCE];
    assert_eq!(masks(&on_clouds(&clouds, &[datum(both)])), [0b100]);
}

#[test]
fn a_pin_leaves_one_cloud_or_none() {
    let pinned = |block: Vec<u8>, cloud| masks(&on_clouds(&MIXED, &[block, vec![6, 0, cloud]]));
    assert_eq!(pinned(datum(0), 0), [0x01]);
    assert_eq!(pinned(datum(0), 2), [0x04]);
    assert_eq!(pinned(datum(1), 3), [0x08]);
    assert_eq!(pinned(service(2, 2), 7), [0x80]);
    // Cloud 2 is too low, and the pin does not lift that.
    assert_eq!(pinned(datum(1), 2), [0]);
    assert_eq!(pinned(service(1, 15), 2), [0]);
}

#[test]
fn masks_are_refused_as_read_is() {
    let one_cloud = |commands: &[Vec<u8>]| on_clouds(&[0], commands);
    let refused = [
        vec![],
        vec![255],
        [INTERVIEW, &[0]].concat(),
        data_alone(9, 1),
        on_clouds(&[64], &[]),
        interview_with(&[4, 0, 0]),
        interview_with(&[4, 1, 0]),
        vec![0],
        one_cloud(&[service(1, 0)]),
        one_cloud(&[service(0, 0), datum(1), vec![4, 0, 1]]),
        one_cloud(&[service(1, 1), datum(0), vec![5, 0, 1]]),
        data_alone(3, 11),
    ];
    for (number, bytes) in (1..).zip(refused) {
        let mut masks = [7; 16];
        let refusal = calls::masks(&bytes, &mut masks).unwrap_err();
        assert_eq!(refusal.number, number);
        assert_eq!(Description::read(&bytes), Err(refusal));
        assert_eq!(masks, [7; 16]);
    }
}

/// A service reads or writes a marked datum; cloud 0 has the mark, and cloud 1 the highest level.
fn moved(way: u8) -> Vec<u8> {
    let commands = [datum(Label::SOURCE), service(0, 63), vec![way, 1, 0]];
    on_clouds(&[Label::SOURCE, 15], &commands)
}

#[test]
fn a_level_does_not_make_up_for_a_mark() {
    let refused = |commands: &[Vec<u8>]| refusal(&on_clouds(&[63], commands));
    assert_eq!(refused(&[service(Label::EMBARGO, 15)]), (9, 0));
    let reads = [service(0, 15), datum(Label::EMBARGO), vec![4, 0, 1]];
    assert_eq!(refused(&reads), (10, 0));
    let writes = [service(Label::SOURCE, 63), datum(15), vec![5, 0, 1]];
    assert_eq!(refused(&writes), (11, 0));
    let judged = |bytes: &[u8], clouds: [u8; 2]| {
        let refused = accepted(bytes).judge(&clouds.into()).err();
        refused.map(|refusal| (refusal.number, refusal.place))
    };
    assert_eq!(judged(&moved(4), [1, 0]), Some((13, 0)));
    assert_eq!(judged(&moved(4), [0, 1]), Some((14, 0)));
    assert_eq!(judged(&moved(5), [0, 1]), Some((15, 0)));
    assert_eq!(judged(&moved(5), [0, 0]), None);
}

/// A datum, a pinned service and a datum with few clouds.
fn on_mixed_clouds() -> Vec<u8> {
    let pin = vec![6, 1, 5];
    on_clouds(&MIXED, &[datum(0), service(1, 2), datum(2), pin])
}

#[test]
fn the_candidates_are_a_product_of_masks() {
    for bytes in [INTERVIEW, SECOND, APART, &on_mixed_clouds()] {
        let masks = masks(bytes);
        let choices = masks.iter().map(|mask| u64::from(mask.count_ones()));
        let candidates = accepted(bytes).census().candidates;
        assert_eq!(choices.product::<u64>(), candidates);
    }
}

#[test]
fn a_block_of_a_candidate_moves_on_the_clouds_of_its_mask() {
    for bytes in [INTERVIEW, SECOND, APART, &on_mixed_clouds()] {
        let description = accepted(bytes);
        let masks = description.masks();
        let candidate = Placement(masks.map(|mask| (mask.trailing_zeros() % 8) as u8));
        let moves = |block, cloud| {
            let mut moved = candidate;
            moved.0[block] = cloud;
            let refused = description.judge(&moved).err();
            refused.is_none_or(|refusal| refusal.number != 13)
        };
        for (block, &mask) in masks[..description.blocks()].iter().enumerate() {
            for cloud in 0..=255 {
                let offered = cloud < 8 && mask >> cloud & 1 == 1;
                assert_eq!(moves(block, cloud), offered, "{block} to {cloud}");
            }
        }
    }
}

#[test]
fn pairs_are_refused_as_documented() {
    assert_eq!(interview_with(&[7, 0, 4]), APART);
    let refusal = |commands: &[u8]| refusal(&interview_with(commands));
    assert_eq!(refusal(&[7, 0, 1]), (6, 64));
    assert_eq!(refusal(&[7, 5, 0]), (6, 64));
    assert_eq!(refusal(&[7, 4, 4]), (7, 64));
    assert_eq!(refusal(&[7, 0, 4, 7, 4, 0]), (7, 67));
    // Eight of the ten pairs of five data; the ninth is one too many, whatever it names.
    let pairs = [
        [7, 0, 1],
        [7, 0, 2],
        [7, 0, 3],
        [7, 0, 4],
        [7, 1, 2],
        [7, 1, 3],
        [7, 1, 4],
        [7, 2, 3],
    ];
    let data = data_alone(2, 5);
    let with = |last: &[u8]| [&data[..50], pairs.as_flattened(), last, &[0]].concat();
    assert_eq!(accepted(&with(&[])).blocks(), 5);
    for ninth in [[7, 2, 4], [7, 0, 1], [7, 9, 9]] {
        let refused = Description::read(&with(&ninth)).unwrap_err();
        assert_eq!((refused.number, refused.place), (4, 74));
    }
}

#[test]
fn two_data_that_are_apart_never_meet() {
    let description = accepted(APART);
    assert_eq!(description.edges(), 4);
    let broken = |place| Refusal { number: 17, place };
    assert_eq!(description.judge(&[1, 1, 0, 0, 0].into()), Ok(()));
    let together = description.judge(&[1, 1, 1, 1, 1].into());
    assert_eq!(together, Err(broken(0)));
    // Datum 4 stands on cloud 0, and its writer keeps a copy on cloud 1.
    let copied = Placement::from([1, 1, 1, 1, 0]);
    assert_eq!(description.judge(&copied), Err(broken(0)));
    assert_eq!(description.transfers(&copied), Err(broken(0)));
    // Rule 16 is looked for first, and the room for transfers last.
    let first = description.judge(&[1, 0, 1, 1, 1].into());
    assert_eq!(first.unwrap_err().number, 14);
    let last = calls::transfers(APART, &copied, &mut [], &mut 0);
    assert_eq!(last, Err(broken(0)));
    let census = Census {
        candidates: 16,
        breaking16: 8,
        breaking17_only: 0,
        apart_only: 6,
        secure: 2,
        options: 1,
    };
    assert_eq!(description.census(), census);
}

#[test]
fn the_first_broken_pair_is_named() {
    // Service 3 reads datum 2 and writes datum 4, so that the second pair is always broken.
    let description = accepted(&interview_with(&[7, 4, 0, 7, 2, 4]));
    let judged = |placement: Placement| {
        let refusal = description.judge(&placement).unwrap_err();
        (refusal.number, refusal.place)
    };
    assert_eq!(judged([1, 1, 0, 0, 0].into()), (17, 1));
    assert_eq!(judged([1, 1, 1, 1, 1].into()), (17, 0));
    let census = description.census();
    assert_eq!((census.apart_only, census.secure), (8, 0));
}

#[test]
fn placements_are_judged_as_documented() {
    let description = accepted(INTERVIEW);
    let judged = |placement: Placement| {
        let place = |refusal: Refusal| (refusal.number, refusal.place);
        description.judge(&placement).map_err(place)
    };
    assert_eq!(judged([1, 1, 0, 0, 0].into()), Ok(()));
    assert_eq!(judged([1, 0, 0, 0, 0].into()), Err((14, 0)));
    assert_eq!(judged([0, 1, 1, 1, 1].into()), Err((13, 0)));
    assert_eq!(judged([1, 1, 1, 1, 1, 1].into()), Err((13, 5)));
    let pinned = accepted(&[&INTERVIEW[..64], &[6, 4, 0, 0]].concat());
    let refused = pinned.judge(&[1, 1, 1, 1, 1].into());
    assert_eq!(
        refused,
        Err(Refusal {
            number: 13,
            place: 4
        })
    );
}

#[test]
fn placements_have_bills_as_documented() {
    let bill = |bytes: &[u8], placement: Placement| {
        let mut amounts = [7; 4];
        let answer = calls::bill(bytes, &placement, &mut amounts);
        let shown = accepted(bytes).bill(&placement).map(|bill| {
            assert_eq!(bill.cost(), bill.storage() + bill.transfer() + bill.cpu());
            [bill.cost(), bill.storage(), bill.transfer(), bill.cpu()]
        });
        // After a refusal the words are as before.
        let words = if answer.is_ok() { amounts } else { [7; 4] };
        assert_eq!((amounts, shown), (words, answer.map(|()| amounts)));
        shown
    };
    let refused = |number, place| Err(Refusal { number, place });
    // 11100 is the option of the row 11000.
    let by_hand = [2970, 1370, 100, 1500];
    assert_eq!(bill(INTERVIEW, [1, 1, 1, 0, 0].into()), Ok(by_hand));
    assert_eq!(
        bill(INTERVIEW, [1, 1, 1, 1, 1].into()),
        Ok([2820, 1320, 0, 1500])
    );
    assert_eq!(bill(INTERVIEW, [1, 0, 0, 0, 0].into()), refused(14, 0));
    assert_eq!(bill(INTERVIEW, [0, 1, 1, 1, 1].into()), refused(13, 0));
    assert_eq!(bill(APART, [1, 1, 1, 1, 1].into()), refused(17, 0));
    let first_lowered = [0, 1, 1, 1, 1, 1, 0, 0, 1, 1];
    assert_eq!(bill(SECOND, first_lowered.into()), refused(15, 0));
    let cut = calls::bill(&INTERVIEW[..64], &[1].into(), &mut [0; 4]);
    assert_eq!(cut.map_err(|refusal| refusal.number), Err(1));
}

#[test]
fn a_row_has_the_bill_of_its_placement() {
    for bytes in [INTERVIEW, SECOND, APART] {
        let description = accepted(bytes);
        for row in description.list() {
            assert_eq!(description.bill(row.placement()), Ok(row.bill()));
        }
    }
}

#[test]
fn positions_have_clouds_as_documented() {
    let interview = accepted(INTERVIEW);
    assert_eq!(interview.standing(0, 0), Standing::NotCovered);
    assert_eq!(interview.standing(0, 1), Standing::Allowed);
    assert_eq!(interview.standing(0, 2), Standing::NoSuchCloud);
    assert_eq!(interview.standing(5, 0), Standing::Allowed);
    assert_eq!(interview.standing(5, 1), Standing::NoBlock);
    assert_eq!(interview.standing(255, 9), Standing::NoBlock);
    for position in [16, 256, usize::MAX] {
        assert_eq!(interview.standing(position, 0), Standing::Allowed);
        assert_eq!(interview.standing(position, 1), Standing::NoBlock);
    }
    // The label is looked at before the pin, and the cloud before both.
    let pinned = accepted(&interview_with(&[6, 0, 0, 6, 4, 0]));
    assert_eq!(pinned.standing(0, 0), Standing::NotCovered);
    assert_eq!(pinned.standing(0, 1), Standing::NotPermitted);
    assert_eq!(pinned.standing(0, 2), Standing::NoSuchCloud);
    assert_eq!(pinned.standing(4, 1), Standing::NotPermitted);
    let mut reason = 7;
    let refused = calls::standing(&INTERVIEW[..64], 0, 0, &mut reason);
    assert_eq!(refused.map_err(|refusal| refusal.number), Err(1));
    assert_eq!(reason, 7);
}

/// A block may have exactly the clouds of its mask.
#[test]
fn standings_and_masks_agree() {
    for bytes in [INTERVIEW, SECOND, APART, &on_mixed_clouds()] {
        let description = accepted(bytes);
        for (block, &mask) in masks(bytes).iter().enumerate() {
            for cloud in 0..=255 {
                let offered = cloud < 8 && mask >> cloud & 1 == 1;
                assert_eq!(description.standing(block, cloud).is_allowed(), offered);
            }
        }
    }
}

#[test]
fn the_reason_for_13_is_that_of_the_lowest_position() {
    let pinned = accepted(&interview_with(&[6, 4, 0]));
    let why = |clouds: [u8; 6]| {
        let why = pinned.why_not(&clouds.into())?;
        let refused = pinned
            .judge(&clouds.into())
            .map_err(|refusal| refusal.place);
        assert_eq!(refused, Err(why.position as u64));
        Some((why.position, why.cloud, why.standing))
    };
    assert_eq!(why([0, 1, 1, 9, 1, 9]), Some((0, 0, Standing::NotCovered)));
    assert_eq!(why([1, 1, 1, 9, 1, 9]), Some((3, 9, Standing::NoSuchCloud)));
    assert_eq!(
        why([1, 1, 1, 1, 1, 9]),
        Some((4, 1, Standing::NotPermitted))
    );
    assert_eq!(why([1, 1, 1, 1, 0, 9]), Some((5, 9, Standing::NoBlock)));
    assert_eq!(why([1, 1, 1, 1, 0, 0]), None);
    // No candidate is refused here, although rule 16 is broken.
    assert_eq!(why([1, 0, 1, 1, 0, 0]), None);
    assert!(pinned.judge(&[1, 0, 1, 1, 0].into()).is_err());
}

#[test]
fn everything_may_be_shared_by_threads() {
    fn shared<T: Send + Sync>() {}
    shared::<Description>();
    shared::<Rows<'_>>();
    shared::<(Row, Bill, Census, Cursor, Placement, Transfer, Label)>();
    shared::<(Refusal, Reason, Standing, Misplaced, NoLabel, NoPlacement)>();
    shared::<(builder::Builder, builder::Names, builder::BuildError)>();
    shared::<parts::Parts>();
    let interview = accepted(INTERVIEW);
    let rows = interview.list();
    std::thread::scope(|scope| {
        let threads = [0; 4].map(|_| scope.spawn(|| interview.list()));
        for thread in threads {
            assert_eq!(thread.join().expect("no thread panics"), rows);
        }
    });
}

#[test]
fn transfers_are_listed_in_edge_order() {
    let description = accepted(INTERVIEW);
    let transfers = |placement: Placement| description.transfers(&placement);
    assert_eq!(transfers([1, 1, 1, 1, 1].into()), Ok(vec![]));
    let moved = |edge| Transfer::from([edge, 2, 1, 0]);
    assert_eq!(transfers([1, 1, 0, 0, 0].into()), Ok(vec![moved(1)]));
    assert_eq!(transfers([1, 1, 1, 0, 0].into()), Ok(vec![moved(2)]));
    let refused = transfers([1, 0, 0, 0, 0].into());
    assert_eq!(refused.unwrap_err().number, 14);
}

#[test]
fn the_examples_are_pictured_as_stored() {
    let pictured = |bytes, placement: Placement| accepted(bytes).picture(&placement);
    let stored = include_str!("../../../examples/interview.dot");
    assert_eq!(
        pictured(INTERVIEW, [1, 1, 0, 0, 0].into()).as_deref(),
        Ok(stored)
    );
    let stored = include_str!("../../../examples/second.dot");
    let cheapest = [1, 1, 1, 1, 1, 1, 0, 0, 1, 1].into();
    assert_eq!(pictured(SECOND, cheapest).as_deref(), Ok(stored));
    let stored = include_str!("../../../examples/apart.dot");
    assert_eq!(
        pictured(APART, [1, 1, 0, 0, 0].into()).as_deref(),
        Ok(stored)
    );
}

#[test]
fn pictures_are_refused_as_judged() {
    let refused = |bytes, placement: Placement| {
        let judged = accepted(bytes).judge(&placement).unwrap_err();
        assert_eq!(accepted(bytes).picture(&placement), Err(judged));
        // The room is looked at last.
        let answer = calls::picture(bytes, &placement, &mut [], &mut 0);
        assert_eq!(answer, Err(judged));
        let mut count = 7;
        let answer = calls::picture_size(bytes, &placement, &mut count);
        assert_eq!((answer, count), (Err(judged), 7));
        (judged.number, judged.place)
    };
    assert_eq!(refused(INTERVIEW, [1, 1, 0, 0, 2].into()), (13, 4));
    assert_eq!(refused(INTERVIEW, [1, 0, 0, 0, 0].into()), (14, 0));
    let first_lowered = [0, 1, 1, 1, 1, 1, 0, 0, 1, 1];
    assert_eq!(refused(SECOND, first_lowered.into()), (15, 0));
    assert_eq!(refused(APART, [1, 1, 1, 1, 1].into()), (17, 0));
    let cut = Refusal {
        number: 1,
        place: 64,
    };
    let placement = [1, 1, 0, 0, 0].into();
    let answer = calls::picture(&INTERVIEW[..64], &placement, &mut [], &mut 0);
    assert_eq!(answer, Err(cut));
    let answer = calls::picture_size(&INTERVIEW[..64], &placement, &mut 0);
    assert_eq!(answer, Err(cut));
}

#[test]
fn a_picture_takes_the_bytes_of_its_text() {
    let stored = include_bytes!("../../../examples/interview.dot");
    let pictured = |room: usize| {
        let (mut buffer, mut count) = (vec![7; room], 9);
        let placement = [1, 1, 0, 0, 0].into();
        let answer = calls::picture(INTERVIEW, &placement, &mut buffer, &mut count);
        (answer, count, buffer)
    };
    let short = Err(Refusal {
        number: 16,
        place: 95,
    });
    assert_eq!(pictured(95), (Ok(()), 95, stored.to_vec()));
    assert_eq!(pictured(98), (Ok(()), 95, [&stored[..], &[7; 3]].concat()));
    assert_eq!(pictured(94), (short, 9, vec![7; 94]));
    assert_eq!(pictured(0), (short, 9, vec![]));
}

#[test]
fn the_size_is_what_is_written_for_every_row() {
    for bytes in [INTERVIEW, SECOND, APART] {
        let description = accepted(bytes);
        for row in description.list() {
            let (mut buffer, mut written, mut size) = ([0; calls::PICTURE], 0, 0);
            let pictured = calls::picture(bytes, row.placement(), &mut buffer, &mut written);
            let measured = calls::picture_size(bytes, row.placement(), &mut size);
            assert_eq!((pictured, measured), (Ok(()), Ok(())));
            assert_eq!(written, size);
            // No byte of a text is zero, and those after it were not written.
            let (text, rest) = buffer.split_at(size as usize);
            assert!(!text.contains(&0) && rest.iter().all(|&byte| byte == 0));
            let shown = description.picture(row.placement());
            assert_eq!(shown.map(String::into_bytes).as_deref(), Ok(text));
        }
    }
}

#[test]
fn each_kind_of_edge_has_its_line() {
    let description = accepted(INTERVIEW);
    let lines = |placement: Placement| {
        let picture = description.picture(&placement).expect("it is secure");
        let lines = picture.strip_prefix("digraph p {\n");
        let lines = lines.and_then(|lines| lines.strip_suffix("}\n"));
        lines.expect("it begins and ends so").to_string()
    };
    assert_eq!(
        lines([1, 1, 1, 1, 1].into()),
        "  d0_1 -> s1_1;\n  s1_1 -> d2_1;\n  d2_1 -> s3_1;\n  s3_1 -> d4_1;\n"
    );
    assert_eq!(
        lines([1, 1, 1, 0, 1].into()),
        "  d0_1 -> s1_1;\n  s1_1 -> d2_1;\n  d2_1 -> x2 -> d2_0_e2 -> s3_0;\n  \
         s3_0 -> d4_0_e3 -> x3 -> d4_1;\n"
    );
}

/// A picture of these lines.
fn picture(lines: &[String]) -> String {
    format!("digraph p {{\n{}}}\n", lines.concat())
}

#[test]
fn a_block_without_an_edge_has_its_own_line() {
    let description = accepted(&data_alone(2, 11));
    let placement = Placement::from([0, 1, 0, 0, 0, 0, 0, 0, 0, 0, 1]);
    let line = |(block, cloud)| format!("  d{block}_{cloud};\n");
    let blocks = placement.0.iter().take(11).enumerate();
    let lines: Vec<_> = blocks.map(line).collect();
    assert_eq!(lines[10], "  d10_1;\n");
    assert_eq!(description.picture(&placement), Ok(picture(&lines)));

    // Of two services and two data, the second of each is alone.
    let blocks = [&SERVICE[..], &DATUM, &SERVICE, &DATUM].concat();
    let bytes = [&CLOUD.repeat(2)[..], &blocks, &[4, 0, 1], &[0]].concat();
    let shown = accepted(&bytes).picture(&[1, 1, 0, 1].into());
    let lines = "  d1_1 -> s0_1;\n  s2_0;\n  d3_1;\n".to_string();
    assert_eq!(shown, Ok(picture(&[lines])));
}

#[test]
fn thirty_two_moved_reads_are_pictured() {
    // Services 12 to 15 on cloud 1 read data 4 to 11, which are on cloud 0; data 0 to 3 are alone.
    let clouds = CLOUD.repeat(2);
    let blocks = [DATUM.repeat(12), SERVICE.repeat(4)].concat();
    let reads = (12..16).flat_map(|service| (4..12).map(move |datum| [4, service, datum]));
    let reads: Vec<[u8; 3]> = reads.collect();
    let bytes = [&clouds[..], &blocks, reads.as_flattened(), &[0]].concat();
    let moved = |(edge, [_, service, datum]): (usize, &[u8; 3])| {
        format!("  d{datum}_0 -> x{edge} -> d{datum}_1_e{edge} -> s{service}_1;\n")
    };
    let lines = reads.iter().enumerate().map(moved);
    let lines: Vec<_> = lines
        .chain((0..4).map(|datum| format!("  d{datum}_0;\n")))
        .collect();
    assert_eq!(lines[31], "  d11_0 -> x31 -> d11_1_e31 -> s15_1;\n");
    let placement = Placement([0, 0, 0, 0, 0, 0, 0, 0, 0, 0, 0, 0, 1, 1, 1, 1]);
    assert_eq!(accepted(&bytes).picture(&placement), Ok(picture(&lines)));
}

#[test]
fn a_block_that_fits_nowhere_leaves_no_row() {
    let bytes = [&CLOUD[..], &[2, 1, 0, 0, 0, 0], &[0]].concat();
    let description = accepted(&bytes);
    assert_eq!(description.census().candidates, 0);
    assert_eq!(description.draw(Cursor::Start), None);
    assert_eq!(description.list(), []);
}

#[test]
fn the_most_candidates_are_listed() {
    let description = accepted(&data_alone(2, 16));
    let rows = description.list();
    assert_eq!(rows.len(), 65_536);
    assert_eq!(rows[65_535].to_string(), "0 1111111111111111 0 0 0");
    let census = Census {
        candidates: 65_536,
        breaking16: 0,
        breaking17_only: 0,
        apart_only: 0,
        secure: 65_536,
        options: 65_536,
    };
    assert_eq!(description.census(), census);
}

#[test]
fn any_cursor_will_do() {
    let description = accepted(INTERVIEW);
    let drawn = |cost, placement| {
        let row = description.draw(Cursor::Past { cost, placement });
        row.map(|row| row.to_string())
    };
    assert_eq!(
        drawn(2850, Placement::default()).as_deref(),
        Some("2850 11110 1330 20 1500")
    );
    assert_eq!(
        drawn(2850, Placement([255; 16])).as_deref(),
        Some("2970 11000 1370 100 1500")
    );
    assert_eq!(drawn(u64::MAX, Placement([255; 16])), None);
}
