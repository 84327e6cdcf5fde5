//! What masks show, beside the description that they are of.

use reference::description::{Block, Description};
use reference::label::Label;

/// What the masks of a description are counted as.
pub fn kind_of(described: &Description, masks: &[u8; 16]) -> &'static str {
    let clouds = described.clouds.len() as u32;
    let masks = &masks[..described.blocks.len()];
    if masks.contains(&0) {
        "a block nowhere"
    } else if masks.iter().all(|mask| mask.count_ones() == clouds) {
        "all clouds"
    } else {
        "some clouds"
    }
}

/// What masks should show now and then.
pub fn seen_in(described: &Description, masks: &[u8; 16]) -> Vec<(&'static str, bool)> {
    let clouds = described.clouds.len();
    let any = |holds: &dyn Fn(&Block, u8) -> bool| {
        let mut blocks = described.blocks.iter().zip(masks);
        blocks.any(|(block, &mask)| holds(block, mask))
    };
    let would_do = |block: &Block| {
        let labels = described.clouds.iter().map(|cloud| cloud.label);
        labels.filter(|label| label.covers(block.label)).count()
    };
    vec![
        ("mask of 8 clouds", any(&|_, mask| mask == 255)),
        ("mask with a gap", any(&|_, mask| has_gap(mask))),
        (
            "no cloud by label",
            any(&|block, mask| block.pin.is_none() && mask == 0),
        ),
        (
            "no cloud by pin",
            any(&|block, mask| block.pin.is_some() && mask == 0 && would_do(block) > 0),
        ),
        (
            "pin among several",
            any(&|block, mask| block.pin.is_some() && mask != 0 && would_do(block) > 1),
        ),
        (
            "undeclared cloud for label 0",
            any(&|block, _| clouds < 8 && block.pin.is_none() && Some(block.label) == Label::of(0)),
        ),
        (
            "16 blocks of 2 in 8 clouds",
            clouds == 8 && masks.iter().all(|mask| mask.count_ones() == 2),
        ),
    ]
}

/// Between two clouds that may be used there is one that may not.
pub fn has_gap(mask: u8) -> bool {
    let from_the_lowest = u16::from(mask) >> mask.trailing_zeros();
    from_the_lowest & (from_the_lowest + 1) != 0
}

#[cfg(test)]
mod tests {
    use super::*;
    use reference::description::read;

    /// Clouds of these labels; then data, each with its label and maybe a pin.
    fn described(labels: &[u8], data: &[(u8, Option<u8>)]) -> Description {
        let mut text = Vec::new();
        for &label in labels {
            text.extend([1, label, 0, 0, 0, 0, 0, 0, 0, 0]);
        }
        for &(label, _) in data {
            text.extend([2, label, 0, 0, 0, 0]);
        }
        for (block, &(_, pin)) in (0..).zip(data) {
            text.extend(pin.map(|cloud| [6, block, cloud]).into_iter().flatten());
        }
        text.push(0);
        read(&text).expect("the description is accepted")
    }

    fn seen(described: &Description) -> (&'static str, Vec<&'static str>) {
        let masks = described.masks();
        let shown = seen_in(described, &masks).into_iter();
        let names = shown.filter(|(_, holds)| *holds).map(|(name, _)| name);
        (kind_of(described, &masks), names.collect())
    }

    #[test]
    fn a_gap_is_between_two_clouds() {
        for (mask, gap) in [
            (0, false),
            (0x80, false),
            (0x18, false),
            (0xFF, false),
            (0x81, true),
            (0x55, true),
            (0xFD, true),
        ] {
            assert_eq!(has_gap(mask), gap, "{mask:02x}");
        }
    }

    #[test]
    fn masks_are_told_apart() {
        let free = (0, None);
        assert_eq!(
            seen(&described(&[0; 8], &[free, free])),
            ("all clouds", vec!["mask of 8 clouds"])
        );
        assert_eq!(
            seen(&described(&[1, 0, 1], &[(1, None), free])),
            (
                "some clouds",
                vec!["mask with a gap", "undeclared cloud for label 0"]
            )
        );
        assert_eq!(
            seen(&described(&[1, 0, 1, 0, 0, 0, 0, 0], &[(1, None); 16])),
            (
                "some clouds",
                vec!["mask with a gap", "16 blocks of 2 in 8 clouds"]
            )
        );
    }

    #[test]
    fn pins_are_told_apart() {
        let levels = [0, 1, 1];
        assert_eq!(
            seen(&described(&levels, &[(1, Some(2))])),
            ("some clouds", vec!["pin among several"])
        );
        assert_eq!(
            seen(&described(&levels, &[(1, Some(0))])),
            ("a block nowhere", vec!["no cloud by pin"])
        );
        assert_eq!(
            seen(&described(&levels, &[(2, None)])),
            ("a block nowhere", vec!["no cloud by label"])
        );
        // A mark is no level, and a level is no mark.
        assert_eq!(
            seen(&described(&[15, 16 | 1], &[(16 | 2, None)])),
            ("a block nowhere", vec!["no cloud by label"])
        );
    }
}
