//! Document 02, request (f): the second ceiling.

use crate::file::{read, Label};
use crate::generate::draft::Draft;
use crate::settled::{f2, f6, p1, p2};
use crate::{certify, classify, listing, Class};

fn with_second(second_ceiling: u32) -> Draft {
    Draft {
        second_ceiling,
        ..p1()
    }
}

/// "0 means the same as c, otherwise 1 to 65,536, else 2", and the field is kept
/// as given.
#[test]
fn second_ceilings_at_the_ends() {
    for (given, ceiling) in [
        (0, 100),
        (1, 1),
        (100, 100),
        (65_535, 65_535),
        (65_536, 65_536),
    ] {
        let parameters = read(&with_second(given).plain())
            .expect("accepted")
            .parameters;
        assert_eq!(parameters.second_ceiling, given.into());
        assert_eq!(parameters.ceiling_of(Label::LookedUp), 100);
        assert_eq!(parameters.ceiling_of(Label::PassedOver), ceiling);
    }
    for beyond in [65_537, 65_792, 1 << 17, 1 << 24, 1 << 31, u32::MAX] {
        assert_eq!(read(&with_second(beyond).plain()).err(), Some(2.into()));
    }
}

/// A second ceiling of 0 says the same as c given twice, whatever c is.
#[test]
fn a_second_ceiling_of_0_is_c() {
    for draft in [p1(), p2()] {
        let twice = Draft {
            second_ceiling: draft.ceiling,
            ..draft.clone()
        };
        assert_eq!(listing(&draft.plain()), listing(&twice.plain()));
        let (once, over) = (draft.plain(), [draft.ceiling + 1; 2]);
        assert_eq!(certify(&once, &over), Err(7.into()));
        assert_eq!(
            certify(&once, &[draft.ceiling; 2]),
            certify(&twice.plain(), &[draft.ceiling; 2])
        );
    }
}

/// Over its own ceiling a multiplier is refused with 7, wherever the other
/// label's is, and over the other label's alone it is not.
#[test]
fn number_7_is_by_the_items_own_ceiling() {
    let file = f6().plain();
    assert_eq!(certify(&file, &[4, 2, 2]), Ok((-2, -2)));
    assert_eq!(certify(&file, &[3, 3, 0]), Err(7.into()));
    assert_eq!(certify(&file, &[0, 3, 0]), Err(7.into()));
    assert_eq!(certify(&file, &[100, 2, 2]), Err(8.into()));
    assert_eq!(certify(&file, &[101, 2, 2]), Err(7.into()));
    assert_eq!(classify(&file, &[3, 3, 0], &[1]), Err(7.into()));
    assert_eq!(classify(&file, &[4, 2, 2], &[1]), Ok(Class::LookedUp));
    let other_way = f2().plain();
    assert_eq!(certify(&other_way, &[3, 100]), Err(8.into()));
    assert_eq!(certify(&other_way, &[4, 100]), Err(7.into()));
    assert_eq!(certify(&other_way, &[3, 101]), Err(7.into()));
}
