//! The numbers worked for tasks that start later, each by both ways to it.

use super::{
    both_shares, both_ways, listed, parked, shares_without_start, Asked, LISTED_LENGTHS, MARK,
};

/// The place of the room in the body of a placement.
const ROOM: usize = 15;

/// Core 3 of the listing's plan, with a start.
fn listed_from(mark: u8, start: u16) -> Asked<'static> {
    Asked {
        start,
        ..listed(mark)
    }
}

/// The listing's first workload at later starts.
#[test]
fn spans() {
    let asked = |start, horizon| listed_from(0, start).span(10, 10, horizon);
    assert_eq!(asked(1, 4), "span 0 4 30 3 : 0 10");
    assert_eq!(asked(2, 3), "span 12 0 0 0 : 7 7");
    assert_eq!(asked(4, 1), "span 12 0 0 0 : 7 7");
    let asked = |horizon| listed_from(MARK, 3).span(10, 10, horizon);
    assert_eq!(asked(3), "span 12 0 0 0 : 7 7");
    assert_eq!(asked(4), "span 0 4 30 3 : 2 8");
    assert_eq!(asked(65_535), "span 0 4 30 3 : 2 8");
}

/// 14 comes directly before 10, which for a plain plan counts from the start.
#[test]
fn refusals() {
    let span = |mark, start, horizon| listed_from(mark, start).span(10, 10, horizon);
    let placement = |mark, start, span| listed_from(mark, start).placement(8, span);
    for mark in [0, MARK, 255] {
        for start in [5, 6, 65_535] {
            for periods in [0, 1, 5, 6, 65_535] {
                assert_eq!(span(mark, start, periods), "span 14 0 0 0 : 7 7");
                assert_eq!(placement(mark, start, periods), "placement 14 0 : 7 7");
            }
        }
        assert_eq!(span(mark, 4, 0), "span 10 0 0 0 : 7 7");
        assert_eq!(placement(mark, 4, 0), "placement 10 0 : 7 7");
    }
    assert_eq!(span(0, 4, 2), "span 10 0 0 0 : 7 7");
    assert_eq!(placement(0, 4, 2), "placement 10 0 : 7 7");
    assert_eq!(placement(0, 1, 5), "placement 10 0 : 7 7");
}

/// 8 and 9 are judged before 14, and 11 after 10.
#[test]
fn order_of_refusals() {
    let past = listed_from(0, 5);
    assert_eq!(past.span(0, u32::MAX, 0), "span 8 0 0 0 : 7 7");
    assert_eq!(past.span(10, u32::MAX, 0), "span 9 0 0 0 : 7 7");
    assert_eq!(past.placement(u32::MAX, 0), "placement 9 0 : 7 7");
    let without_room = |start, span| {
        let mut body = listed_from(0, start).body(&[8, 0, 0, 0], span);
        body[ROOM] = 0;
        both_ways(3, &body)
    };
    assert_eq!(without_room(5, 1), "placement 14 0 :");
    assert_eq!(without_room(4, 2), "placement 10 0 :");
    assert_eq!(without_room(4, 1), "placement 11 0 :");
}

/// Shares, stall and placement of 8 requests, in the first cycle and later ones.
#[test]
fn placements() {
    let worked = [
        (3, 5, [1, 4], "24 : 2 6"),
        (4, 1, [0, 1], "12 : 0 4"),
        (4, 2, [1, 1], "22 : 4 4"),
        (4, 6, [1, 5], "24 : 2 6"),
        (4, 7, [2, 5], "24 : 4 4"),
    ];
    for (start, span, shares, answer) in worked {
        assert_eq!(both_shares(&LISTED_LENGTHS, start, span), shares);
        let line = listed_from(MARK, start).placement(8, span);
        assert_eq!(line, format!("placement 0 {answer}"));
    }
}

/// Most to interval 1, which is met later in time than interval 2.
#[test]
fn in_the_second_of_two_equals() {
    let lengths = [2, 2];
    let asked = Asked {
        lengths: &lengths,
        budgets: &[4; 8],
        ..listed_from(MARK, 2)
    };
    assert_eq!(both_shares(&lengths, 2, 3), [1, 2]);
    assert_eq!(asked.placement(10, 3), "placement 0 30 : 4 6");
}

/// A start of 0 is the question without one: the tests of earlier requests ask
/// with it, and the shares are those of the old rule.
#[test]
fn at_0() {
    for lengths in [&[6][..], &[1, 3, 2], &[4, 1, 1, 7]] {
        for span in (1..=300).chain(65_400..=65_535) {
            let old = shares_without_start(lengths, span);
            assert_eq!(both_shares(lengths, 0, span), old);
        }
    }
}

/// Both ways to the shares agree at every start.
#[test]
fn shares_at_every_start() {
    let lengths = [1, 3, 2, 5];
    for start in 0..11 {
        for span in (1..=60).chain(65_500..=65_535) {
            let shares = both_shares(&lengths, start, span);
            assert_eq!(shares.iter().sum::<u64>(), u64::from(span));
        }
    }
}

/// The same answer as on the part of the plan that begins at the start, with a
/// 0 for each interval dropped.
#[test]
fn plan_is_its_part() {
    let part = |lengths: &'static [u16], from: usize| Asked {
        lengths,
        budgets: &parked(0).budgets[4 * from..],
        ..parked(0)
    };
    let parts: [(u16, Asked, &str); 5] = [
        (1, part(&[1, 3, 1], 0), ": "),
        (2, part(&[3, 1], 1), ": 0 "),
        (3, part(&[2, 1], 1), ": 0 "),
        (4, part(&[1, 1], 1), ": 0 "),
        (5, part(&[1], 2), ": 0 0 "),
    ];
    for (start, part, dropped) in parts {
        let asked = Asked { start, ..parked(0) };
        for span in 1..=6 - start {
            let expected = part.placement(3, span).replace(": ", dropped);
            assert_eq!(asked.placement(3, span), expected);
        }
        let (answer, expected) = (asked.span(5, 1, 6 - start), part.span(5, 1, 6 - start));
        match expected.starts_with("span 0 ") {
            true => assert_eq!(answer, expected.replace(": ", dropped)),
            false => assert_eq!(answer, "span 12 0 0 0 : 7 7 7"),
        }
    }
}

/// The same stall as on the plan turned so that the interval of the start is its
/// first; a start inside an interval cuts that in two.
#[test]
fn cycle_is_turned() {
    let budgets = parked(MARK).budgets;
    let [first, middle, last] = [&budgets[..4], &budgets[4..8], &budgets[8..]];
    let turns: [(u16, &[u16], Vec<&[u16]>); 4] = [
        (1, &[1, 3, 1, 1], vec![first, middle, last, first]),
        (2, &[3, 1, 2], vec![middle, last, first]),
        (4, &[1, 1, 2, 2], vec![middle, last, first, middle]),
        (5, &[1, 2, 3], vec![last, first, middle]),
    ];
    let results = |line: String| line.split(" :").next().unwrap_or_default().to_string();
    for (start, lengths, budgets) in turns {
        let budgets = budgets.concat();
        let asked = Asked {
            start,
            ..parked(MARK)
        };
        let turned = Asked {
            lengths,
            budgets: &budgets,
            ..parked(MARK)
        };
        for span in (1..=30).chain([65_535]) {
            let placed = results(turned.placement(4, span));
            assert_eq!(results(asked.placement(4, span)), placed);
        }
        let found = results(turned.span(20, 4, 65_535));
        assert_eq!(results(asked.span(20, 4, 65_535)), found);
    }
}

/// A start in parked periods, behind them, and where they come again.
#[test]
fn with_parked_intervals() {
    let from = |mark, start| Asked {
        start,
        ..parked(mark)
    };
    assert_eq!(from(0, 2).span(1, 0, 4), "span 0 1 0 1 : 0 0 0");
    assert_eq!(from(0, 1).span(1, 0, 5), "span 0 2 16 2 : 0 0 0");
    assert_eq!(from(0, 5).span(1, 0, 1), "span 12 0 0 0 : 7 7 7");
    assert_eq!(from(MARK, 5).span(1, 0, 65_535), "span 0 4 48 4 : 0 0 0");
    assert_eq!(from(MARK, 4).placement(2, 4), "placement 0 62 : 0 2 0");
}

/// Start and span together pass two bytes, in short cycles and in the longest.
#[test]
fn past_two_bytes() {
    assert_eq!(both_shares(&[1, 65_534], 65_534, 65_535), [1, 65_534]);
    assert_eq!(both_shares(&[3, 4], 6, 65_535), [28_086, 37_449]);
    let line = listed_from(MARK, 4).placement(8, 65_535);
    assert_eq!(line, "placement 0 24 : 8 0");
}
