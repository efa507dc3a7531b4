//! Document 02, Item 4: the column found by comparisons and subtractions against the document's
//! division, on every column's first and last millimetre and on those beside them.

/// Half the grid, and a column, in millimetres.
const SIDE: i64 = 100_000_000;
const WIDTH: i64 = 5_000_000;

/// "column = (east + 100,000,000) div 5,000,000" for an east below 100,000,000 in size.
fn by_division(mm: i64) -> u32 {
    if -SIDE < mm && mm < SIDE {
        u32::try_from((mm + SIDE) / WIDTH).expect("not negative")
    } else {
        65_535
    }
}

#[test]
fn every_edge_of_a_column() {
    let mut first = [false; 40];
    let mut last = [false; 40];
    for edge in 0..=40 {
        let start = edge * WIDTH - SIDE;
        for mm in start - 3..=start + 3 {
            assert_eq!(probes::column(mm), by_division(mm), "{mm} mm");
        }
        // The grid's own edge is past it, so that column 0 begins 1 mm later.
        let inside = start.max(1 - SIDE);
        if edge < 40 {
            first[edge as usize] = i64::from(probes::column(inside)) == edge;
        }
        if edge > 0 {
            last[edge as usize - 1] = i64::from(probes::column(start - 1)) == edge - 1;
        }
    }
    assert_eq!((first, last), ([true; 40], [true; 40]));
}

#[test]
fn past_the_grid() {
    for mm in [
        SIDE,
        -SIDE,
        SIDE + 1,
        -SIDE - 1,
        i64::MAX,
        i64::MIN,
        i64::MIN + 1,
    ] {
        assert_eq!(probes::column(mm), 65_535, "{mm} mm");
    }
}
