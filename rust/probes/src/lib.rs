//! Proved functions that the relay does not call and the comparison does.

mod c {
    unsafe extern "C" {
        pub safe fn probe_same_place(lat1: f64, lon1: f64, lat2: f64, lon2: f64) -> u8;
        pub safe fn probe_column(mm: i64) -> u32;
        #[cfg(judge)]
        pub fn probe_judge(
            cells: *const u32,
            len: usize,
            even_tag: u8,
            even_id: u64,
            odd_tag: u8,
            odd_id: u64,
            site_tag: u8,
            alt_tag: u8,
            alt: i32,
            now_ms: u64,
            aircraft: u64,
        ) -> u32;
    }
}

/// The cells of a row.
pub const CELLS: usize = 3_344;

/// Whether two sites are at most 1 km apart: 1 or 0; 4 for degrees out of range.
pub fn same_place(lat1: f64, lon1: f64, lat2: f64, lon2: f64) -> u8 {
    c::probe_same_place(lat1, lon1, lat2, lon2)
}

/// The column of so many millimetres east, or the row of so many north; 65,535 past the grid.
pub fn column(mm: i64) -> u32 {
    c::probe_column(mm)
}

/// Whether the archive has the judging.
pub const JUDGES: bool = cfg!(judge);

/// The judging of a row: its cells, the ids of its halves, its site (with an altitude or none) or
/// none. Unjudged is 0, Fits 1, Wrong 4 × off + 1 (Horizon), 2 (NearField) or 3 (NothingNear).
#[cfg(judge)]
pub fn judge(
    cells: &[u32; CELLS],
    ids: [Option<u64>; 2],
    site: Option<Option<i32>>,
    now_ms: u64,
    aircraft: u64,
) -> u32 {
    let [even, odd] = ids.map(|id| (u8::from(id.is_some()), id.unwrap_or(0)));
    let alt = site.flatten();
    // SAFETY: the pointer and the count are those of a slice that outlives the call; the function
    // reads it and keeps nothing.
    unsafe {
        c::probe_judge(
            cells.as_ptr(),
            cells.len(),
            even.0,
            even.1,
            odd.0,
            odd.1,
            u8::from(site.is_some()),
            u8::from(alt.is_some()),
            alt.unwrap_or(0),
            now_ms,
            aircraft,
        )
    }
}

/// The archive has no judging: [`JUDGES`] is false and nobody may call.
#[cfg(not(judge))]
pub fn judge(
    _cells: &[u32; CELLS],
    _ids: [Option<u64>; 2],
    _site: Option<Option<i32>>,
    _now_ms: u64,
    _aircraft: u64,
) -> u32 {
    panic!("probe_judge is not in libprobes.a")
}

#[cfg(test)]
mod tests {
    use super::*;

    #[test]
    fn a_kilometre_is_one_place() {
        assert_eq!(same_place(10.0, 20.0, 10.0, 20.0), 1);
        assert_eq!(same_place(0.0, 179.999, 0.0, -179.999), 1);
        assert_eq!(same_place(10.0, 20.0, 10.01, 20.0), 0);
        assert_eq!(same_place(10.0, 20.0, f64::NAN, 20.0), 4);
    }

    /// P10: positions in bin 0 only.
    #[test]
    fn nothing_near() {
        if !JUDGES {
            return;
        }
        let judged = |count: u32, aircraft| {
            let mut cells = [65_280; CELLS];
            cells[1_600] += count;
            judge(&cells, [Some(0), None], Some(None), 0, aircraft)
        };
        assert_eq!(judged(60, 15), 4 * 125 + 3);
        assert_eq!(judged(59, 15), 0);
        assert_eq!(judged(60, 14), 0);
    }
}
