//! A receiver's cells as an SVG picture: the grid of 40 × 40 cells around the site, north up, the
//! far bins as ring segments around it, and a legend. The grid is to scale, the rings are not.

use std::f64::consts::TAU;
use std::fmt::Write;

use siting::list::short;
use siting::{BAND_EDGES_KM, Cell, GRID_CELLS, GRID_SIDE, State};

use crate::relay::{Shot, clock};

/// Points of a cell's side, of a ring's width, and from the site to the innermost ring: the
/// grid's corners lie within.
const CELL: f64 = 11.0;
const RING: f64 = 17.0;
const INNER: f64 = 316.0;

/// The site's place in the picture, and the picture's size.
const SITE: (f64, f64) = (490.0, 570.0);
const SIZE: (u32, u32) = (980, 1_170);

/// Points of a kilometre in the grid: a cell is 5.
const KM: f64 = CELL / 5.0;

/// Cells within so many kilometres count as near.
const NEAR_FIELD_KM: f64 = 25.0;

/// The shade of a count, light to dark by its logarithm.
fn shade(count: u8) -> String {
    let part = f64::from(count).ln() / 255_f64.ln();
    let mix = |light: f64, dark: f64| (light + (dark - light) * part).round() as u8;
    format!(
        "#{:02x}{:02x}{:02x}",
        mix(254.0, 127.0),
        mix(217.0, 0.0),
        mix(142.0, 30.0)
    )
}

/// What a person reads when pointing at a cell.
fn tip(cell: Cell) -> String {
    let low = cell
        .lowest_feet()
        .map_or("no altitude".to_string(), |feet| {
            format!("lowest {feet} ft")
        });
    format!("<title>{} positions, {low}</title>", cell.count)
}

/// The point at a bearing and a distance from the site, in points.
fn around(bearing: f64, points: f64) -> (f64, f64) {
    let (east, north) = (bearing * TAU / 360.0).sin_cos();
    (SITE.0 + points * east, SITE.1 - points * north)
}

/// The grid's cells that hold something.
fn grid(svg: &mut String, cells: &[Cell]) {
    let half = CELL * GRID_SIDE as f64 / 2.0;
    let (west, south) = (SITE.0 - half, SITE.1 + half);
    let side = 2.0 * half;
    let _ = writeln!(
        svg,
        r##"<rect x="{west}" y="{}" width="{side}" height="{side}" fill="#ffffff" stroke="#606060"/>"##,
        south - side
    );
    for at in 1..GRID_SIDE {
        let step = CELL * at as f64;
        let _ = writeln!(
            svg,
            r##"<path d="M{:.1} {:.1}v-{side}M{west} {:.1}h{side}" stroke="#ededed" fill="none"/>"##,
            west + step,
            south,
            south - step
        );
    }
    for (at, cell) in cells.iter().take(usize::from(GRID_CELLS)).enumerate() {
        if cell.count > 0 {
            let (row, column) = (at / GRID_SIDE, at % GRID_SIDE);
            let _ = writeln!(
                svg,
                r#"<rect x="{:.1}" y="{:.1}" width="{CELL}" height="{CELL}" fill="{}">{}</rect>"#,
                west + CELL * column as f64,
                south - CELL * (row + 1) as f64,
                shade(cell.count),
                tip(*cell)
            );
        }
    }
}

/// The far bins: nine rings of eight segments.
fn rings(svg: &mut String, cells: &[Cell]) {
    for (at, cell) in cells.iter().skip(usize::from(GRID_CELLS)).enumerate() {
        let (sector, band) = (at / BAND_EDGES_KM.len(), at % BAND_EDGES_KM.len());
        let (from, to) = (45.0 * sector as f64, 45.0 * (sector + 1) as f64);
        let inner = INNER + RING * band as f64;
        let outer = inner + RING;
        let [a, b, c, d] = [(from, inner), (from, outer), (to, outer), (to, inner)]
            .map(|(bearing, points)| around(bearing, points));
        let fill = if cell.count > 0 {
            shade(cell.count)
        } else {
            "#f7f7f7".to_string()
        };
        let _ = writeln!(
            svg,
            r##"<path d="M{:.1} {:.1}L{:.1} {:.1}A{outer} {outer} 0 0 1 {:.1} {:.1}L{:.1} {:.1}A{inner} {inner} 0 0 0 {:.1} {:.1}Z" fill="{fill}" stroke="#c8c8c8">{}</path>"##,
            a.0,
            a.1,
            b.0,
            b.1,
            c.0,
            c.1,
            d.0,
            d.1,
            a.0,
            a.1,
            tip(*cell)
        );
    }
    // Where each band begins, along the line to the north.
    for (band, edge) in BAND_EDGES_KM.iter().enumerate() {
        let (x, y) = around(0.0, INNER + RING * band as f64);
        text(svg, (x + 3.0, y - 5.0), 10, &format!("{edge} km"));
    }
}

/// A line of text from a point on.
fn text(svg: &mut String, at: (f64, f64), size: u32, line: &str) {
    let _ = writeln!(
        svg,
        r#"<text x="{:.1}" y="{:.1}" font-size="{size}">{line}</text>"#,
        at.0, at.1
    );
}

/// The site's mark and the near-field circle.
fn site(svg: &mut String) {
    let (x, y) = SITE;
    let _ = writeln!(
        svg,
        r##"<circle cx="{x}" cy="{y}" r="{:.1}" fill="none" stroke="#08519c" stroke-width="2" stroke-dasharray="7 4"/>
<path d="M{} {y}h20M{x} {}v20" stroke="#08519c" stroke-width="3"/>"##,
        NEAR_FIELD_KM * KM,
        x - 10.0,
        y - 10.0
    );
    for (bearing, name) in [(0.0, "N"), (90.0, "E"), (180.0, "S"), (270.0, "W")] {
        let (x, y) = around(bearing, INNER + RING * 9.0 + 13.0);
        text(svg, (x - 5.0, y + 5.0), 15, name);
    }
}

/// What the shades and marks mean.
fn legend(svg: &mut String) {
    let y = 1_070.0;
    for (at, count) in [1, 4, 16, 64, 255].into_iter().enumerate() {
        let x = 40.0 + 80.0 * at as f64;
        let _ = writeln!(
            svg,
            r##"<rect x="{x}" y="{y}" width="18" height="18" fill="{}" stroke="#606060"/>"##,
            shade(count)
        );
        let more = if count == 255 { " or more" } else { "" };
        text(svg, (x + 24.0, y + 14.0), 13, &format!("{count}{more}"));
    }
    text(
        svg,
        (490.0, y + 14.0),
        13,
        "positions in a cell or far bin, of this half day and the one before",
    );
    let _ = writeln!(
        svg,
        r##"<path d="M40 {0}h20M50 {1}v20" stroke="#08519c" stroke-width="3"/>
<circle cx="199" cy="{0}" r="10" fill="none" stroke="#08519c" stroke-width="2" stroke-dasharray="7 4"/>"##,
        y + 42.0,
        y + 32.0
    );
    text(svg, (70.0, y + 47.0), 13, "the claimed site");
    text(svg, (219.0, y + 47.0), 13, "25 km: what is near");
    text(
        svg,
        (370.0, y + 47.0),
        13,
        "square: 40 × 40 cells of 5 km, north up; rings: far bins by sector and distance, not to scale",
    );
    let below = "A site that fits is heard all round: cells lie on every side of the cross. Where they all lie on one side, the antenna stands elsewhere.";
    text(svg, (40.0, y + 78.0), 13, below);
}

/// The title: which receiver, what is held of it, and of what time.
fn title(svg: &mut String, shot: &Shot) {
    let key = short(&shot.row.receiver());
    let key = if key.len() > 16 {
        format!("{}…", &key[..16])
    } else {
        key
    };
    let held = match shot.state {
        Some(State::Wrong(off_km)) => {
            let by = shot.by.map_or(String::new(), |by| format!(" ({by})"));
            format!("held wrong, {off_km} km off{by}")
        }
        Some(state) => state.to_string(),
        None => "not judged yet".to_string(),
    };
    let _ = writeln!(
        svg,
        r#"<text x="40" y="44" font-size="24" font-weight="bold">Receiver {key}: {held}</text>"#
    );
    let site = shot.row.site().map_or("no site".to_string(), |site| {
        let alt = site
            .alt_m
            .map_or("unknown altitude".to_string(), |alt| format!("{alt} m"));
        format!("site {:.4} {:.4}, {alt}", site.lat, site.lon)
    });
    let counted: u32 = shot.cells.iter().map(|cell| u32::from(cell.count)).sum();
    let generation = shot.row.generation;
    let at = clock(shot.now_ms);
    text(
        svg,
        (40.0, 70.0),
        14,
        &format!(
            "{site}; generation {generation}; {counted} positions in the cells; as judged at {at} UTC"
        ),
    );
}

/// The picture.
pub fn svg(shot: &Shot) -> String {
    let (width, height) = SIZE;
    let mut svg = format!(
        r##"<svg xmlns="http://www.w3.org/2000/svg" width="{width}" height="{height}" viewBox="0 0 {width} {height}" font-family="sans-serif" fill="#202020">
<rect width="{width}" height="{height}" fill="#ffffff"/>
"##
    );
    rings(&mut svg, &shot.cells);
    grid(&mut svg, &shot.cells);
    site(&mut svg);
    title(&mut svg, shot);
    legend(&mut svg);
    svg + "</svg>\n"
}
