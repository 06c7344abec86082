// What is printed, and what is written into the folder: for people in litres, metres and millimetres, and the balance to the unit.

use std::fs;
use std::path::Path;

use skwarzyna::drawing::long::LongProfile;
use skwarzyna::drawing::pools::PoolMap;
use skwarzyna::drawing::{Drawing, View};
use skwarzyna::picture::Picture;
use skwarzyna::spelling::{counted, grouped, litres, thousandths};
use skwarzyna::{Point, Refusal, Sides, Site, Station, ONE};

use crate::tunnel::{Account, Tunnel, LOWER, UPPER};
use crate::{Outcome, HOSE, LIFTED, MIDDLE, SEEP, SETTINGS, STROKE};

/// The chainage of the grid's corner in millimetres, and the stations that are printed: one in so many.
const CHAINAGE: i64 = 1_240_000;
const PRINTED: usize = 5;
const NAME: &str = "tunnel";
/// Pixels by which the depths are moved, so that both titles of the picture begin at one place.
const INSET: usize = 4;

/// What a step stands for: so many cells per step and step are the 9.81 metres per second and second of the earth.
fn step_seconds(edge: i64) -> f64 {
    (-SETTINGS.gz as f64 / 1_048_576.0 * edge as f64 / 9810.0).sqrt()
}

/// An amount at each stroke as litres a second.
fn per_second(units: i64, edge: i64) -> f64 {
    let litres = units as f64 / f64::from(ONE) * (edge as f64 / 100.0).powi(3);
    litres / (STROKE as f64 * step_seconds(edge))
}

pub fn beginning(invert: &Path, tunnel: &Tunnel) {
    let (Sides { nx, ny, nz }, Site { edge, origin }) = (tunnel.grid.sides(), tunnel.site);
    let [x, y, z] = [origin.x, origin.y, origin.z].map(thousandths);
    let open = counted(tunnel.grid.counts().empty);
    println!(
        "The tunnel of {}: {nx} x {ny} x {nz} cells of {edge} mm, {open} of them open,",
        invert.display()
    );
    println!("its corner at x {x}, y {y}, z {z} m; dry at first.");
    println!(
        "Water is counted in whole units: {} fill a cell, {} litres.",
        grouped(ONE),
        litres(ONE.into(), edge)
    );
    println!(
        "A step is {:.2} ms, by gravity of {}/1,048,576 cells per step and step; p {}/1,024, turbulent mode.",
        1000.0 * step_seconds(edge),
        -SETTINGS.gz,
        SETTINGS.p
    );
    println!("Every {STROKE} steps");
    for (name, units) in [("hose", HOSE.amount), ("seep", SEEP.amount), ("pump, at most", LIFTED)] {
        println!(
            "    {name:<14} {:>8} units, {:.2} litres a second",
            grouped(units),
            per_second(units, edge)
        );
    }
    println!();
}

pub fn heading() {
    println!("   step  seconds     poured     pumped upper sump lower sump     in all  pools   lost");
    println!("                     litres     litres     litres     litres     litres         units");
}

/// A line of the table.
pub fn line(tunnel: &Tunnel, step: usize) -> Result<String, Refusal> {
    let Account { hose, seep, pump, .. } = tunnel.account;
    let amounts = [hose + seep, pump, tunnel.within(&UPPER), tunnel.within(&LOWER), tunnel.grid.total()];
    let amounts = amounts.map(|units| format!("{:>10}", litres(units, tunnel.site.edge))).join(" ");
    let (seconds, pools) = (step as f64 * step_seconds(tunnel.site.edge), tunnel.grid.pools()?.list.len());
    let lost = grouped(tunnel.start - tunnel.grid.water().balance());
    Ok(format!("{step:>7} {seconds:>8.1} {amounts} {pools:>6} {lost:>6}"))
}

/// The pools one by one.
pub fn pools(tunnel: &Tunnel) -> Result<(), Refusal> {
    let (pools, sides, Site { edge, origin }) = (tunnel.grid.pools()?, tunnel.grid.sides(), tunnel.site);
    let row = |name: &str, cells: usize, water: i64, place: &str| {
        let (cells, units, litres) = (counted(cells), grouped(water), litres(water, edge));
        println!("{}", format!("{name:>15} {cells:>8} {units:>16} {litres:>10}   {place}").trim_end());
    };
    println!("{:>15} {:>8} {:>16} {:>10}   lowest cell at x, y, z in m", "pool", "cells", "units", "litres");
    for pool in &pools.list {
        let (x, y, z) = sides.position(pool.lowest);
        let metres = |from: i64, at: usize| thousandths(from + at as i64 * edge + edge / 2);
        let place = [metres(origin.x, x), metres(origin.y, y), metres(origin.z, z)].join(", ");
        row(&pool.number.to_string(), pool.cells as usize, pool.water, &place);
    }
    row("all", tunnel.grid.counts().liquid(), pools.water(), "");
    Ok(())
}

/// Whether the water of hose and seep is still apart: then one pool holds what the hose gave, and the other what seeped.
pub fn apart(tunnel: &Tunnel) -> Result<(), Refusal> {
    let Account { hose, seep, .. } = tunnel.account;
    let waters: Vec<i64> = tunnel.grid.pools()?.list.iter().map(|pool| pool.water).collect();
    if waters == [hose, seep] || waters == [seep, hose] {
        println!("        one holds what the hose has given, the other what has seeped, both to the unit");
    }
    Ok(())
}

/// The long profile: a survey point in the middle of the gutter in one column of so many.
pub fn profile(tunnel: &Tunnel, one_in: usize) -> Result<LongProfile, Refusal> {
    let Site { edge, origin } = tunnel.site;
    let middle = |at: usize| at as i64 * edge + edge / 2;
    let point = |x: usize| Point::new(origin.x + middle(x), origin.y + middle(MIDDLE), origin.z);
    let columns = (1..tunnel.grid.sides().nx - 1).step_by(one_in);
    let stations: Vec<Station> =
        columns.map(|x| Station { chainage: CHAINAGE + middle(x), point: point(x) }).collect();
    Ok(LongProfile::new(&tunnel.grid, tunnel.site, &stations)?.named(NAME))
}

/// Pools and long profile in lines, and the files.
pub fn end(tunnel: &Tunnel, folder: &Path) -> Outcome<()> {
    let Tunnel { grid, site, .. } = tunnel;
    println!("\nThe pools at the end, each of them water that hangs together:");
    pools(tunnel)?;
    println!("\nThe long profile along the middle of the gutter, every {} mm:", PRINTED as i64 * site.edge);
    print!("{}", profile(tunnel, PRINTED)?.text());

    let (profile, pools) = (profile(tunnel, 1)?, PoolMap::new(grid, *site, View::Above)?.named(NAME));
    let depths = Drawing::new(grid, *site, View::Above)?.named(NAME);
    let both = stacked(&profile.picture(), &depths.picture());
    let files: [(&str, &str, Vec<u8>); 7] = [
        (
            "tunnel.png",
            "long profile and depths from above in one picture, with the water to the unit",
            both.png(),
        ),
        ("profile.png", "the long profile", profile.picture().png()),
        ("profile.txt", "the same in lines, one for each column", profile.text().into()),
        ("depths.png", "the depths from above, with legend", depths.picture().png()),
        (
            "depths.asc",
            "the depth map in millimetres as an ASCII grid, for GDAL, QGIS and the like",
            grid.depth_map(*site)?.into(),
        ),
        ("pools.png", "the pools from above, each in a colour of its own", pools.picture().png()),
        ("tunnel.rec", "the record of the end, for skw", grid.write(SETTINGS, *site)?),
    ];
    println!("\nWritten into {}:", folder.display());
    println!("    {:<12} the record of the moment at which the pump is switched on, and in pump-on.png its long profile", "pump-on.rec");
    for (name, what, bytes) in files {
        put(folder, name, &bytes)?;
        println!("    {name:<12} {what}");
    }
    Ok(())
}

/// One picture under the other.
fn stacked(above: &Picture, below: &Picture) -> Picture {
    let mut both = Picture::new(above.width().max(INSET + below.width()), above.height() + below.height());
    both.paste(0, 0, above);
    both.paste(INSET, above.height(), below);
    both.note("Title", NAME);
    both
}

pub fn put(folder: &Path, name: &str, bytes: &[u8]) -> Outcome<()> {
    let file = folder.join(name);
    fs::write(&file, bytes).map_err(|error| format!("{}: {error}", file.display()))?;
    Ok(())
}

pub fn mirrored(tunnel: &Tunnel) {
    let (looks, calm) = (counted(tunnel.looks), counted(tunnel.calm));
    println!(
        "\nMirrored in x and mirrored back the tunnel was the same, in {looks} of {looks} looks on the way."
    );
    println!(
        "In {calm} of them the next step was calm, no cell filled or emptied: made of the mirrored tunnel"
    );
    println!("it was the mirrored step, in every number.");
}

/// The balance: what was there and came in, less what went out, is in the cells and the carry; an error if one unit is not.
pub fn balance(tunnel: &Tunnel) -> Outcome<()> {
    let (water, Account { hose, seep, pump, moved, drops }) = (tunnel.grid.water(), tunnel.account);
    let (ought, is) = (tunnel.start + hose + seep - pump, water.total());
    println!("\n{:<40} {:>16} {:>12}", "The balance, to the unit", "units", "litres");
    for (name, units) in [
        ("  in the tunnel at the start", tunnel.start),
        ("+ poured by the hose", hose),
        ("+ seeped through the joint", seep),
        ("- taken by the pump", pump),
        ("= what must be there", ought),
        ("  in cells full of water", water.fluid),
        ("+ in cells of the surface", water.interface),
        ("+ carry, water that found no cell yet", water.carry),
        ("= what is there", is),
        ("  lost", ought - is),
    ] {
        println!("{name:<40} {:>16} {:>12}", grouped(units), litres(units, tunnel.site.edge));
    }
    println!(
        "Litres are to the nearest millilitre. On the way {} drops, which a falling surface had left",
        counted(drops)
    );
    println!(
        "behind, were put back into the water beside them: {} units taken there and poured here.",
        grouped(moved)
    );
    let (poured, taken) = (hose + seep + moved, pump + moved);
    if (water.poured, water.taken) != (poured, taken) {
        let [library, other] = [(water.poured, water.taken), (poured, taken)]
            .map(|(poured, taken)| format!("{} units poured and {} taken", grouped(poured), grouped(taken)));
        return Err(format!("the library tells of {library}, hose, seep and pump of {other}").into());
    }
    match ought - is {
        0 => Ok(()),
        lost => Err(format!("the balance does not hold: {} units are lost", grouped(lost)).into()),
    }
}
