// The flume's hunt: demands 2 and 3, the largest values, records and damages tried on the oracle itself, seed by seed.

use crate::damage::{cut_refusal, LEFT_OVER};
use crate::flume::bounds::{look_at, BOUNDS};
use crate::flume::damage::{bad, starts_of};
use crate::flume::grid::Grid;
use crate::flume::lattice::{dot, Flow, DIRECTIONS, MOVING, WEIGHTS};
use crate::flume::record::{read, read_whole, write};
use crate::flume::run::run;
use crate::flume::scenes::{good, settings, Scene};
use crate::flume::sets::{blank, store};
use crate::flume::settings::Settings;
use crate::flume::state::{check, speed_allowed, test_closed, test_flags, State};
use crate::flume::step::{draft, normal, pushed, relaxed_by, steady, step, streamed, traded, Draft};
use crate::grid::Refusal;
use crate::hunt::{ensure, Finding, Tally};
use crate::met::Met;
use crate::random::Random;
use crate::state::{density_allowed, Rule, EMPTY, FLUID, INTERFACE, MASS_LIMIT, PART_LIMIT};
use crate::step::{runs_dry, Fate};
use crate::turbulence::{Modes, Relaxation};

/// What a hunt has to meet, or its silence says nothing. The order is that of printing.
pub const EVENTS: &[&str] = &[
    "steps accepted",
    "steps accepted with p 1",
    "steps accepted with p 2037",
    "steps accepted with full gravity",
    "steps after the settings changed",
    "cells that stayed liquid, demand 2",
    "parts rebuilt towards empty cells",
    "parts rebuilt along the normal, interface",
    "parts rebuilt along the normal, fluid",
    "cells filled",
    "cells emptied",
    "cells dry but beside a filled one",
    "fluid cells turned interface",
    "newborn interface cells",
    "newborn cells beside two or more liquid cells",
    "excess to the carry, filled",
    "excess to the carry, emptied",
    "excess shared by weights",
    "excess shared evenly",
    "accepted from a part at its limit",
    "accepted from a mass at its limit",
    "accepted from a carry near its limit and it changed",
    "refusal 7, density",
    "refusal 7, speed",
    "refusal 8, moving part",
    "refusal 8, rest part",
    "refusal 8, speed of an old cell",
    "refusal 8, speed of a newborn cell",
    "refusal 8, interface mass",
    "refusal 8, carry",
    "refusal 8, several cells broken",
    "records written, read, written",
    "records cut, at every byte",
    "rooms too small for a record, 12",
    "runs of all their steps",
    "runs stopped by 7",
    "runs stopped by 8",
    "runs stopped after a first step",
    "runs of too many steps, 9",
    "damaged, 1",
    "damaged, 3",
    "damaged, 4",
    "damaged, 5",
    "damaged, 6 at a cell",
    "damaged, 6 at the carry",
    "damaged, 10 cut short",
    "damaged, 10 left over",
    "damaged, 11",
    "damaged in several ways",
    "damaged at random and still accepted",
];

/// Hunts over seeds 0 to seeds − 1; an error names the seed and what failed.
pub fn hunt(seeds: u64, steps: u32, modes: Modes) -> Result<(Tally, Met), String> {
    let (mut tally, mut met) = (Tally::default(), Met::nothing(BOUNDS));
    for seed in 0..seeds {
        let scene = good(seed);
        let random = &mut Random::new(seed ^ 0x666c_756d_65);
        let found = walk(random, &scene, steps, modes, &mut tally, &mut met)
            .and_then(|()| runs(&scene, steps.min(8), modes, &mut tally))
            .and_then(|()| cuts(&scene, &mut tally))
            .and_then(|()| damages(seed, &mut tally))
            .and_then(|()| met.breach().map_or(Ok(()), Err));
        found.map_err(|what| format!("seed {seed}: {what}"))?;
    }
    Ok((tally, met))
}

/// Steps a scene, settings changed now and then and after every refusal.
fn walk(
    random: &mut Random,
    scene: &Scene,
    steps: u32,
    modes: Modes,
    tally: &mut Tally,
    met: &mut Met,
) -> Finding {
    let grid = scene.grid();
    let start = scene.state.total();
    let mut state = scene.state.clone();
    let mut setting = scene.settings;
    let mut turbulent = modes.chosen(random);
    let (mut changed, mut refused) = (false, 0);
    ensure(check(scene.sides, store(&state).lend()).is_ok(), "a good scene was refused")?;
    records(scene, &state, &setting, tally)?;
    for _ in 0..steps {
        let first = store(&state);
        let kept = first.clone();
        let mut second = blank(grid.n());
        second.masses.fill(77);
        let mut marks = vec![9; grid.n()];
        let relaxation = Relaxation { p: setting.p, turbulent };
        look_at(met, &grid, &state, relaxation, setting.gravity);
        let answer =
            step(scene.sides, relaxation, setting.gravity, first.lend(), second.lend_mut(), &mut marks);
        ensure(first == kept, "a step wrote its first set")?;
        ensure(marks.iter().all(|&mark| mark == 0), "marks left after a step")?;
        match answer {
            Ok(()) => {
                let next = State::of(second.lend());
                ensure(check(scene.sides, second.lend()).is_ok(), "an accepted step gave a bad state")?;
                ensure(next.total() == start, "water was lost or made")?;
                let drafted = draft(&grid, &state, relaxation, setting.gravity)
                    .map_err(|_| "an accepted step has no draft")?;
                converted(&grid, &state, &next, &setting, &drafted, tally)?;
                collided_near(&grid, &state, &next, relaxation, setting.gravity, tally)?;
                tally.add_if("steps accepted in the turbulent mode", turbulent);
                count_rebuilt(&grid, &state, tally);
                count_accepted(&state, &next, &setting, changed, tally);
                state = next;
                records(scene, &state, &setting, tally)?;
                refused = 0;
            }
            Err(refusal) => {
                ensure(second == first, "a refused step's second set is no copy")?;
                refused_for(&grid, &state, relaxation, setting.gravity, refusal, tally)?;
                refused += 1;
            }
        }
        if refused == 4 {
            break;
        }
        if refused > 0 || random.percent(15) {
            setting = Settings { edge: setting.edge, ..settings(random) };
            turbulent = modes.chosen(random);
            changed = true;
        }
    }
    Ok(())
}

fn count_accepted(old: &State, next: &State, setting: &Settings, changed: bool, tally: &mut Tally) {
    let square: i32 = setting.gravity.iter().map(|g| g * g).sum();
    let part_at_limit = old.cells.iter().any(|cell| cell.parts.iter().any(|part| part.abs() == PART_LIMIT));
    let mass_at_limit = old.cells.iter().any(|cell| cell.mass.abs() == MASS_LIMIT);
    tally.add("steps accepted", 1);
    tally.add_if("steps accepted with p 1", setting.p == 1);
    tally.add_if("steps accepted with p 2037", setting.p == 2037);
    tally.add_if("steps accepted with full gravity", square >= 1048 * 1048);
    tally.add_if("steps after the settings changed", changed);
    tally.add_if("accepted from a part at its limit", part_at_limit);
    tally.add_if("accepted from a mass at its limit", mass_at_limit);
    tally.add_if(
        "accepted from a carry near its limit and it changed",
        old.carry.abs() > 999_990_000_000 && old.carry != next.carry,
    );
}

/// How often stage 1 rebuilt, and towards what.
fn count_rebuilt(grid: &Grid, old: &State, tally: &mut Tally) {
    for c in (0..grid.n()).filter(|&c| old.cells[c].flag == INTERFACE) {
        let n = normal(grid, old, c);
        for i in MOVING {
            let slope = dot(n, DIRECTIONS[i]);
            match old.cells[grid.near(c, i)].flag {
                EMPTY => tally.add("parts rebuilt towards empty cells", 1),
                INTERFACE if slope > 0 => tally.add("parts rebuilt along the normal, interface", 1),
                FLUID if slope > 0 => tally.add("parts rebuilt along the normal, fluid", 1),
                _ => {}
            }
        }
    }
}

/// Demand 3's flags and carry, read off the old and the new state alone.
fn converted(
    grid: &Grid,
    old: &State,
    next: &State,
    setting: &Settings,
    drafted: &Draft,
    tally: &mut Tally,
) -> Finding {
    let density = |c: usize| pushed(&streamed(grid, old, c), setting.gravity).rho;
    let mut carried = 0;
    for c in 0..grid.n() {
        let (was, is) = (old.cells[c].flag, next.cells[c].flag);
        let excess = match (was, is) {
            (INTERFACE, FLUID) => traded(grid, old, c) - density(c),
            (INTERFACE, EMPTY) => traded(grid, old, c),
            (EMPTY, INTERFACE) => {
                let liquid = grid.neighbours(c).filter(|&b| old.cells[b].liquid()).count();
                tally.add("newborn interface cells", 1);
                tally.add_if("newborn cells beside two or more liquid cells", liquid > 1);
                continue;
            }
            (FLUID, INTERFACE) => {
                tally.add("fluid cells turned interface", 1);
                continue;
            }
            (INTERFACE, INTERFACE) => {
                let dry = runs_dry(traded(grid, old, c), density(c));
                let blocked = grid.neighbours(c).any(|b| drafted.fates[b] == Fate::Filled);
                ensure(!dry || blocked, "a dry cell stayed without a filled one beside it")?;
                tally.add_if("cells dry but beside a filled one", dry);
                continue;
            }
            (was, is) if was == is => continue,
            _ => return Err(format!("cell {c} went from flag {was} to {is}")),
        };
        let filled = is == FLUID;
        tally.add(if filled { "cells filled" } else { "cells emptied" }, 1);
        if !grid.neighbours(c).any(|b| next.cells[b].flag == INTERFACE) {
            carried += excess;
            tally.add(if filled { "excess to the carry, filled" } else { "excess to the carry, emptied" }, 1);
        }
    }
    for excess in drafted.excesses.iter().filter(|excess| !excess.targets.is_empty()) {
        let even = excess.targets.iter().all(|(_, weight)| *weight == 0);
        tally.add(if even { "excess shared evenly" } else { "excess shared by weights" }, 1);
    }
    ensure(next.carry - old.carry == carried, "the carry changed by something else than lone excess")
}

/// Demand 2: every part of a cell that stays liquid against the exact BGK value at its p, cross-multiplied.
fn collided_near(
    grid: &Grid,
    old: &State,
    next: &State,
    relaxation: Relaxation,
    gravity: [i32; 2],
    tally: &mut Tally,
) -> Finding {
    let stayed = |c: &usize| old.cells[*c].liquid() && next.cells[*c].liquid();
    for c in (0..grid.n()).filter(stayed) {
        tally.add("cells that stayed liquid, demand 2", 1);
        let streamed = streamed(grid, old, c);
        let flow = pushed(&streamed, gravity);
        let p = relaxed_by(&streamed, &flow, relaxation);
        tally.add_if("cells whose own p is below p", p < relaxation.p);
        tally.add_if("cells whose own p is p", relaxation.turbulent && p == relaxation.p);
        // Everything over 1024·72ρ': f + p/1024·(w·Q/(72ρ') − f).
        let unit = 1024 * 72 * flow.rho;
        for (i, f) in streamed.iter().enumerate() {
            let equilibrium = WEIGHTS[i] * flow.q(i);
            let exact = f * unit + i128::from(p) * (equilibrium - 72 * flow.rho * f);
            let away = (next.cells[c].parts[i] * unit - exact).abs();
            let allowed = if MOVING.contains(&i) { 1 } else { 8 };
            ensure(away < allowed * unit, &format!("part {i} of cell {c} is too far from BGK"))?;
        }
    }
    Ok(())
}

/// A refused step must have been refused for a reason of 7, or for a rule that rounding and gravity can break.
fn refused_for(
    grid: &Grid,
    old: &State,
    relaxation: Relaxation,
    gravity: [i32; 2],
    refusal: Refusal,
    tally: &mut Tally,
) -> Finding {
    let place = refusal.place as usize;
    match (refusal.number, draft(grid, old, relaxation, gravity)) {
        (7, Err(same)) if same == refusal => {
            let flow: Flow = pushed(&streamed(grid, old, place), gravity);
            let thin = !density_allowed(flow.rho);
            tally.add_if("refusal 7, density", thin);
            tally.add_if("refusal 7, speed", !thin && !speed_allowed(&flow));
            ensure(!steady(&flow), "refusal 7 without its reason")?;
            let earlier = (0..place).filter(|&c| old.cells[c].liquid());
            let fine = |c: usize| steady(&pushed(&streamed(grid, old, c), gravity));
            ensure(earlier.into_iter().all(fine), "refusal 7 not at its lowest cell")
        }
        (8, Ok(Draft { state: next, .. })) => {
            ensure(test_flags(grid, &next.flags()).is_ok(), "a draft's flags are wrong")?;
            ensure(test_closed(grid, &next.flags()).is_ok(), "a draft's layer is open")?;
            ensure(next.total() == old.total(), "a draft lost or made water")?;
            for rule in next.cells.iter().flat_map(|cell| cell.broken_rules()) {
                let possible = matches!(rule, Rule::Part | Rule::Speed | Rule::InterfaceMass);
                ensure(possible, &format!("refusal 8 with rule {rule:?} broken"))?;
            }
            let broken = next.cells.iter().filter(|cell| !cell.broken_rules().is_empty()).count();
            tally.add_if("refusal 8, several cells broken", broken > 1);
            let Some(cell) = next.cells.get(place) else {
                tally.add("refusal 8, carry", 1);
                return Ok(());
            };
            let newborn = old.cells[place].flag == EMPTY;
            for rule in cell.broken_rules() {
                let event = match rule {
                    Rule::Part if cell.parts[0].abs() > PART_LIMIT => "refusal 8, rest part",
                    Rule::Part => "refusal 8, moving part",
                    Rule::Speed if newborn => "refusal 8, speed of a newborn cell",
                    Rule::Speed => "refusal 8, speed of an old cell",
                    _ => "refusal 8, interface mass",
                };
                tally.add(event, 1);
            }
            Ok(())
        }
        (number, _) => Err(format!("a good state was refused with {number} at {place}")),
    }
}

/// Demand 2's records: written, read back as the same grid, written again as the same bytes.
fn records(scene: &Scene, state: &State, setting: &Settings, tally: &mut Tally) -> Finding {
    let store = store(state);
    let mut room = vec![0xa5; 76 + 41 * store.flags.len() + 3];
    let length = write(scene.sides, setting, scene.origin, store.lend(), &mut room)
        .map_err(|refusal| format!("the writer refused a good state: {refusal:?}"))?;
    ensure(room[length..].iter().all(|&byte| byte == 0xa5), "the writer wrote past the record")?;
    let bytes = &room[..length];
    let (reading, read) =
        read_whole(bytes).map_err(|refusal| format!("the reader refused a written record: {refusal:?}"))?;
    ensure(read == store, "a record read back as another grid")?;
    ensure(
        (reading.sides, reading.settings, reading.origin) == (scene.sides, *setting, scene.origin),
        "a record read back with other settings",
    )?;
    ensure(rewritten(bytes)? == bytes, "an accepted record was written back otherwise")?;

    let mut small = vec![0xa5; length - 1];
    let refusal = write(scene.sides, setting, scene.origin, store.lend(), &mut small);
    ensure(refusal == Err(Refusal { number: 12, place: length as u64 }), "too small a room was taken")?;
    ensure(small.iter().all(|&byte| byte == 0xa5), "refusal 12 wrote into the room")?;
    tally.add("rooms too small for a record, 12", 1);
    tally.add("records written, read, written", 1);
    Ok(())
}

/// An accepted record, read and written back.
fn rewritten(bytes: &[u8]) -> Result<Vec<u8>, String> {
    let (reading, store) = read_whole(bytes).map_err(|refusal| format!("the reader refused: {refusal:?}"))?;
    let mut room = vec![0; bytes.len()];
    write(reading.sides, &reading.settings, reading.origin, store.lend(), &mut room)
        .map_err(|refusal| format!("the writer refused an accepted record: {refusal:?}"))?;
    Ok(room)
}

/// The run against the same steps made singly; both sets and the marks afterwards.
fn runs(scene: &Scene, steps: u32, modes: Modes, tally: &mut Tally) -> Finding {
    let n = scene.state.cells.len();
    let gravity = scene.settings.gravity;
    let p = Relaxation { p: scene.settings.p, turbulent: modes != Modes::Plain };
    let mut reached = store(&scene.state);
    let (mut count, mut refusal) = (0, None);
    while count < steps && refusal.is_none() {
        let mut next = blank(n);
        refusal = step(scene.sides, p, gravity, reached.lend(), next.lend_mut(), &mut vec![0; n]).err();
        count += u32::from(refusal.is_none());
        reached = next;
    }

    let mut first = store(&scene.state);
    let (mut second, mut marks) = (blank(n), vec![5; n]);
    let made = run(scene.sides, p, gravity, 1001, first.lend_mut(), second.lend_mut(), &mut marks);
    ensure((made.count, made.refusal) == (0, Some(Refusal { number: 9, place: 0 })), "9 was not given")?;
    ensure(second == blank(n) && marks.iter().all(|&mark| mark == 5), "refusal 9 wrote")?;
    tally.add("runs of too many steps, 9", 1);

    let made = run(scene.sides, p, gravity, steps, first.lend_mut(), second.lend_mut(), &mut marks);
    ensure((made.count, made.refusal) == (count, refusal), "a run's answer differs from single steps")?;
    ensure(first == reached && second == reached, "a run's sets do not hold the state reached")?;
    ensure(marks.iter().all(|&mark| mark == 0), "marks left after a run")?;
    let stopped_by = |number: u32| refusal.is_some_and(|refusal| refusal.number == number);
    tally.add_if("runs of all their steps", refusal.is_none());
    tally.add_if("runs stopped by 7", stopped_by(7));
    tally.add_if("runs stopped by 8", stopped_by(8));
    tally.add_if("runs stopped after a first step", refusal.is_some() && count > 0);
    Ok(())
}

/// A good record cut at every byte, if it is short enough for the square of its length.
fn cuts(scene: &Scene, tally: &mut Tally) -> Finding {
    let bytes = scene.record();
    if bytes.len() > 10_000 {
        return Ok(());
    }
    let starts = starts_of(scene);
    let mut store = blank(scene.state.cells.len());
    let kept = store.clone();
    for length in 0..bytes.len() {
        let lent = store.lend_mut();
        let answer = read(&bytes[..length], lent.parts, lent.masses, lent.fills, lent.carry);
        ensure(answer == Err(cut_refusal(&starts, length)), &format!("cut at {length}: {answer:?}"))?;
    }
    ensure(store == kept, "a refused record was written into the lent slices")?;
    tally.add("records cut, at every byte", 1);
    Ok(())
}

/// The seed's damaged record: refused as its damage says, or written back as the same bytes.
fn damages(seed: u64, tally: &mut Tally) -> Finding {
    let damaged = bad(seed);
    let answer = read_whole(&damaged.bytes);
    let Some(fault) = damaged.fault else {
        if answer.is_ok() {
            tally.add("damaged at random and still accepted", 1);
            ensure(rewritten(&damaged.bytes)? == damaged.bytes, "a damaged record was written otherwise")?;
        }
        return Ok(());
    };
    let refusal = answer.map(|(reading, _)| reading).err();
    let expected = fault.refusal;
    ensure(refusal == Some(expected), &format!("damaged record: expected {expected:?}, got {refusal:?}"))?;
    let event = match expected.number {
        1 => "damaged, 1",
        3 => "damaged, 3",
        4 => "damaged, 4",
        5 => "damaged, 5",
        6 if expected.place as usize == good(seed).state.cells.len() => "damaged, 6 at the carry",
        6 => "damaged, 6 at a cell",
        10 if fault.rank == LEFT_OVER => "damaged, 10 left over",
        10 => "damaged, 10 cut short",
        _ => "damaged, 11",
    };
    tally.add(event, 1);
    tally.add_if("damaged in several ways", damaged.faults > 1);
    Ok(())
}
