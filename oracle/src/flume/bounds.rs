// The largest values of the amendment's tables, looked for in a step of the flume.

use crate::flume::grid::Grid;
use crate::flume::lattice::{dot, Flow, Parts, MOVING};
use crate::flume::state::State;
use crate::flume::step::{
    collided, draft, pull, pushed, rebuild_numerator, relaxed_by, steady, streamed, stressed, traded, Draft,
};
use crate::met::{up_to, within, Bound, Met};
use crate::state::{INTERFACE, WALL};
use crate::turbulence::Relaxation;

pub const BOUNDS: &[Bound] = &[
    within("rebuild numerator", 244_000_000_000_000_000),
    Bound { value: "streamed part", lowest: -1_179_648, highest: 1_354_410 },
    within("density before its test", 11_600_000),
    within("momentum before its test", 7_400_000),
    within("nine squares of momentum before the test", 990_000_000_000_000),
    within("pull", 127_000_000_000_000),
    within("pull times p", 258_000_000_000_000_000),
    Bound { value: "moving part of the equilibrium", lowest: 2_730, highest: 305_834 },
    within("new moving part", 1_775_400),
    within("new part 0", 12_400_000),
    within("mass after stage 2", 21_300_000),
    within("mass after stage 6", 202_000_000),
    within("excess times weight", 3_000_000_000_000),
    Bound { value: "total weight", lowest: 0, highest: 262_144 },
    within("carry before test 8", 6_900_000_000_000),
    Bound { value: "part beyond the equilibrium", lowest: -1_485_483, highest: 1_354_410 },
    within("stress on the diagonal", 8_120_000),
    within("stress off the diagonal", 5_060_000),
    up_to("tension", 183_000_000_000_000),
    up_to("first root", 13_600_000),
    up_to("under the second root", 9_200_000_000_000_000),
    up_to("second root", 96_000_000),
    Bound { value: "divisor of own p", lowest: 157_286_400, highest: 253_100_000 },
    up_to("numerator of own p", 641_100_000_000),
    Bound { value: "own p", lowest: 1, highest: 2037 },
    up_to("p less own p", 937),
];

/// Notes every value of the table in a step from a good state, accepted or not.
pub fn look_at(met: &mut Met, grid: &Grid, old: &State, relaxation: Relaxation, gravity: [i32; 2]) {
    for c in (0..grid.n()).filter(|&c| old.cells[c].liquid()) {
        let own = &old.cells[c];
        for i in MOVING {
            if own.flag == INTERFACE && old.cells[grid.near(c, i)].flag != WALL {
                met.note("rebuild numerator", rebuild_numerator(&own.parts, i));
            }
        }
        if own.flag == INTERFACE {
            met.note("mass after stage 2", traded(grid, old, c));
        }
        let parts = streamed(grid, old, c);
        parts.iter().for_each(|&part| met.note("streamed part", part));
        let flow = pushed(&parts, gravity);
        met.note("density before its test", flow.rho);
        flow.j.iter().for_each(|&part| met.note("momentum before its test", part));
        met.note("nine squares of momentum before the test", 9 * dot(flow.j, flow.j));
        if !steady(&flow) {
            continue;
        }
        let p = relaxed_by(&parts, &flow, relaxation);
        look_at_stress(met, &parts, &flow, relaxation.p);
        let new = collided(&parts, &flow, p);
        met.note("new part 0", new[0]);
        for i in MOVING {
            let pull = pull(&flow, i, parts[i]);
            met.note("pull", pull);
            met.note("pull times p", i128::from(p) * pull);
            met.note("new moving part", new[i]);
        }
    }
    if let Ok(Draft { state, excesses, .. }) = draft(grid, old, relaxation, gravity) {
        state.cells.iter().for_each(|cell| met.note("mass after stage 6", cell.mass));
        met.note("carry before test 8", state.carry);
        for excess in excesses {
            for (_, weight) in &excess.targets {
                met.note("excess times weight", excess.amount * weight);
            }
            met.note("total weight", excess.targets.iter().map(|(_, weight)| weight).sum());
        }
    }
}

/// The values of P10's table, worked out in either mode.
fn look_at_stress(met: &mut Met, parts: &Parts, flow: &Flow, p: i32) {
    let still = flow.equilibrium();
    for i in MOVING {
        met.note("moving part of the equilibrium", still[i]);
        met.note("part beyond the equilibrium", parts[i] - still[i]);
    }
    met.note_stress(&stressed(parts, flow), p);
}
