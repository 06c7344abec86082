// The largest values of P10's table, looked for in a step of the box.

use crate::grid::Grid;
use crate::lattice::equilibrium;
use crate::met::{up_to, within, Bound, Met};
use crate::state::{density_allowed, speed_allowed, State};
use crate::step::{pushed, streamed, stressed};

pub const BOUNDS: &[Bound] = &[
    Bound { value: "streamed part", lowest: -1_179_648, highest: 1_267_029 },
    Bound { value: "moving part of the equilibrium", lowest: 2_730, highest: 152_917 },
    Bound { value: "part beyond the equilibrium", lowest: -1_332_565, highest: 1_267_029 },
    within("stress on the diagonal", 12_960_000),
    within("stress off the diagonal", 5_060_000),
    up_to("tension", 657_000_000_000_000),
    up_to("first root", 25_700_000),
    up_to("under the second root", 17_300_000_000_000_000),
    up_to("second root", 132_000_000),
    Bound { value: "divisor of own p", lowest: 157_286_400, highest: 289_000_000 },
    up_to("numerator of own p", 642_000_000_000),
    Bound { value: "own p", lowest: 1, highest: 2037 },
    up_to("p less own p", 937),
];

/// Notes every value of the table in a step from a good state, accepted or not.
pub fn look_at(met: &mut Met, grid: &Grid, old: &State, p: i32, gravity: [i32; 3]) {
    for c in (0..grid.n).filter(|&c| old.cells[c].liquid()) {
        let parts = streamed(grid, old, c);
        parts.iter().for_each(|&part| met.note("streamed part", part));
        let flow = pushed(&parts, gravity);
        if !density_allowed(flow.rho) || !speed_allowed(flow.rho, &flow.j) {
            continue;
        }
        let still = equilibrium(flow.rho, &flow.j);
        for i in 1..19 {
            met.note("moving part of the equilibrium", still[i]);
            met.note("part beyond the equilibrium", parts[i] - still[i]);
        }
        met.note_stress(&stressed(&parts, &flow), p);
    }
}
