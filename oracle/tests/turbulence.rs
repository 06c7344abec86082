// P10: the figures of the turbulent mode in the box and in the flume, its laws over many cells, and that a reflection keeps a cell's own p.

use oracle::flume::lattice as nine;
use oracle::flume::scenes::case_f;
use oracle::flume::step as flume;
use oracle::grid::{Grid, Refusal};
use oracle::lattice::{equilibrium, Parts, DIRECTIONS, ONE};
use oracle::random::Random;
use oracle::scenes::case_t;
use oracle::state::State;
use oracle::step::{draft, next_state, own_relaxation, pushed, stressed, Flow};
use oracle::turbulence::{own, root, tension, turbulent, Relaxation};
use oracle::{run, step, Store};

/// Plain p, T, first root, second root, own p.
const TABLE: [(i32, i128, i128, i128, i32); 10] = [
    (2037, 0, 0, 140_800, 2037),
    (2037, 360, 18, 178_673, 2037),
    (2037, 361, 19, 180_544, 2036),
    (2037, 8_000_000, 2_828, 1_385_929, 2021),
    (2037, 347_892_350_976, 589_824, 19_912_262, 1810),
    (1900, 1_000_000, 1_000, 2_042_932, 1898),
    (1024, 8_000_000, 2_828, 13_125_512, 1024),
    (1024, 347_892_350_976, 589_824, 16_492_170, 1002),
    (1, 662_000_000_000_000, 25_729_360, 26_201_679, 1),
    (2037, 662_000_000_000_000, 25_729_360, 131_511_362, 1110),
];

#[test]
fn the_table_of_roots() {
    assert_eq!(ONE * ONE, 347_892_350_976);
    for (p, tension, first, second, own_p) in TABLE {
        let own = own(p, tension);
        assert_eq!((own.first, own.second, own.p), (first, second, own_p), "p {p}, T {tension}");
    }
}

#[test]
fn a_root_is_the_largest_number_whose_square_fits() {
    let random = &mut Random::new(10);
    for n in (0..2000).chain((0..2000).map(|_| random.between(0, 1 << 62))) {
        let r = root(n);
        assert!(r * r <= n && n < (r + 1) * (r + 1), "{n}");
    }
}

/// The largest first root that keeps p.
fn kept_up_to(p: i32) -> i128 {
    (0..).take_while(|s| own(p, s * s).p == p).last().unwrap()
}

#[test]
fn what_nearest_keeps() {
    let kept = [2037, 2000, 1900, 1800, 1536, 1024].map(kept_up_to);
    assert_eq!(kept, [18, 76, 271, 532, 1_763, 11_892]);
}

#[test]
fn no_tension_keeps_every_p_and_more_tension_takes_more() {
    for p in 1..=2037 {
        assert_eq!(own(p, 0).p, p);
        assert_eq!(own(p, 0).divisor, 157_286_400);
        let owns: Vec<i32> = (0..50).map(|k| own(p, 1 << k).p).collect();
        assert!(owns.windows(2).all(|pair| pair[1] <= pair[0]), "p {p}");
        assert!(owns.iter().all(|&own| 1 <= own && own <= p && 54 * p <= 100 * own + 99), "p {p}");
    }
}

fn stepped(state: &State, relaxation: impl Into<Relaxation>, gravity: [i32; 3]) -> Parts {
    next_state(&Grid::new([3; 3]).unwrap(), state, relaxation, gravity).unwrap().cells[13].parts
}

#[test]
fn case_u() {
    let mut state = case_t().state;
    let parts = &mut state.cells[13].parts;
    (parts[1], parts[2], parts[5], parts[6]) = (33_768, 33_768, 31_768, 31_768);
    let kept = *parts;
    // Among walls what streams is the opposite part, here the same.
    let flow = pushed(&kept, [0; 3]);
    assert_eq!(stressed(&kept, &flow), [[2_000, 0, 0], [0, 0, 0], [0, 0, -2_000]]);
    assert_eq!(tension(&stressed(&kept, &flow)), 8_000_000);
    assert_eq!(own_relaxation(&kept, &flow, 2037).p, 2021);
    let becomes = |along, up| {
        let mut parts = kept;
        (parts[1], parts[2], parts[5], parts[6]) = (along, along, up, up);
        parts
    };
    assert_eq!(stepped(&state, turbulent(2037), [0; 3]), becomes(31_795, 33_741));
    assert_eq!(stepped(&state, 2037, [0; 3]), becomes(31_779, 33_757));
}

#[test]
fn case_u_of_the_flume() {
    let mut scene = case_f();
    let parts = &mut scene.state.cells[4].parts;
    (parts[1], parts[2], parts[3], parts[4]) = (66_536, 66_536, 64_536, 64_536);
    let kept = *parts;
    let flow = flume::pushed(&kept, [0; 2]);
    assert_eq!(flume::stressed(&kept, &flow), [[2_000, 0], [0, -2_000]]);
    assert_eq!(flume::own_relaxation(&kept, &flow, 2037).p, 2021);
    let becomes = |along, up| {
        let mut parts = kept;
        (parts[1], parts[2], parts[3], parts[4]) = (along, along, up, up);
        parts
    };
    let stepped = |relaxation: Relaxation| {
        flume::next_state(&scene.grid(), &scene.state, relaxation, [0; 2]).unwrap().cells[4].parts
    };
    assert_eq!(stepped(turbulent(2037)), becomes(64_563, 66_509));
    assert_eq!(stepped(2037.into()), becomes(64_547, 66_525));
}

#[test]
fn cases_t_and_f_are_the_same_in_both_modes() {
    let scene = case_t();
    let gravity = scene.settings.gravity;
    assert_eq!(
        own_relaxation(&scene.state.cells[13].parts, &pushed(&scene.state.cells[13].parts, gravity), 1024).p,
        1024
    );
    assert_eq!(stepped(&scene.state, turbulent(1024), gravity), stepped(&scene.state, 1024, gravity));
    assert_eq!(stepped(&scene.state, turbulent(1024), gravity)[5..7], [32_673, 32_864]);
    let scene = case_f();
    let modes = [turbulent(1024), 1024.into()]
        .map(|mode| flume::next_state(&scene.grid(), &scene.state, mode, scene.settings.gravity).unwrap());
    assert_eq!(modes[0], modes[1]);
    assert_eq!(modes[0].cells[4].parts[3..5], [65_345, 65_728]);
}

#[test]
fn refusal_8_by_speed_stands_in_both_modes() {
    for turbulent in [false, true] {
        let relaxation = Relaxation { p: 1500, turbulent };
        let mut state = case_t().state;
        state.cells[13].parts = equilibrium(ONE, &[-196_018, 0, 0]);
        state.work_out_fills();
        let grid = Grid::new([3; 3]).unwrap();
        assert!(draft(&grid, &state, relaxation, [1048, 0, 0]).is_ok());
        let refused = next_state(&grid, &state, relaxation, [1048, 0, 0]);
        assert_eq!(refused, Err(Refusal { number: 8, place: 13 }));

        let mut scene = case_f();
        scene.state.cells[4].parts = nine::Flow { rho: ONE, j: [-196_018, 0] }.equilibrium();
        scene.state.work_out_fills();
        let refused = flume::next_state(&scene.grid(), &scene.state, relaxation, [1048, 0]);
        assert_eq!(refused, Err(Refusal { number: 8, place: 4 }));
    }
}

#[test]
fn test_3_is_of_the_plain_p_and_the_run_has_one_mode() {
    let store = Store::of(&case_t().state);
    for p in [0, 2038] {
        let mut second = Store::blank(27);
        let told = step([3; 3], turbulent(p), [0; 3], store.lend(), second.lend_mut(), &mut [0; 27]);
        assert_eq!(told, Err(Refusal { number: 3, place: 0 }));
    }
    let mut state = case_t().state;
    state.cells[13].parts[1] += 30_000;
    state.cells[13].parts[2] += 30_000;
    state.work_out_fills();
    let (mut first, mut second) = (Store::of(&state), Store::blank(27));
    let made = run([3; 3], turbulent(2037), [0; 3], 2, first.lend_mut(), second.lend_mut(), &mut [0; 27]);
    let grid = Grid::new([3; 3]).unwrap();
    let once = next_state(&grid, &state, turbulent(2037), [0; 3]).unwrap();
    let twice = next_state(&grid, &once, turbulent(2037), [0; 3]).unwrap();
    assert_eq!((made.count, State::of(first.lend())), (2, twice));
}

/// Parts at random around an equilibrium, with noise of every size, and their flow.
fn cell(random: &mut Random) -> (Parts, Flow) {
    let rho = random.between(300_000, 1_170_000);
    let j = [(); 3].map(|_| random.between(-rho / 6, rho / 6));
    let noise = 1 << random.below(20);
    let mut parts = equilibrium(rho, &j);
    parts[1..].iter_mut().for_each(|part| *part += random.between(-noise, noise));
    (parts, pushed(&parts, [0; 3]))
}

#[test]
fn a_reflection_keeps_own_p() {
    let random = &mut Random::new(13);
    let reflected = |axis: usize, k: usize| {
        let mut e = DIRECTIONS[k];
        e[axis] = -e[axis];
        DIRECTIONS.iter().position(|d| *d == e).unwrap()
    };
    for _ in 0..2000 {
        let (parts, flow) = cell(random);
        for axis in 0..3 {
            let turned: Parts = std::array::from_fn(|k| parts[reflected(axis, k)]);
            let mut mirrored = flow;
            mirrored.j[axis] = -mirrored.j[axis];
            assert_eq!(own_relaxation(&turned, &mirrored, 2000).p, own_relaxation(&parts, &flow, 2000).p);
        }
    }
}

/// The box's T by pairs, as the amendment writes it out.
#[test]
fn the_tensor_by_pairs() {
    let random = &mut Random::new(19);
    for _ in 0..2000 {
        let (parts, flow) = cell(random);
        let still = equilibrium(flow.rho, &flow.j);
        let s = |k: usize| parts[k] + parts[k + 1] - still[k] - still[k + 1];
        let on = [
            s(1) + s(7) + s(9) + s(15) + s(17),
            s(3) + s(7) + s(9) + s(11) + s(13),
            s(5) + s(11) + s(13) + s(15) + s(17),
        ];
        let off = [s(7) - s(9), s(11) - s(13), s(15) - s(17)];
        let square = |entries: [i128; 3]| entries.iter().map(|entry| entry * entry).sum::<i128>();
        assert_eq!(tension(&stressed(&parts, &flow)), square(on) + 2 * square(off));
    }
}
