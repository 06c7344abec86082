// Slices no record can hold: any length, any value, and what each refusal leaves untouched.

use oracle::grid::Refusal;
use oracle::random::Random;
use oracle::scenes::{case_t, good, parts_at};
use oracle::{cell_point, check, depth, place, read, run, step, write, Settings, Store};

fn refusal(number: u32, place: u64) -> Refusal {
    Refusal { number, place }
}

/// What check answers to case T with one thing changed.
fn checked(change: impl Fn(&mut Store)) -> Option<Refusal> {
    let mut store = Store::of(&case_t().state);
    change(&mut store);
    check([3; 3], store.lend()).err()
}

#[test]
fn every_rule_of_a_good_state() {
    assert_eq!(checked(|_| ()), None);
    assert_eq!(checked(|s| s.flags[12] = 0), Some(refusal(4, 12)));
    assert_eq!(checked(|s| s.flags[13] = 4), Some(refusal(4, 13)));
    assert_eq!(checked(|s| s.flags[26] = 255), Some(refusal(4, 26)));
    assert_eq!(checked(|s| s.masses[5] = 1), Some(refusal(6, 5)));
    assert_eq!(checked(|s| s.parts[19 * 4 + 18] = -1), Some(refusal(6, 4)));
    assert_eq!(checked(|s| s.fills[26] = 1), Some(refusal(6, 26)));
    assert_eq!(checked(|s| s.fills[13] += 1), Some(refusal(6, 13)));
    assert_eq!(checked(|s| s.flags[13] = 2), Some(refusal(6, 13)));
    assert_eq!(checked(|s| (s.flags[13], s.masses[13], s.fills[13]) = (2, 589_824, 65_536)), None);
    assert_eq!(checked(|s| (s.masses[13], s.fills[13]) = (2_359_296, 65_536)), None);
    assert_eq!(checked(|s| (s.masses[13], s.fills[13]) = (2_359_297, 65_536)), Some(refusal(6, 13)));
    assert_eq!(checked(|s| (s.masses[13], s.fills[13]) = (-2_359_296, 0)), None);
    assert_eq!(checked(|s| (s.masses[13], s.fills[13]) = (-2_359_297, 0)), Some(refusal(6, 13)));
    assert_eq!(checked(|s| s.carry[0] = 1_000_000_000_000), None);
    assert_eq!(checked(|s| s.carry[0] = -1_000_000_000_001), Some(refusal(6, 27)));
    assert_eq!(checked(|s| (s.carry[0], s.fills[20]) = (i64::MIN, 9)), Some(refusal(6, 20)));
}

#[test]
fn limits_of_parts_density_and_speed() {
    let with = |rho: i128, j: [i128; 3], mass: i32, fill: u32| {
        checked(|s| {
            for (k, part) in parts_at(rho, &j).into_iter().enumerate() {
                s.parts[19 * 13 + k] = part as i32;
            }
            (s.masses[13], s.fills[13]) = (mass, fill);
        })
    };
    assert_eq!(with(294_912, [0; 3], 147_456, 32_768), None);
    assert_eq!(with(294_911, [0; 3], 0, 0), Some(refusal(6, 13)));
    assert_eq!(with(1_179_648, [0; 3], 0, 0), None);
    assert_eq!(with(1_179_649, [0; 3], 0, 0), Some(refusal(6, 13)));
    assert_eq!(with(589_824, [0, 196_608, 0], 0, 0), None);
    assert_eq!(with(589_824, [0, -196_609, 0], 0, 0), Some(refusal(6, 13)));
    // A pair of opposite parts pushes part 0 to its limit at density ONE.
    let paired = |pair: i32| {
        checked(|s| {
            s.parts[19 * 13..19 * 14].fill(0);
            s.parts[19 * 13] = 589_824 - 2 * pair;
            s.parts[19 * 13 + 1..19 * 13 + 3].fill(pair);
        })
    };
    assert_eq!(paired(-294_912), None);
    assert_eq!(paired(-294_913), Some(refusal(6, 13)));
}

#[test]
fn wrong_lengths_are_refused_and_nothing_is_written() {
    let good = Store::of(&case_t().state);
    type Change = fn(&mut Store);
    let changes: [Change; 7] = [
        |s| s.flags.truncate(26),
        |s| s.parts.push(0),
        |s| s.masses.clear(),
        |s| s.fills.push(0),
        |s| s.carry.clear(),
        |s| s.carry.push(0),
        |s| s.parts.truncate(27),
    ];
    for change in changes {
        let mut wrong = good.clone();
        change(&mut wrong);
        assert_eq!(check([3; 3], wrong.lend()), Err(refusal(2, 0)));
        let mut lent = good.clone();
        let mut marks = [9; 27];
        // Lengths come before the settings, and those of the second set among them.
        let answer = step([3; 3], 0, [0; 3], wrong.lend(), lent.lend_mut(), &mut marks);
        assert_eq!(answer, Err(refusal(2, 0)));
        let mut second = wrong.clone();
        let answer = step([3; 3], 0, [0; 3], good.lend(), second.lend_mut(), &mut marks);
        assert_eq!(answer, Err(refusal(2, 0)));
        let made = run([3; 3], 0, [0; 3], 5, lent.lend_mut(), second.lend_mut(), &mut marks);
        assert_eq!((made.count, made.refusal), (0, Some(refusal(2, 0))));
        assert_eq!((lent, second, marks), (good.clone(), wrong.clone(), [9; 27]));
        let scene = case_t();
        let mut room = [1; 300];
        let answer = write([3; 3], &scene.settings, scene.origin, wrong.lend(), &mut room);
        assert_eq!((answer, room), (Err(refusal(2, 0)), [1; 300]));
    }
    let mut second = good.clone();
    for length in [0, 26, 28] {
        let answer = step([3; 3], 1, [0; 3], good.lend(), second.lend_mut(), &mut vec![9; length]);
        assert_eq!(answer, Err(refusal(2, 0)));
    }
    assert_eq!(cell_point([3; 3], &[0; 26], 99), Err(refusal(2, 0)));
    assert_eq!(depth([3; 3], &[9; 27], &[0; 28], 9, 9), Err(refusal(2, 0)));
}

#[test]
fn reader_tests_lengths_right_after_the_sides() {
    let bytes = case_t().record();
    for (parts, masses, fills, carry) in [
        (512, 27, 27, 3),
        (513, 26, 27, 3),
        (513, 27, 28, 3),
        (513, 27, 27, 1),
        (513, 27, 27, 2),
        (513, 27, 27, 4),
    ] {
        let answer = read(
            &bytes[..16],
            &mut vec![0; parts],
            &mut vec![0; masses],
            &mut vec![0; fills],
            &mut vec![0; carry],
        );
        assert_eq!(answer, Err(refusal(2, 0)));
    }
    let answer = read(&bytes[..16], &mut [0; 513], &mut [0; 27], &mut [0; 27], &mut [0; 3]);
    assert_eq!(answer, Err(refusal(10, 16)));
}

#[test]
fn tests_come_in_their_order() {
    let scene = case_t();
    let mut store = Store::of(&scene.state);
    let mut second = Store::blank(27);
    let mut tried = |sides: [u32; 3], p: i32, store: &Store| {
        step(sides, p, [0; 3], store.lend(), second.lend_mut(), &mut [0; 27]).unwrap_err()
    };
    store.flags[0] = 9;
    store.masses[0] = 5;
    assert_eq!(tried([3, 3, 2], 0, &store), refusal(1, 0));
    assert_eq!(tried([3, 3, 4], 0, &store), refusal(2, 0));
    assert_eq!(tried([3, 3, 3], 0, &store), refusal(3, 0));
    assert_eq!(tried([3, 3, 3], 1, &store), refusal(4, 0));
    store.flags[0] = 3;
    assert_eq!(tried([3, 3, 3], 1, &store), refusal(6, 0));

    // Fluid beside empty comes before a broken rule at a lower cell.
    let mut open = Store::blank(36);
    open.flags.fill(3);
    (open.flags[17], open.flags[18], open.carry[0]) = (2, 0, i64::MAX);
    open.masses[1] = 7;
    assert_eq!(check([4, 3, 3], open.lend()), Err(refusal(5, 17)));
    open.flags[18] = 3;
    assert_eq!(check([4, 3, 3], open.lend()), Err(refusal(6, 1)));
}

#[test]
fn writer_tests_room_last() {
    let scene = case_t();
    let store = Store::of(&scene.state);
    let mut room = [1; 198];
    let mut tried = |settings: Settings, origin: [i64; 3], store: &Store| {
        write([3; 3], &settings, origin, store.lend(), &mut room).unwrap_err()
    };
    assert_eq!(tried(scene.settings, scene.origin, &store), refusal(12, 215));
    assert_eq!(tried(Settings { edge: 0, ..scene.settings }, scene.origin, &store), refusal(3, 0));
    assert_eq!(tried(scene.settings, [0, 0, i64::MIN], &store), refusal(3, 0));
    let mut broken = store.clone();
    broken.carry[0] = i64::MAX;
    assert_eq!(tried(scene.settings, scene.origin, &broken), refusal(6, 27));
    assert_eq!(room, [1; 198]);
}

#[test]
fn sides_out_of_range() {
    for sides in [[2, 3, 3], [3, 129, 3], [3, 3, 0], [128, 128, 17], [u32::MAX; 3]] {
        assert_eq!(check(sides, Store::blank(0).lend()), Err(refusal(1, 0)));
        assert_eq!(place(sides, 0, [i64::MIN; 3], [i64::MAX; 3]), Err(refusal(1, 0)));
        assert_eq!(cell_point(sides, &[], u64::MAX), Err(refusal(1, 0)));
        assert_eq!(depth(sides, &[], &[], u64::MAX, u64::MAX), Err(refusal(1, 0)));
    }
    assert_eq!(check([128, 128, 16], Store::blank(0).lend()), Err(refusal(2, 0)));
    assert_eq!(place([3; 3], 1, [i64::MIN; 3], [0; 3]), Err(refusal(3, 0)));
    assert_eq!(place([3; 3], 1, [0; 3], [0, i64::MAX, 0]), Err(refusal(3, 0)));
    assert_eq!(place([3; 3], 1001, [0; 3], [0; 3]), Err(refusal(3, 0)));
    assert_eq!(cell_point([3; 3], &[65_537; 27], 26), Err(refusal(6, 26)));
}

#[test]
fn any_values_are_answered() {
    let random = &mut Random::new(1);
    for seed in 0..300 {
        let scene = good(seed);
        let n = scene.state.cells.len();
        let mut store = Store::of(&scene.state);
        for _ in 0..random.between(1, 3) {
            let c = random.below(n);
            match random.below(5) {
                0 => store.flags[c] = random.bits() as u8,
                1 => store.parts[19 * c + random.below(19)] = random.bits() as i32,
                2 => store.masses[c] = random.bits() as i32,
                3 => store.fills[c] = random.bits() as u32,
                _ => store.carry[0] = random.bits() as i64,
            }
        }
        let answer = check(scene.sides, store.lend());
        let kept = store.clone();
        let (mut second, mut marks) = (Store::blank(n), vec![8; n]);
        let stepped = step(scene.sides, 1024, [0, 0, -500], store.lend(), second.lend_mut(), &mut marks);
        if let Err(refusal) = answer {
            assert_eq!(stepped, Err(refusal));
            assert_eq!((&second, &marks), (&Store::blank(n), &vec![8; n]));
            let made = run(scene.sides, 1024, [0; 3], 3, store.lend_mut(), second.lend_mut(), &mut marks);
            assert_eq!((made.count, made.refusal), (0, Some(refusal)));
            assert_eq!((store, second), (kept, Store::blank(n)));
        }
    }
}
