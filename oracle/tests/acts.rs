// The worked figures of pour and take, section 4 of one number and of three, and what a refusal leaves.

use oracle::acts::{act, Act};
use oracle::grid::Refusal;
use oracle::random::Random;
use oracle::record::{read_within, written_back};
use oracle::scenes::{case_t, good};
use oracle::state::{State, INTERFACE};
use oracle::text::gridstep;
use oracle::{check, pour, step, take, write, Store};

fn refusal<T>(number: u32, place: u64) -> Result<T, Refusal> {
    Err(Refusal { number, place })
}

/// Mass, fill, poured and taken after an act on case T's centre.
fn held(store: &Store) -> (i32, u32, i64, i64) {
    (store.masses[13], store.fills[13], store.carry[1], store.carry[2])
}

#[test]
fn case_t_one_act_after_another() {
    let sides = [3; 3];
    let mut store = Store::of(&case_t().state);
    assert_eq!(pour(sides, store.lend_mut(), 13, 100_000), Ok(100_000));
    assert_eq!(held(&store), (394_912, 43_879, 100_000, 0));
    assert_eq!(take(sides, store.lend_mut(), 13, 589_824), Ok(394_912));
    assert_eq!(held(&store), (0, 0, 100_000, 394_912));
    assert_eq!(take(sides, store.lend_mut(), 13, 5), Ok(0));
    let kept = store.clone();
    for amount in [589_825, 0, -1, i64::MIN, i64::MAX] {
        assert_eq!(pour(sides, store.lend_mut(), 13, amount), refusal(16, 0));
        assert_eq!(take(sides, store.lend_mut(), 13, amount), refusal(16, 0));
        assert_eq!(pour(sides, store.lend_mut(), 12, amount), refusal(15, 12));
        assert_eq!(take(sides, store.lend_mut(), 27, amount), refusal(13, 0));
    }
    assert_eq!(pour(sides, store.lend_mut(), 1 << 32 | 13, 1), refusal(13, 0));
    assert_eq!(store, kept);
    for _ in 0..4 {
        assert_eq!(pour(sides, store.lend_mut(), 13, 589_824), Ok(589_824));
    }
    assert_eq!(held(&store), (2_359_296, 65_536, 2_459_296, 394_912));
    assert_eq!(pour(sides, store.lend_mut(), 13, 1), refusal(16, 0));
    assert_eq!(State::of(store.lend()).balance(), 294_912);
}

#[test]
fn limits_are_reached_and_not_passed() {
    let most = 1_000_000_000_000_000;
    let mut store = Store::of(&case_t().state);
    store.carry[1] = most - 7;
    assert_eq!(pour([3; 3], store.lend_mut(), 13, 8), refusal(16, 0));
    assert_eq!(pour([3; 3], store.lend_mut(), 13, 7), Ok(7));
    // What is taken counts, not what is asked.
    (store.carry[2], store.masses[13], store.fills[13]) = (most - 3, 3, 0);
    assert_eq!(take([3; 3], store.lend_mut(), 13, 589_824), Ok(3));
    assert_eq!(store.carry, [0, most, most]);
    assert_eq!(take([3; 3], store.lend_mut(), 13, 589_824), Ok(0));
    (store.masses[13], store.fills[13]) = (-2_359_296, 0);
    assert_eq!(take([3; 3], store.lend_mut(), 13, 1), Ok(0));
    for (k, wrong) in [(1, most + 1), (2, -1)] {
        let mut broken = store.clone();
        broken.carry[k] = wrong;
        assert_eq!(check([3; 3], broken.lend()), refusal(6, 27));
        assert_eq!(pour([3; 3], broken.lend_mut(), 99, 0), refusal(6, 27));
        broken.masses[4] = 1;
        assert_eq!(check([3; 3], broken.lend()), refusal(6, 4));
    }
}

#[test]
fn section_four_with_one_number_and_with_three() {
    let mut scene = case_t();
    let one = scene.record();
    scene.numbers = 3;
    let three = scene.record();
    assert_eq!((one.len(), three.len()), (199, 215));
    assert_eq!(written_back(&one), three);
    assert_eq!(written_back(&three), three);
    assert_eq!(gridstep(&one), gridstep(&three));
    let flags = |bytes: &[u8]| {
        let (reading, _) = read_within(bytes, 27).unwrap();
        reading.flags.as_ptr() as usize - bytes.as_ptr() as usize
    };
    assert_eq!((flags(&one), flags(&three)), (84, 100));
    let cut = |bytes: &[u8], length: usize| read_within(&bytes[..length], 27).map(|_| ());
    assert_eq!((cut(&one, 87), cut(&three, 87)), (refusal(10, 80), refusal(10, 68)));
    assert_eq!((cut(&one, 99), cut(&three, 99)), (refusal(10, 80), refusal(10, 96)));
    for count in [0, 2, 4, 255] {
        let mut other = one[..72].to_vec();
        other[68] = count;
        assert_eq!(cut(&other, 72), refusal(11, 4));
        assert_eq!(cut(&other, 71), refusal(10, 68));
    }
    let (reading, store) = read_within(&one, 27).unwrap();
    let mut room = [9; 216];
    assert_eq!(write(reading.sides, &reading.settings, reading.origin, store.lend(), &mut room), Ok(215));
    assert_eq!((&room[..215], room[215]), (&three[..], 9));
    assert_eq!(
        write(reading.sides, &reading.settings, reading.origin, store.lend(), &mut [0; 214]),
        refusal(12, 215)
    );
}

/// Demand 3 by chance: acts and steps in any order, from every kind of scene.
#[test]
fn the_balance_never_changes() {
    let mut acts = 0;
    for seed in 0..400 {
        let random = &mut Random::new(seed);
        let scene = good(seed);
        let mut store = Store::of(&scene.state);
        let n = store.flags.len();
        let balance = State::of(store.lend()).balance();
        let (p, gravity) = (scene.settings.p, scene.settings.gravity);
        for _ in 0..12 {
            let carry = store.carry[0];
            if random.percent(40) {
                let mut second = Store::blank(n);
                let _ = step(scene.sides, p, gravity, store.lend(), second.lend_mut(), &mut vec![0; n]);
                assert_eq!(second.carry[1..], store.carry[1..]);
                store = second;
            } else {
                let surface: Vec<usize> = (0..n).filter(|&c| store.flags[c] == INTERFACE).collect();
                let cell = if surface.is_empty() { 0 } else { random.pick(&surface) };
                let amount = random.between(-2, 589_826) as i64;
                let which = random.pick(&[Act::Pour, Act::Take]);
                acts += usize::from(act(which, scene.sides, store.lend_mut(), cell as u64, amount).is_ok());
                assert_eq!(store.carry[0], carry);
            }
            assert_eq!(State::of(store.lend()).balance(), balance);
            assert_eq!(check(scene.sides, store.lend()), Ok(()));
        }
    }
    assert!(acts > 1000, "{acts} acts were accepted");
}
