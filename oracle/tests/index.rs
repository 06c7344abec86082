// The index of the surface: P2's worked figures, what is refused and in which order, and what refusals leave.

use oracle::index::{self, surface_count, surface_next, words_of, Next};
use oracle::scenes::{case_t, good};
use oracle::{load, Held, HeldMut, HeldStore, IndexStore, Refusal, Store};

fn refusal(number: u32, place: u64) -> Refusal {
    Refusal { number, place }
}

fn asked(sides: [u32; 3], words: &[u64], start: usize) -> Result<(Option<usize>, usize), Refusal> {
    surface_next(sides, words, start).map(|Next { cell, words }| (cell, words))
}

/// 5×5×5, wall outside, empty inside but for the interface cells 31 and 93, each as case T's middle.
fn two() -> Store {
    let middle = Store::of(&case_t().state);
    let mut store = Store::blank(125);
    for c in 0..125 {
        let outer = [c % 5, c / 5 % 5, c / 25].iter().any(|&x| x == 0 || x == 4);
        store.flags[c] = if outer { 3 } else { 0 };
    }
    for c in [31, 93] {
        store.flags[c] = 1;
        store.parts[19 * c..19 * (c + 1)].copy_from_slice(&middle.parts[19 * 13..19 * 14]);
        (store.masses[c], store.fills[c]) = (middle.masses[13], middle.fills[13]);
    }
    store
}

#[test]
fn case_t_has_one_word() {
    let held = HeldStore::of(Store::of(&case_t().state));
    assert_eq!((&held.index.words[..], &held.index.count[..]), (&[8192][..], &[1][..]));
    assert_eq!(load([3; 3], held.lend()), Ok(()));
    let next = |start: usize| asked([3; 3], &held.index.words, start);
    assert_eq!(surface_count([3; 3], &held.index.words), Ok(1));
    assert_eq!([next(0), next(13)], [Ok((Some(13), 1)); 2]);
    assert_eq!([next(14), next(27), next(28)], [Ok((None, 1)), Ok((None, 0)), Err(refusal(13, 0))]);
}

#[test]
fn two_cells_in_two_words() {
    let mut held = HeldStore::of(two());
    assert_eq!(held.index, IndexStore { words: vec![2_147_483_648, 536_870_912], count: vec![2] });
    assert_eq!(load([5; 3], held.lend()), Ok(()));
    let next = |start: usize| asked([5; 3], &held.index.words, start);
    assert_eq!([next(0), next(32), next(64)], [Ok((Some(31), 1)), Ok((Some(93), 2)), Ok((Some(93), 1))]);
    assert_eq!([next(94), next(125)], [Ok((None, 1)), Ok((None, 0))]);

    held.index.count[0] = 3;
    assert_eq!(load([5; 3], held.lend()), Err(refusal(14, 0)));
    held.index.count[0] = 2;
    held.index.words[1] |= 1 << 61;
    assert_eq!(load([5; 3], held.lend()), Err(refusal(14, 0)));
    assert_eq!(surface_count([5; 3], &held.index.words), Ok(2));
    assert_eq!(asked([5; 3], &held.index.words, 94), Ok((None, 1)));
}

#[test]
fn lengths_and_sides_come_first() {
    let held = HeldStore::of(two());
    assert_eq!(surface_count([5, 5, 2], &[]), Err(refusal(1, 0)));
    assert_eq!(surface_next([5; 3], &held.index.words[1..], 999), Err(refusal(2, 0)));
    for (words, count) in [(1, 1), (3, 1), (2, 0), (2, 2)] {
        let mut other = held.clone();
        other.index.words.resize(words, 0);
        other.index.count.resize(count, 0);
        assert_eq!(load([5; 3], other.lend()), Err(refusal(2, 0)));
    }
}

#[test]
fn steps_and_runs_keep_the_index() {
    for seed in 0..200 {
        let scene = good(seed);
        let (p, gravity) = (scene.settings.p, scene.settings.gravity);
        let first = HeldStore::of(Store::of(&scene.state));
        let n = first.set.flags.len();
        let junk = IndexStore { words: vec![seed; words_of(n)], count: vec![seed] };
        let mut second = HeldStore { set: first.set.clone(), index: junk };
        let (untouched, mut marks) = (second.clone(), vec![1; n]);

        let mut untrue = first.clone();
        untrue.index.words[0] ^= 1;
        let refused = index::step(scene.sides, p, gravity, untrue.lend(), second.lend_mut(), &mut marks);
        assert_eq!(refused, Err(refusal(14, 0)), "seed {seed}");
        assert_eq!(second, untouched, "seed {seed}");

        let stepped = index::step(scene.sides, p, gravity, first.lend(), second.lend_mut(), &mut marks);
        assert_eq!(load(scene.sides, second.lend()), Ok(()), "seed {seed}");
        if stepped.is_err() {
            assert_eq!(second, first, "seed {seed}");
        }

        let (mut one, mut two) = (first.clone(), untouched);
        let (a, b): (HeldMut, HeldMut) = (one.lend_mut(), two.lend_mut());
        index::run(scene.sides, p, gravity, 5, a, b, &mut marks);
        assert_eq!(one, two, "seed {seed}");
        let reached: Held = one.lend();
        assert_eq!(load(scene.sides, reached), Ok(()), "seed {seed}");
    }
}
