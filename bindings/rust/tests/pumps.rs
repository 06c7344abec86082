// Pour and take by the wrapper and by skw: document 01's figures, demand 3 over acts and steps, and the record with poured and taken.

use std::io::Write;
use std::process::{Command, Output, Stdio};

use oracle::random::Random;
use oracle::scenes::good;
use skwarzyna::{Grid, Point, Refusal, Settings, Sides, Site, FULL, INTERFACE, ONE};

const CASE_T: &[u8] = include_bytes!("../../../crates/gridstep/stdin");
const MIDDLE: usize = 13;
const FALLING: Settings = Settings { p: 1024, gx: 0, gy: 0, gz: -1024 };
const CORNER: Site = Site { edge: 50, origin: Point::new(0, 0, 0) };

fn refusal<T>(number: u8, place: usize) -> Result<T, Refusal> {
    Err(Refusal { number, place })
}

fn held(grid: &Grid) -> (i32, u32, i64, i64) {
    let state = grid.state();
    (state.masses[MIDDLE], state.fills[MIDDLE], grid.poured(), grid.taken())
}

#[test]
fn case_t_one_act_after_another() {
    let mut grid = Grid::new(Sides::new(3, 3, 3)).unwrap();
    grid.set_interface(MIDDLE, ONE / 2).unwrap();
    assert_eq!(grid.pour(MIDDLE, 100_000), Ok(100_000));
    assert_eq!(held(&grid), (394_912, 43_879, 100_000, 0));
    assert_eq!(grid.take(MIDDLE, 589_824), Ok(394_912));
    assert_eq!(grid.take(MIDDLE, 5), Ok(0));
    assert_eq!(held(&grid), (0, 0, 100_000, 394_912));
    assert_eq!(grid.pour(MIDDLE, 589_825), refusal(16, 0));
    assert_eq!(grid.pour(12, 1), refusal(15, 12));
    assert_eq!(grid.take(27, 1), refusal(13, 0));
    for _ in 0..4 {
        assert_eq!(grid.pour(MIDDLE, 589_824), Ok(589_824));
    }
    assert_eq!(held(&grid), (2_359_296, FULL, 2_459_296, 394_912));
    assert_eq!(grid.pour(MIDDLE, 1), refusal(16, 0));
    assert_eq!(grid.water().balance(), 294_912);
    let bytes = grid.write(FALLING, CORNER).unwrap();
    assert_eq!((bytes.len(), Grid::read(&bytes).unwrap().grid), (215, grid));
}

#[test]
fn the_balance_never_changes() {
    for seed in 0..200 {
        let record = Grid::read(&good(seed).record()).unwrap();
        let (mut grid, random) = (record.grid, &mut Random::new(seed));
        let balance = grid.water().balance();
        for _ in 0..12 {
            let totals = (grid.poured(), grid.taken());
            match random.below(3) {
                0 => {
                    let _ = grid.step(record.settings);
                    assert_eq!((grid.poured(), grid.taken()), totals);
                }
                1 => {
                    let _ = grid.run(3, record.settings);
                    assert_eq!((grid.poured(), grid.taken()), totals);
                }
                _ => {
                    let flags = grid.state().flags;
                    let surface: Vec<usize> = (0..flags.len()).filter(|&c| flags[c] == INTERFACE).collect();
                    let cell = if surface.is_empty() { 0 } else { random.pick(&surface) };
                    let amount = random.between(0, 589_825) as i64;
                    let _ =
                        if random.percent(50) { grid.pour(cell, amount) } else { grid.take(cell, amount) };
                }
            }
            assert_eq!((grid.water().balance(), grid.check()), (balance, Ok(())), "seed {seed}");
        }
    }
}

fn skw(words: &[&str], input: &[u8]) -> Output {
    let mut command = Command::new(env!("CARGO_BIN_EXE_skw"));
    command.args(words).stdin(Stdio::piped()).stdout(Stdio::piped()).stderr(Stdio::piped());
    let mut child = command.spawn().unwrap();
    // A call that does not read its input may close it.
    let _ = child.stdin.take().unwrap().write_all(input);
    child.wait_with_output().unwrap()
}

#[test]
fn skw_pours_and_takes_from_record_to_record() {
    let poured = skw(&["pour", "13", "100000"], CASE_T);
    assert_eq!(poured.status.code(), Some(0));
    let told = String::from_utf8(poured.stderr).unwrap();
    assert_eq!(told, "100,000 units poured; cell 13 holds 394,912; balance 294,912 units\n");
    let taken = skw(&["take", "13", "589824", "-q"], &poured.stdout);
    assert_eq!((taken.status.code(), &taken.stderr[..]), (Some(0), &b""[..]));
    let grid = Grid::read(&taken.stdout).unwrap().grid;
    assert_eq!(held(&grid), (0, 0, 100_000, 394_912));
    let water = String::from_utf8(skw(&["water"], &taken.stdout).stdout).unwrap();
    assert!(water.ends_with(
        "poured                               100,000\n\
         taken                                394,912\n\
         balance                              294,912\n"
    ));
    let refused = skw(&["pour", "12", "1"], CASE_T);
    assert_eq!((refused.status.code(), &refused.stdout[..]), (Some(1), &b""[..]));
    let told = String::from_utf8(refused.stderr).unwrap();
    assert!(told.contains("refusal 15: the cell is not interface, at cell 12 (x 0, y 1, z 1)"), "{told}");
    assert_eq!(skw(&["take", "13", "0"], CASE_T).status.code(), Some(1));
    assert_eq!(skw(&["take", "13"], CASE_T).status.code(), Some(2));
}
