// The hunt for what one designer learns of the other: histories of two schemes, and each scheme's acts replayed beside another.

use std::collections::BTreeMap;

use crate::designers::{Asked, Calls, Deed, Here, Told, Tunnel};
use crate::grid::Refusal;
use crate::index::HeldStore;
use crate::random::Random;
use crate::scenes::settings;
use crate::schemes::Change;
use crate::state::State;

/// Turns of a history.
const TURNS: usize = 16;

/// What was asked at a turn and told, and the tunnel after it.
#[derive(Clone, Debug)]
pub struct Turn {
    pub who: usize,
    pub asked: Asked,
    pub told: Told,
    pub after: Tunnel,
}

/// How often each thing was met.
#[derive(Clone, Debug, Default)]
pub struct Tally {
    pub met: BTreeMap<&'static str, usize>,
}

/// All that a hunt of many seeds must meet.
pub const EVENTS: [&str; 15] = [
    "steps accepted",
    "steps refused",
    "runs",
    "turbulent steps accepted",
    "turbulent steps refused",
    "turbulent runs",
    "acts accepted",
    "acts refused",
    "walls added",
    "walls taken out",
    "refused to both, 13 or 17",
    "refused for the asker's own water, 18",
    "refused for the other's water alone, 18",
    "turns replayed beside another scheme",
    "replays to the end",
];

type Finding = Result<(), String>;

fn ensure(holds: bool, said: impl FnOnce() -> String) -> Finding {
    if holds {
        Ok(())
    } else {
        Err(said())
    }
}

impl Tally {
    pub fn count(&self, event: &str) -> usize {
        self.met.get(event).copied().unwrap_or(0)
    }

    fn add(&mut self, event: &'static str) {
        *self.met.entry(event).or_default() += 1;
    }

    pub fn join(&mut self, other: Tally) {
        for (event, count) in other.met {
            *self.met.entry(event).or_default() += count;
        }
    }
}

fn balances(tunnel: &Tunnel) -> [i128; 2] {
    [0, 1].map(|who| State::of(tunnel.schemes[who].set.lend()).balance())
}

/// The answer to a wall change beside a dry scheme: what the asker's own grid and the map decide.
fn alone<C: Calls>(tunnel: &Tunnel, who: usize, asked: Asked) -> Told {
    let mut tunnel = tunnel.clone();
    tunnel.schemes[1 - who] = tunnel.dry();
    tunnel.ask::<C>(who, asked)
}

/// What the answer to a wall change must be: the one beside a dry scheme, unless that accepts and the other's water is in the way.
fn foreseen<C: Calls>(tunnel: &Tunnel, who: usize, change: Change, cell: u64) -> Told {
    let alone = alone::<C>(tunnel, who, Asked::Wall(change, cell));
    if alone.accepted() && tunnel.in_the_way(1 - who, change, cell as usize) {
        return Told { refusal: Some(Refusal { number: 18, place: cell }), value: 0 };
    }
    alone
}

/// What each designer keeps over every turn: good grids of the same walls, the balance to the unit, and whatever is not theirs to change.
fn kept<C: Calls>(before: &Tunnel, turn: &Turn) -> Finding {
    let Turn { who, asked, told, after } = turn;
    for (k, scheme) in after.schemes.iter().enumerate() {
        let mut flags = vec![9; after.map.len()];
        let joined = C::join(after.sides, &after.map, scheme.set.lend(), &mut flags);
        ensure(joined.is_ok(), || format!("scheme {k} is no longer good: {joined:?}"))?;
        ensure(*scheme == HeldStore::of(scheme.set.clone()), || format!("scheme {k}'s index is untrue"))?;
        ensure((0..flags.len()).all(|c| (flags[c] == 3) == (after.map[c] == 1)), || "walls moved".into())?;
        let mut own = flags.clone();
        let parted = C::part(after.sides, &flags, &mut own);
        ensure(parted.is_ok() && own == scheme.set.flags, || format!("scheme {k} parts otherwise"))?;
    }
    ensure(balances(before) == balances(after), || "a balance changed".into())?;
    let wall = matches!(asked, Asked::Wall(..));
    let same_map = before.map == after.map;
    ensure(before.schemes[1 - who] == after.schemes[1 - who], || "the other's scheme changed".into())?;
    ensure(!wall || before.schemes[*who] == after.schemes[*who], || "a wall change moved water".into())?;
    ensure(same_map != (wall && told.accepted()), || "the map is not as told".into())
}

/// Counts a turn; what a wall change was told is held to what is foreseen.
fn judged<C: Calls>(before: &Tunnel, turn: &Turn, tally: &mut Tally) -> Finding {
    let Turn { who, asked, told, .. } = turn;
    let accepted = told.accepted();
    tally.add(match *asked {
        Asked::Own(Deed::Step { turbulent: false }) if accepted => "steps accepted",
        Asked::Own(Deed::Step { turbulent: false }) => "steps refused",
        Asked::Own(Deed::Run { turbulent: false, .. }) => "runs",
        Asked::Own(Deed::Step { turbulent: true }) if accepted => "turbulent steps accepted",
        Asked::Own(Deed::Step { turbulent: true }) => "turbulent steps refused",
        Asked::Own(Deed::Run { turbulent: true, .. }) => "turbulent runs",
        Asked::Own(Deed::Act(..)) if accepted => "acts accepted",
        Asked::Own(Deed::Act(..)) => "acts refused",
        Asked::Wall(change, cell) => {
            let foreseen = foreseen::<C>(before, *who, change, cell);
            ensure(*told == foreseen, || format!("told {told:?}, foreseen {foreseen:?}"))?;
            match (told.refusal, change) {
                (None, Change::Add) => "walls added",
                (None, Change::Remove) => "walls taken out",
                (Some(Refusal { number: 18, .. }), _) => {
                    if alone::<C>(before, *who, *asked).accepted() {
                        "refused for the other's water alone, 18"
                    } else {
                        "refused for the asker's own water, 18"
                    }
                }
                _ => "refused to both, 13 or 17",
            }
        }
    });
    Ok(())
}

/// A history by seed: both designers ask what chance has them ask.
pub fn history<C: Calls>(seed: u64, tally: &mut Tally) -> Result<Vec<Turn>, String> {
    let random = &mut Random::new(seed ^ 0x1501_a7ed);
    let mut tunnel = Tunnel::of(seed);
    let mut turns: Vec<Turn> = Vec::with_capacity(TURNS);
    for number in 0..TURNS {
        let before = tunnel.clone();
        let who = random.below(2);
        let asked = tunnel.wish(random, who);
        let told = tunnel.ask::<C>(who, asked);
        let turn = Turn { who, asked, told, after: tunnel.clone() };
        let at = |text: String| format!("seed {seed}, turn {number}, {who} asks {asked:?}: {text}");
        kept::<C>(&before, &turn).map_err(at)?;
        judged::<C>(&before, &turn, tally).map_err(at)?;
        turns.push(turn);
    }
    Ok(turns)
}

/// Another scheme in the place of the one that is not watched, by chance.
fn another(random: &mut Random, start: &Tunnel, watched: usize) -> HeldStore {
    match random.below(4) {
        0 => start.dry(),
        // The same water, which then does something else.
        1 => start.schemes[1 - watched].clone(),
        _ => start.other_water(random),
    }
}

/// One scheme's own acts and the accepted wall changes of a history, beside another scheme that does what chance has it do: the same answers and the
/// same states, until water of that other scheme is in the way of a wall change that was accepted.
fn replayed<C: Calls>(seed: u64, turns: &[Turn], watched: usize, tally: &mut Tally) -> Finding {
    let random = &mut Random::new(seed ^ 0xbe51_de00 ^ watched as u64);
    let mut tunnel = Tunnel::of(seed);
    tunnel.schemes[1 - watched] = another(random, &tunnel, watched);
    tunnel.settings[1 - watched] = settings(random);
    for (number, turn) in turns.iter().enumerate() {
        let at = |text: &str| format!("seed {seed}, turn {number} of scheme {watched} replayed: {text}");
        // Whatever the other does of its own.
        let wish = tunnel.wish(random, 1 - watched);
        if matches!(wish, Asked::Own(_)) {
            tunnel.ask::<C>(1 - watched, wish);
        }
        match turn.asked {
            Asked::Wall(change, cell) if turn.told.accepted() => {
                let told = tunnel.ask::<C>(random.below(2), turn.asked);
                if !told.accepted() {
                    let hindered = tunnel.in_the_way(1 - watched, change, cell as usize);
                    let in_the_way = Some(Refusal { number: 18, place: cell });
                    return ensure(hindered && told.refusal == in_the_way, || {
                        at("an accepted change is refused")
                    });
                }
            }
            Asked::Wall(change, cell) if turn.who == watched => {
                let foreseen = foreseen::<C>(&tunnel, watched, change, cell);
                let told = tunnel.clone().ask::<C>(watched, turn.asked);
                ensure(told == foreseen, || at("a refused change is told of otherwise"))?;
                // Beside a scheme that is not in the way where the first was, or the reverse, nothing else differs.
                let in_the_way = |told: &Told| told.refusal.is_some_and(|refusal| refusal.number == 18);
                let same = told == turn.told || in_the_way(&told) || in_the_way(&turn.told);
                ensure(same, || at("a refused change differs by more than water in the way"))?;
            }
            Asked::Own(_) if turn.who == watched => {
                let told = tunnel.ask::<C>(watched, turn.asked);
                ensure(told == turn.told, || at("another answer"))?;
            }
            Asked::Own(_) | Asked::Wall(..) => {}
        }
        let same = tunnel.schemes[watched] == turn.after.schemes[watched] && tunnel.map == turn.after.map;
        ensure(same, || at("another state"))?;
        tally.add("turns replayed beside another scheme");
    }
    tally.add("replays to the end");
    Ok(())
}

/// The hunt at one seed: a history, and both of its schemes replayed beside others.
pub fn hunted<C: Calls>(seed: u64) -> Result<Tally, String> {
    let mut tally = Tally::default();
    let turns = history::<C>(seed, &mut tally)?;
    for watched in 0..2 {
        replayed::<C>(seed, &turns, watched, &mut tally)?;
    }
    Ok(tally)
}

/// The hunt in this program.
pub fn hunt(seeds: std::ops::Range<u64>) -> Result<Tally, String> {
    let mut tally = Tally::default();
    for seed in seeds {
        tally.join(hunted::<Here>(seed)?);
    }
    Ok(tally)
}
