// The hunt finds nothing in any mode, and meets everything it lists and nothing it does not.

use oracle::bounds::BOUNDS;
use oracle::hunt::{hunt, EVENTS, TURBULENT_EVENTS};
use oracle::turbulence::Modes;

/// What the turbulent mode hardly leaves: a part far off its equilibrium is no longer thrown past it.
const DAMPED: [&str; 2] = ["refusal 8, moving part", "refusal 8, rest part"];

fn hunted(modes: Modes, besides: &[&str]) {
    let (tally, met) = hunt(700, 12, modes).unwrap();
    let rare = |event: &str| modes == Modes::Turbulent && DAMPED.contains(&event);
    for event in EVENTS.iter().chain(besides).filter(|event| !rare(event)) {
        assert!(tally.count(event) > 0, "never met: {event}");
    }
    for event in tally.met.keys() {
        assert!(EVENTS.contains(event) || TURBULENT_EVENTS.contains(event), "not listed: {event}");
    }
    assert_eq!(met.lines().count(), BOUNDS.len());
}

#[test]
fn hunt_finds_nothing_and_is_not_vacuous() {
    hunted(Modes::Plain, &[]);
}

#[test]
fn hunt_finds_nothing_in_the_turbulent_mode() {
    hunted(Modes::Turbulent, TURBULENT_EVENTS);
}

#[test]
fn hunt_finds_nothing_in_modes_that_change() {
    hunted(Modes::Either, TURBULENT_EVENTS);
}
