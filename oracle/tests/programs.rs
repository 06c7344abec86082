// What is drawn, asked and told beside document 01: the sump, gridread's requests and lines, and where a record's water is.

use oracle::drawing::{drawn, section};
use oracle::scenes::case_t;
use oracle::text::{gridread, requests, steps_asked, water, Request};
use oracle::{check, Store};

const SUMP: &str = include_str!("../../examples/sump.txt");

#[test]
fn the_sump_is_good_and_drawn_as_it_stands() {
    let scene = drawn(SUMP).unwrap();
    let store = Store::of(&scene.state);
    assert_eq!(check(scene.sides, store.lend()), Ok(()));
    assert!(scene.state.cells.len() <= 4096);
    let (_, letters) = SUMP.split_once("section\n").unwrap();
    assert_eq!(section(&scene.grid(), &store.flags), letters);
}

#[test]
fn what_is_wrong_with_a_drawing_is_said() {
    let box_of = |rows: &str| format!("across 3\nsection\n{rows}");
    assert!(drawn(&box_of("###\n#~#\n###\n")).is_ok());
    for wrong in ["###\n#?#\n###\n", "###\n#~#\n", "###\n#\n###\n", ""] {
        assert!(drawn(&box_of(wrong)).is_err(), "{wrong}");
    }
    for wrong in ["across\n", "across three\n", "depth 3\n", "gravity 1 2\n"] {
        assert!(drawn(&format!("{wrong}section\n###\n#~#\n###\n")).is_err(), "{wrong}");
    }
}

#[test]
fn water_by_kind_of_cell() {
    let mut scene = case_t();
    scene.state.carry = -7;
    assert_eq!(water(&scene.record()), "0 294912 -7 294905 0 0 294905\n");
    assert_eq!(water(&scene.record()[..90]), "record 10 80\n");
}

#[test]
fn requests_are_digits_after_a_word() {
    let asked = |text: &str| requests(&text.split('|').collect::<Vec<&str>>());
    assert_eq!(asked("place|-1|0|007"), Some(vec![Request::Place([-1, 0, 7])]));
    assert_eq!(asked("place|-0|0|-9223372036854775808"), Some(vec![Request::Place([0, 0, i64::MIN])]));
    assert_eq!(asked("point|18446744073709551615"), Some(vec![Request::Point(u64::MAX)]));
    assert_eq!(asked("point|3|depth|1|2"), Some(vec![Request::Point(3), Request::Depth(1, 2)]));
    for wrong in [
        "",
        "point",
        "Point|3",
        "point|",
        "point|-3",
        "point|+3",
        "point| 3",
        "point|3|4",
        "depth|1",
        "place|1|2",
        "place|--1|2|3",
        "place|-|2|3",
        "place|+1|2|3",
        "place|9223372036854775808|0|0",
        "point|18446744073709551616",
    ] {
        assert_eq!(asked(wrong), None, "{wrong}");
    }
    assert_eq!(asked(&format!("point|{:064}", 3)), Some(vec![Request::Point(3)]));
    assert_eq!(asked(&format!("point|{:065}", 3)), None);
    assert_eq!(steps_asked("0060"), Some(60));
    assert_eq!(steps_asked("4294967296"), None);
    assert_eq!(steps_asked("-0"), None);
}

#[test]
fn readings_of_case_t() {
    let words =
        "place 75 75 75 place -1 0 0 place 10000000001 0 0 point 13 point 27 depth 1 1 depth 0 1 depth 3 0";
    let asked = requests(&words.split(' ').collect::<Vec<&str>>()).unwrap();
    let lines = "place cell 13\nplace 13 0\nplace 3 0\npoint 3/2 3/2 3/2 32768/65536\npoint 13 0\n\
                 depth 32768/65536\ndepth solid\ndepth 13 0\n";
    assert_eq!(gridread(&case_t().record(), &asked), lines);
    assert_eq!(asked.iter().flat_map(Request::words).collect::<Vec<String>>().join(" "), words);
}
