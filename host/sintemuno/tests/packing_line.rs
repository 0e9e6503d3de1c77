//! The example tells the story that is stored beside it.

#[path = "../examples/packing_line.rs"]
mod packing_line;

#[test]
fn the_story_is_as_stored() {
    let mut told = Vec::new();
    packing_line::tell(&mut told).unwrap();
    let stored = include_str!("../examples/packing_line.out");
    assert_eq!(String::from_utf8(told).unwrap(), stored);
}
