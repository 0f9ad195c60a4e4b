use stewsatchel::{Book, BookError, Kind, Limits, Script};

fn main() -> Result<(), BookError> {
    let office = Book::new(["buoy", "light"])?;
    let tokens = Script::read("light buoys", &office, &Limits::NONE).expect("it is whole");
    let kinds: Vec<Kind> = tokens.iter().map(|token| token.kind).collect();
    assert_eq!(kinds, [Kind::Reserved, Kind::Name]);

    let refused = Book::new(["buoy", "lighthouses"]).unwrap_err();
    let sentence = "word 2, \"lighthouses\", has more than 10 bytes";
    assert_eq!(refused.to_string(), sentence);
    Ok(())
}
