use stewsatchel::{raw_write, Book, Fault, Limits, Refusal, Script};

fn main() -> Result<(), Fault> {
    let remark = "depth \"#4\" per the pilot";
    let literal = raw_write(remark).expect("a remark is short");
    assert_eq!(literal, "##\"depth \"#4\" per the pilot\"##");

    let tokens = Script::read(&literal, &Book::empty(), &Limits::NONE)?;
    assert_eq!(tokens.iter().next().map(|token| token.text()), Some(remark));

    assert_eq!(raw_write(b"\xff"), Err(Refusal::NotUtf8));
    Ok(())
}
