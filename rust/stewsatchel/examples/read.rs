use stewsatchel::{Book, Fault, Kind, Limits, Script};

fn main() -> Result<(), Fault> {
    let text = "let d = #\"a\"b\"#;\n";
    let tokens = Script::read(text, &Book::empty(), &Limits::NONE)?;
    for token in &tokens {
        println!("{} {}: {}", token.place, token.kind, token.text());
    }
    let raws = tokens.iter().filter(|token| token.kind == Kind::Raw);
    assert_eq!(raws.map(|raw| raw.text()).collect::<Vec<_>>(), ["a\"b"]);
    assert_eq!(tokens.end().to_string(), "2");
    Ok(())
}
