use stewsatchel::{Book, Limits, Refusal, Script};

fn main() {
    let cut = "light(3.28); #\"Cut in tran";
    let stopped = match Script::read(cut, &Book::empty(), &Limits::NONE) {
        Ok(_) => panic!("a script that is cut is never whole"),
        Err(stopped) => stopped,
    };
    assert_eq!(stopped.refusal(), Refusal::OpenAtEnd);
    assert_eq!(stopped.number(), 11);
    assert_eq!(stopped.place().to_string(), "1:26");
    assert_eq!(stopped.tokens_before().len(), 7);
    println!("{}", stopped);
}
