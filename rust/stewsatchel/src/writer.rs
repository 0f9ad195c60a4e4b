//! The raw literal of a body.

use crate::lent;
use crate::refusal::Refusal;
use crate::room::LONGEST;

/// Writes the raw literal of a body: a script that has it reads the body back, byte for byte.
///
/// It has the least number of hashes that does not close it early, and one at least. A body of more
/// than [`LONGEST`] bytes is [`Refusal::TooLong`], and one that is not UTF-8 is
/// [`Refusal::NotUtf8`]. The literal of a long body may be longer than a script is.
///
/// # Panics
///
/// Where the archive answers a number that this crate does not know.
pub fn raw_write(body: impl AsRef<[u8]>) -> Result<String, Refusal> {
    let body = body.as_ref();
    // A body that is too long is refused unread. The longest literal is of a quote and hashes: its
    // own bytes, two quotes, and as many hashes as it has bytes on both sides.
    let length = if body.len() > LONGEST { 0 } else { body.len() };
    let most = 3 * length + 4;
    let mut room = (length + 32).min(most);
    loop {
        let mut out = vec![0; room];
        let refused = match lent::raw_write(body, &mut out).map(<[u8]>::len) {
            Ok(length) => {
                out.truncate(length);
                return String::from_utf8(out).map_err(|_| Refusal::NotUtf8);
            }
            Err(number) => Refusal::from_number(number).expect("a writer's number is known"),
        };
        if refused != Refusal::NoLiteralRoom || room == most {
            return Err(refused);
        }
        room = (2 * room).min(most);
    }
}
