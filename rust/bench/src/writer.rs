//! The raw writer, and one written by hand in plain Rust by the same rule. The source has none.

use crate::asked::Asked;
use crate::report::Table;
use crate::timing::best;
use oracle::speed::kept;
use std::str;
use stewsatchel::lent::c;

const SIZES: [usize; 4] = [1 << 6, 1 << 10, 1 << 16, 1 << 20];

const BODIES: [(&str, &str); 5] = [
    ("no quotes", "rock awash, seen from the boat. "),
    ("a quote in 16", "rock awash, \"mud\""),
    ("quotes only", "\""),
    ("quotes and hashes", "a\"#b\"##c"),
    ("Cyrillic", "камни у мыса, глубина по карте. "),
];

/// Memory that a writer is lent, made once.
struct Lent {
    out: Vec<u8>,
    answer: [u8; 4],
}

pub fn table(asked: &Asked) -> Result<Table, String> {
    let longest = 2 * SIZES[SIZES.len() - 1];
    let mut lent = Lent {
        out: vec![0; longest],
        answer: [0; 4],
    };
    let mut other = vec![0; longest];
    let title = "The raw writer and a plain one, ns a call";
    let mut table = Table::of_pairs(title, "body", "plain", &SIZES);
    for (name, part) in BODIES {
        if !asked.has("writer", name) {
            continue;
        }
        let mut pairs = Vec::new();
        for size in SIZES {
            let body = part.repeat(size / part.len()).into_bytes();
            check(&body, &mut lent, &mut other)
                .map_err(|why| format!("writer, {}: {}", name, why))?;
            pairs.push(timed(asked, &body, &mut lent, &mut other));
        }
        table.pairs(name, &pairs);
    }
    Ok(table)
}

fn check(body: &[u8], lent: &mut Lent, other: &mut [u8]) -> Result<(), String> {
    let number = c::raw_write(body, &mut lent.out, &mut lent.answer);
    let length = u32::from_le_bytes(lent.answer) as usize;
    match write(body, other) {
        Ok(written) if number == 0 && lent.out[..length] == other[..written] => Ok(()),
        _ => Err(format!("{} bytes are written otherwise", body.len())),
    }
}

fn timed(asked: &Asked, body: &[u8], lent: &mut Lent, other: &mut [u8]) -> [f64; 2] {
    best(asked.effort(body.len()), &mut |side, times| {
        for _ in 0..times {
            match side {
                0 => drop(c::raw_write(body, &mut lent.out, &mut lent.answer)),
                _ => {
                    kept(body);
                    kept(&write(body, other));
                    kept(other);
                }
            }
        }
    })
}

/// The literal's length, or the refusal's number.
fn write(body: &[u8], out: &mut [u8]) -> Result<usize, u32> {
    if body.len() > 16_777_216 {
        return Err(2);
    }
    str::from_utf8(body).map_err(|_| 1u32)?;
    let hashes = if body.contains(&b'"') {
        hashes(body)
    } else {
        1
    };
    let length = body.len() + 2 * hashes + 2;
    let out = out.get_mut(..length).ok_or(9u32)?;
    let (front, rest) = out.split_at_mut(hashes + 1);
    let (middle, back) = rest.split_at_mut(body.len());
    front.fill(b'#');
    front[hashes] = b'"';
    middle.copy_from_slice(body);
    back.fill(b'#');
    back[0] = b'"';
    Ok(length)
}

/// One more than the most hashes that stand behind a quote.
fn hashes(body: &[u8]) -> usize {
    let mut most = 0;
    let mut rest = body;
    while let Some(quote) = rest.iter().position(|&byte| byte == b'"') {
        rest = &rest[quote + 1..];
        let behind = rest.iter().take_while(|&&byte| byte == b'#').count();
        most = most.max(behind);
        rest = &rest[behind..];
    }
    most + 1
}
