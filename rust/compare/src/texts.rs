//! Every short input over a small alphabet, and every input close to a given one.

/// Visits every list of up to `longest` things, shorter lists first.
pub fn each_list<T: Copy>(things: &[T], longest: usize, visit: &mut dyn FnMut(&[T])) {
    let mut list = Vec::with_capacity(longest);
    for length in 0..=longest {
        extend(&mut list, things, length, visit);
    }
}

fn extend<T: Copy>(list: &mut Vec<T>, things: &[T], more: usize, visit: &mut dyn FnMut(&[T])) {
    if more == 0 {
        return visit(list);
    }
    for &thing in things {
        list.push(thing);
        extend(list, things, more - 1, visit);
        list.pop();
    }
}

/// Visits every text of up to `longest` characters over the alphabet, shorter texts first.
pub fn each_text(alphabet: &[char], longest: usize, visit: &mut dyn FnMut(&str)) {
    let mut text = String::new();
    each_list(alphabet, longest, &mut |chars| {
        text.clear();
        text.extend(chars);
        visit(&text);
    });
}

/// Visits every copy with one byte changed, put in or dropped; the input itself among them.
pub fn each_edit(bytes: &[u8], visit: &mut dyn FnMut(&[u8])) {
    for at in 0..=bytes.len() {
        let (front, back) = bytes.split_at(at);
        for byte in 0..=255 {
            visit(&[front, &[byte], back].concat());
            if let Some((_, rest)) = back.split_first() {
                visit(&[front, &[byte], rest].concat());
            }
        }
        if let Some((_, rest)) = back.split_first() {
            visit(&[front, rest].concat());
        }
    }
}

#[cfg(test)]
mod tests {
    use super::*;

    #[test]
    fn every_text_once_and_shorter_ones_first() {
        let mut texts = Vec::new();
        each_text(&['a', 'é'], 2, &mut |text| texts.push(text.to_string()));
        assert_eq!(texts, ["", "a", "é", "aa", "aé", "éa", "éé"]);
    }

    #[test]
    fn only_the_empty_list_over_nothing() {
        let mut lists = 0;
        each_list::<u8>(&[], 3, &mut |_| lists += 1);
        assert_eq!(lists, 1);
    }

    #[test]
    fn edits_are_of_one_byte() {
        let mut edits = Vec::new();
        each_edit(b"ab", &mut |edit| edits.push(edit.to_vec()));
        assert_eq!(edits.len(), 2 * 256 + 3 * 256 + 2);
        for edit in [
            &b"ab"[..],
            b"xb",
            b"a\xff",
            b"xab",
            b"axb",
            b"abx",
            b"a",
            b"b",
        ] {
            assert!(edits.iter().any(|found| found == edit), "{:?}", edit);
        }
        assert!(edits.iter().all(|edit| (1..=3).contains(&edit.len())));
    }
}
