//! Every small text.

/// All strings over the letters with at most `most` octets.
pub fn strings(letters: &[u8], most: usize) -> Vec<Vec<u8>> {
    let mut all = vec![Vec::new()];
    let mut start = 0;
    for _ in 0..most {
        let end = all.len();
        for at in start..end {
            for letter in letters {
                all.push([all[at].as_slice(), &[*letter]].concat());
            }
        }
        start = end;
    }
    all
}

/// "/" and each of the strings.
pub fn after_slash(letters: &[u8], most: usize) -> Vec<Vec<u8>> {
    after(b"/", letters, most)
}

/// "/" and each of the strings, then "*" and each of them.
pub fn after_slash_or_star(letters: &[u8], most: usize) -> Vec<Vec<u8>> {
    [after(b"/", letters, most), after(b"*", letters, most)].concat()
}

fn after(first: &[u8], letters: &[u8], most: usize) -> Vec<Vec<u8>> {
    let tails = strings(letters, most);
    let join = |tail: Vec<u8>| [first, tail.as_slice()].concat();
    tails.into_iter().map(join).collect()
}
