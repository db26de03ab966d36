//! Paths for each refusal of a path, which deciding and matching test alike.

use crate::texts::{slash_and, MOST_PATH};

/// Inputs with their number; `None` if nothing is wrong with them.
pub type Inputs = Vec<(Vec<u8>, Option<usize>)>;

/// Paths for each number of a path, alone and together with the later ones.
pub fn paths() -> Inputs {
    let mut inside = slash_and(b'a', MOST_PATH + 1);
    inside[MOST_PATH] = b'#';
    vec![
        (b"/".to_vec(), None),
        (b"/robots.txt".to_vec(), None),
        (slash_and(b'a', MOST_PATH), None),
        (slash_and(b'%', MOST_PATH), None),
        // "path empty or over 2,048 octets"
        (b"".to_vec(), Some(3)),
        (slash_and(b'a', MOST_PATH + 1), Some(3)),
        (vec![b'a'; MOST_PATH + 1], Some(3)),
        (inside, Some(3)),
        (vec![b'#'; MOST_PATH + 1], Some(3)),
        // "path doesn't begin with "/""
        (b"a".to_vec(), Some(4)),
        (b"*".to_vec(), Some(4)),
        (b"%2F".to_vec(), Some(4)),
        (vec![b'a'; MOST_PATH], Some(4)),
        (b"#".to_vec(), Some(4)),
        (b" /".to_vec(), Some(4)),
        (b"a b".to_vec(), Some(4)),
        (vec![b'#'; MOST_PATH], Some(4)),
        // "path holds an octet of 0x20 or less, or "#""
        (b"/ ".to_vec(), Some(5)),
        (b"/a#b".to_vec(), Some(5)),
        (b"/\0".to_vec(), Some(5)),
        (slash_and(b'#', MOST_PATH), Some(5)),
        (slash_and(b'\n', MOST_PATH), Some(5)),
    ]
}
