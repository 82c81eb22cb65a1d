//! The listing program's text for a file, with its limit of 65,536 bytes.

use plain::listing;
use plain::nodefile::encode;

#[test]
fn a_note_up_to_the_limit() {
    let file = encode([4; 3], &[[1, 2, 3], [1, 2, 3]]);
    let mut longest = vec![b'n'; 65_536 - file.len()];
    longest.extend(&file);
    for input in [&file, &longest] {
        let text = listing(input);
        assert!(text.starts_with("box 4 4 4 points 9 cells 12\n6 8 1 3 7 - "));
        assert!(text.ends_with("\nstopped 1 5\n"));
    }
    longest.insert(0, b'n');
    for refused in [&longest[..], b""] {
        assert_eq!(listing(refused), "refused 9\n");
    }
}
