//! What the listing program prints of a store in byte form.

use crate::store::{check, lists, open};

/// The bytes of the largest store.
pub const MOST_BYTES: usize = 64_080;

/// The whole text.
pub fn listing(bytes: &[u8]) -> String {
    if bytes.len() > MOST_BYTES || bytes.len() % 2 == 1 {
        return "refused 4\n".into();
    }
    let words: Vec<u16> = bytes.chunks_exact(2).map(|b| u16::from_le_bytes([b[0], b[1]])).collect();
    match check(&words) {
        0 => sound(&words),
        number => format!("refused {number}\n"),
    }
}

fn sound(words: &[u16]) -> String {
    let shape = open(words).expect("a store");
    let mut text = String::new();
    for (list, sequence) in lists(words, shape).expect("a sound store").iter().enumerate() {
        text += &format!("list {list} count {}\n", sequence.len());
        for (position, cell) in sequence.iter().enumerate() {
            let start = shape.cell(*cell) + 3;
            let record: String = words[start..start + shape.width].iter().map(|word| format!(" {word}")).collect();
            text += &format!("{position} {cell}{record}\n");
        }
    }
    text + "sound\n"
}

#[cfg(test)]
mod tests {
    use super::*;
    use crate::store::{format, insert, mark_worn, read};

    fn bytes(words: &[u16]) -> Vec<u8> {
        words.iter().flat_map(|w| w.to_le_bytes()).collect()
    }

    /// The listing of C1, of C3, and of C3 with remains in its third node, free and worn; of what is no store. Each record is what read
    /// gives.
    #[test]
    fn marked_store() {
        let mut words = vec![7; 24];
        format(&mut words, 1, 3, 1);
        assert_eq!(listing(&bytes(&words)), "list 0 count 0\nsound\n");
        insert(&mut words, 0, 0, 2, &[700], 65_535);
        insert(&mut words, 0, 1, 2, &[512], 65_535);
        assert_eq!(listing(&bytes(&words)), "list 0 count 2\n0 2 700\n1 3 512\nsound\n");
        assert_eq!((read(&words, 0, 0), read(&words, 0, 1)), (Ok(&[700][..]), Ok(&[512][..])));
        words[15] = 9;
        assert_eq!(listing(&bytes(&words)), "refused 6\n");
        words[15] = 0;
        mark_worn(&mut words, 1);
        words[15] = 9;
        assert_eq!(listing(&bytes(&words)), "list 0 count 2\n0 2 700\n1 3 512\nsound\n");
        assert_eq!(listing(&[]), "refused 1\n");
        assert_eq!(listing(&[0]), "refused 4\n");
        assert_eq!(listing(&vec![0; MOST_BYTES + 1]), "refused 4\n");
        words[3] = 2;
        assert_eq!(listing(&bytes(&words)), "refused 2\n");
    }
}
