//! The form of field 55, hand-written: elements of tag, length and value up to the end, no tag twice.

/// Two-byte tags begin with one of eight bytes; a bit stands for each tag that was seen.
const WORDS: usize = (256 + 8 * 256) / 64;

/// Whether bytes are elements in form.
pub fn in_form(bytes: &[u8]) -> bool {
    let mut seen = [0u64; WORDS];
    let mut rest = bytes;
    while let Some((tag, after)) = split_tag(rest) {
        let Some(next) = after_value(after) else { return false };
        let bit = 1 << (tag % 64);
        if seen[tag / 64] & bit != 0 {
            return false;
        }
        seen[tag / 64] |= bit;
        rest = next;
    }
    rest.is_empty()
}

/// A number for the tag in front, and the bytes after it; none where there is no whole tag.
#[inline]
fn split_tag(bytes: &[u8]) -> Option<(usize, &[u8])> {
    let (&first, rest) = bytes.split_first()?;
    if first & 31 != 31 {
        return Some((usize::from(first), rest));
    }
    let (&second, rest) = rest.split_first()?;
    Some((256 + usize::from(first >> 5) * 256 + usize::from(second), rest))
}

/// The bytes after the length in front and its value; none where the length is not allowed or the value is cut off.
#[inline]
fn after_value(bytes: &[u8]) -> Option<&[u8]> {
    let (&first, rest) = bytes.split_first()?;
    match first {
        0..=0x7F => rest.get(usize::from(first)..),
        0x81 => {
            let (&second, rest) = rest.split_first()?;
            rest.get(usize::from(second)..).filter(|_| second >= 0x80)
        }
        _ => None,
    }
}

#[cfg(test)]
mod tests {
    use super::*;

    fn element(tag: &[u8], length: &[u8], value: usize) -> Vec<u8> {
        [tag, length, &vec![0x82; value]].concat()
    }

    #[test]
    fn in_form_or_not() {
        for good in [
            vec![],
            element(&[0x82], &[0], 0),
            element(&[0x8F], &[1], 1),
            element(&[0x9F, 0xFF], &[0x7F], 127),
            element(&[0x9F, 0x10], &[0x81, 0x80], 128),
            element(&[0x82], &[0x81, 0xFF], 255),
            [element(&[0x9F, 0x02], &[0], 0), element(&[0x02], &[0], 0), element(&[0x5F, 0x02], &[1], 1)].concat(),
        ] {
            assert!(in_form(&good), "{good:02X?}");
        }
        for bad in [
            vec![0x82],
            vec![0x9F],
            vec![0x9F, 0x26],
            element(&[0x82], &[2], 1),
            element(&[0x82], &[0x80], 128),
            element(&[0x82], &[0x81], 0),
            element(&[0x82], &[0x81, 0x7F], 127),
            element(&[0x82], &[0x81, 0x80], 127),
            element(&[0x82], &[0x82, 0, 1], 1),
            element(&[0x82], &[0], 0).repeat(2),
            element(&[0x9F, 0x26], &[1], 1).repeat(2),
            [element(&[0x82], &[0], 0), vec![0x9F]].concat(),
        ] {
            assert!(!in_form(&bad), "{bad:02X?}");
        }
    }
}
