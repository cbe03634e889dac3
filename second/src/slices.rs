//! Taking slices apart: what newer compilers have in their library, for those that do not.

/// The octets before a place and those from it on, if there is such a place.
pub fn parted(octets: &[u8], place: usize) -> Option<(&[u8], &[u8])> {
    (place <= octets.len()).then(|| octets.split_at(place))
}

/// The first octets, as many as are asked for, and the others.
pub fn leading<const COUNT: usize>(octets: &[u8]) -> Option<(&[u8; COUNT], &[u8])> {
    let (front, others) = parted(octets, COUNT)?;
    Some((front.try_into().ok()?, others))
}

/// The last octets, as many as are asked for, behind the others.
pub fn trailing<const COUNT: usize>(octets: &[u8]) -> Option<(&[u8], &[u8; COUNT])> {
    let place = octets.len().checked_sub(COUNT)?;
    let (others, end) = parted(octets, place)?;
    Some((others, end.try_into().ok()?))
}

#[cfg(test)]
mod tests {
    use super::*;

    #[test]
    fn up_to_the_end_and_no_further() {
        assert_eq!(parted(b"abc", 1), Some((&b"a"[..], &b"bc"[..])));
        assert_eq!(parted(b"abc", 3), Some((&b"abc"[..], &b""[..])));
        assert_eq!(parted(b"abc", 4), None);
        assert_eq!(leading(b"abc"), Some((b"ab", &b"c"[..])));
        assert_eq!(leading(b"abc"), Some((b"abc", &b""[..])));
        assert_eq!(leading::<4>(b"abc"), None);
        assert_eq!(trailing(b"abc"), Some((&b"a"[..], b"bc")));
        assert_eq!(trailing(b"abc"), Some((&b""[..], b"abc")));
        assert_eq!(trailing::<4>(b"abc"), None);
    }
}
