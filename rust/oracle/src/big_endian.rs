//! Reading the binary files and sheets, whose numbers are big-endian.

/// The next bytes, which `rest` then begins after; none where too few are left.
pub(crate) fn take<const N: usize>(rest: &mut &[u8]) -> Option<[u8; N]> {
    let (bytes, after) = rest.split_first_chunk()?;
    *rest = after;
    Some(*bytes)
}

/// The next so many bytes, of a length that is read first.
pub(crate) fn take_part<'a>(rest: &mut &'a [u8], length: usize) -> Option<&'a [u8]> {
    let (part, after) = rest.split_at_checked(length)?;
    *rest = after;
    Some(part)
}

pub(crate) fn take_u32(rest: &mut &[u8]) -> Option<u32> {
    take(rest).map(u32::from_be_bytes)
}

pub(crate) fn take_u64(rest: &mut &[u8]) -> Option<u64> {
    take(rest).map(u64::from_be_bytes)
}

/// What is read one after the other to the end; none where the last is cut off.
pub(crate) fn take_all<T>(
    mut rest: &[u8],
    next: impl Fn(&mut &[u8]) -> Option<T>,
) -> Option<Vec<T>> {
    let mut all = Vec::new();
    while !rest.is_empty() {
        all.push(next(&mut rest)?);
    }
    Some(all)
}
