//! Directories of offset and length, one pair for each section: that of an image, and of a gate table.

/// The sections, if they stand one after the other from behind their directory to the end of the bytes.
pub fn sections<const N: usize>(bytes: &[u8]) -> Option<[&[u8]; N]> {
    let mut expected = 4 * N;
    let (directory, mut rest) = bytes.split_at_checked(expected)?;
    let mut sections = [rest; N];
    for (section, pair) in sections.iter_mut().zip(directory.chunks_exact(4)) {
        let offset = usize::from(u16::from_le_bytes([pair[0], pair[1]]));
        let length = usize::from(u16::from_le_bytes([pair[2], pair[3]]));
        if offset != expected {
            return None;
        }
        (*section, rest) = rest.split_at_checked(length)?;
        expected += length;
    }
    rest.is_empty().then_some(sections)
}

/// A section as records, if it is a whole number of them and as many as it may have.
pub fn records<const N: usize>(section: &[u8], fewest: usize, most: usize) -> Option<&[[u8; N]]> {
    let (records, rest) = section.as_chunks::<N>();
    let fitting = rest.is_empty() && (fewest..=most).contains(&records.len());
    fitting.then_some(records)
}
