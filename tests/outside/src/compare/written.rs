//! A call that writes an image into a second area, by an engine and by the reference.

use super::areas::Area;
use super::difference::Difference;
use crate::answer::Answer;

/// Writes of an image into an output area.
pub type Writes = fn(&[u8], &mut [u8]) -> Answer;

/// Both into areas of the same bytes: answers and all bytes of the area, its guards and the image are compared. Gives
/// the answer, and the bytes lent afterwards.
pub fn compare_written(
    call: &str,
    [given, expected]: [Writes; 2],
    image: &[u8],
    length: usize,
    area: Area,
) -> Result<(Answer, Vec<u8>), Difference> {
    let lent = image.to_vec().into_boxed_slice();
    let mut given_area = area.clone();
    let mut expected_area = area;
    let given = given(&lent, given_area.lend(length));
    let expected = expected(image, expected_area.lend(length));
    let what = format!("{call} into an area of {length} bytes");
    if given != expected {
        return Err(Difference::new(image, &what, given, expected));
    }
    if given_area != expected_area || *lent != *image {
        let what = format!("{what}: other bytes in the area, a guard or the image");
        return Err(Difference::new(image, &what, given, expected));
    }
    Ok((given, given_area.lend(length).to_vec()))
}
