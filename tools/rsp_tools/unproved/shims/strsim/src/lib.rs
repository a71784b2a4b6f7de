//! The one call of `strsim`, whose allocation may fail.
use kit_std::alloc::{AllocError, Global};
use kit_std::vec::Vec;

/// How many characters are to be written, dropped or changed, or swapped with the next one, to make one text of the other; none is changed twice.
pub fn osa_distance(alloc: Global, a: &str, b: &str) -> Result<usize, AllocError> {
    let width = b.chars().count() + 1;
    let mut rows = Vec::filled(alloc, 0, 3 * width)?;
    for j in 0..width {
        rows[j] = j;
    }
    let mut last = None;
    for (i, x) in a.chars().enumerate() {
        let (older, before, now) = ((i + 2) % 3 * width, i % 3 * width, (i + 1) % 3 * width);
        rows[now] = i + 1;
        let mut left = None;
        for (j, y) in b.chars().enumerate() {
            let mut least = (rows[before + j] + usize::from(x != y)).min(rows[before + j + 1] + 1).min(rows[now + j] + 1);
            if i > 0 && j > 0 && last == Some(y) && left == Some(x) {
                least = least.min(rows[older + j - 1] + 1);
            }
            rows[now + j + 1] = least;
            left = Some(y);
        }
        last = Some(x);
    }
    Ok(rows[a.chars().count() % 3 * width + width - 1])
}
