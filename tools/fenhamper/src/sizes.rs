//! `count --sizes`: frames and octets by length, with bars.
use crate::columns::Columns;
use fenhamper::Sizes;

/// The longest bar.
const LONGEST: u64 = 40;

/// The size table, a line for each band. A mark of its bar stands for as few frames as keep the
/// longest one within forty, and one more for what is left, as in the program `size_table`.
#[must_use]
pub fn lines(sizes: &Sizes) -> String {
    let most = sizes.frames.into_iter().max().unwrap_or_default();
    let unit = most / LONGEST + 1;
    let mut columns = Columns::default();
    columns.row(
        ["octets a frame", "frames", "octets", ""]
            .map(str::to_owned)
            .into(),
    );
    for band in sizes.bands() {
        let (frames, octets) = (band.frames.to_string(), band.octets.to_string());
        columns.row(vec![
            band.to_string(),
            frames,
            octets,
            bar(band.frames, unit),
        ]);
    }
    let frames = if unit == 1 { "frame" } else { "frames" };
    columns.lines() + &format!("a mark is {unit} {frames}\n")
}

// Filled up to the longest one, so that bars begin in one column.
fn bar(frames: u64, unit: u64) -> String {
    let marks = frames.div_ceil(unit).min(LONGEST) as usize;
    format!("{:1$}", "#".repeat(marks), LONGEST as usize)
}

#[cfg(test)]
mod tests {
    use super::*;

    #[test]
    fn bars_are_as_long_as_their_shares() {
        let marks = |frames: [u64; 7]| {
            let sizes = Sizes {
                frames,
                octets: [u64::MAX; 7],
            };
            let lines = lines(&sizes);
            assert!(lines
                .lines()
                .all(|line| line.len() <= crate::columns::WIDTH));
            let marks = lines.lines().map(|line| line.matches('#').count());
            (
                marks.skip(1).take(7).collect::<Vec<_>>(),
                lines.lines().last().unwrap().to_owned(),
            )
        };
        let (few, unit) = marks([0, 1, 2, 38, 39, 0, 3]);
        assert_eq!(
            (&few[..], &unit[..]),
            (&[0, 1, 2, 38, 39, 0, 3][..], "a mark is 1 frame")
        );
        let (more, unit) = marks([0, 1, 2, 3, 40, 0, 39]);
        assert_eq!(
            (&more[..], &unit[..]),
            (&[0, 1, 1, 2, 20, 0, 20][..], "a mark is 2 frames")
        );
        let (most, _) = marks([u64::MAX, 1, u64::MAX / 2, 0, 0, 0, 0]);
        assert_eq!(most, [40, 1, 20, 0, 0, 0, 0]);
    }
}
