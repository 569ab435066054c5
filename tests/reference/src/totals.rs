//! "Starts per stretch", item 9 of document 02: "a total for each block of 256
//! symbols beside the capture". A call gives the number of its refusal as the
//! error.

use std::ops::Range;

use crate::line::is_start;
use crate::refusal;

/// Symbols of a block; the last one of a capture may be shorter.
pub(crate) const BLOCK: usize = 256;

/// How many Starts a block has. Any value can stand here; refusal 22 tells the
/// wrong ones.
///
/// Open point: no width is named; 16 bits hold the 256 and what is above it.
pub type Total = u16;

/// How many blocks so many symbols have, "a last short one included".
pub(crate) fn blocks(symbols: usize) -> usize {
    symbols.div_ceil(BLOCK)
}

/// How many of these symbols are Starts.
fn count(octets: &[u8], marks: &[u8]) -> usize {
    let symbols = octets.iter().zip(marks);
    symbols
        .filter(|&(&octet, &mark)| is_start(octet, mark))
        .count()
}

/// Counts anew the blocks of the places that were written.
pub(crate) fn count_anew(octets: &[u8], marks: &[u8], totals: &mut [Total], written: Range<usize>) {
    if written.is_empty() {
        return;
    }
    let symbols = octets.chunks(BLOCK).zip(marks.chunks(BLOCK));
    let both = symbols.zip(totals).take(blocks(written.end));
    for ((octets, marks), total) in both.skip(written.start / BLOCK) {
        // At most 256.
        *total = count(octets, marks) as Total;
    }
}

/// How many Starts lie before a place: "The answer adds whole blocks and looks
/// only into the last". It is right if the totals are. Gives 2, 3, 21 and 22.
pub fn starts_before(
    octets: &[u8],
    marks: &[u8],
    totals: &[Total],
    place: usize,
) -> Result<usize, u8> {
    refusal::line(octets, marks, place)?;
    refusal::blocks(octets, totals)?;
    refusal::totals(totals)?;
    let whole = place / BLOCK;
    let last = whole * BLOCK..place;
    let sum: usize = totals[..whole].iter().copied().map(usize::from).sum();
    Ok(sum + count(&octets[last.clone()], &marks[last]))
}

/// "one call fills them all for a capture". Gives 2 and 21.
pub fn fill_totals(octets: &[u8], marks: &[u8], totals: &mut [Total]) -> Result<(), u8> {
    refusal::buffers(octets, marks)?;
    refusal::blocks(octets, totals)?;
    count_anew(octets, marks, totals, 0..octets.len());
    Ok(())
}
