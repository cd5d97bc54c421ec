//! Loops over the pixels of a run.

/// Turns each pixel of N bytes into a word, in a loop that the compiler makes one of vectors.
#[inline(always)]
pub fn each<const N: usize>(normal: &[u8], output: &mut [u32], colour: impl Fn([u8; N]) -> u32) {
    for (pixel, word) in normal.as_chunks().0.iter().zip(output) {
        *word = colour(*pixel);
    }
}

/// The same for pixels of 4 bytes, four at a time, which is quicker where colours are looked up.
#[inline(always)]
pub fn fours_of_32(normal: &[u8], output: &mut [u32], colour: impl Fn([u8; 4]) -> u32) {
    let (fours, rest) = normal.as_chunks::<4>().0.as_chunks::<4>();
    let (outputs, output) = output.as_chunks_mut::<4>();
    for (four, output) in fours.iter().zip(outputs) {
        *output = four.map(&colour);
    }
    each(rest.as_flattened(), output, colour);
}

/// The same for pixels of 2 bytes, of which four are loaded as one number.
#[inline(always)]
pub fn fours_of_16(normal: &[u8], output: &mut [u32], colour: impl Fn(u16) -> u32) {
    let (fours, rest) = normal.as_chunks::<8>();
    let (outputs, output) = output.as_chunks_mut::<4>();
    for (four, output) in fours.iter().zip(outputs) {
        let four = u64::from_be_bytes(*four);
        *output = [48, 32, 16, 0].map(|shift| colour((four >> shift) as u16));
    }
    each(rest, output, |pixel| colour(u16::from_be_bytes(pixel)));
}
