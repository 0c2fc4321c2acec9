// A smaller image that still differs, to be read by a person.
use crate::images;

// The images with less in them: without a run of instructions, the longest runs first; with one name cut to half; without one byte.
fn smaller(image: &[u8]) -> Vec<Vec<u8>> {
    let starts = images::instructions(image);
    let without = |from: usize, to: usize| [&image[..from], &image[to.min(image.len())..]].concat();
    let mut less = Vec::new();
    let mut run = starts.len() / 2;
    while run > 0 {
        less.extend((0..starts.len().saturating_sub(run)).map(|i| without(starts[i], starts[i + run])));
        run /= 2;
    }
    less.extend(starts.windows(2).filter_map(|w| half_named(image, w[0], w[1])));
    less.extend((0..image.len().min(200)).map(|i| without(i, i + 1)));
    less
}

// The image with half of the name of the instruction from..to, if it has one of two bytes or more that ends there.
fn half_named(image: &[u8], from: usize, to: usize) -> Option<Vec<u8>> {
    let named = images::is_named(image[from]);
    let len = to.checked_sub(from + 9).filter(|&n| named && n > 1 && to <= image.len())? / 2;
    let mut half = image[..from + 9 + len].to_vec();
    half[from + 1..from + 9].copy_from_slice(&(len as u64).to_le_bytes());
    half.extend_from_slice(&image[to..]);
    Some(half)
}

pub fn shrunk(image: &[u8], differs: impl Fn(&[u8]) -> bool) -> Vec<u8> {
    let mut best = image.to_vec();
    while let Some(less) = smaller(&best).into_iter().find(|b| differs(b)) {
        best = less;
    }
    best
}
