//! Means, medians and quartiles.

/// The first and the third quartile.
#[derive(Clone, Copy, Debug)]
pub struct Quartiles {
    pub first: f64,
    pub third: f64,
}

impl Quartiles {
    /// The quartiles of numbers, of which there is at least one.
    pub fn of(numbers: impl IntoIterator<Item = f64>) -> Quartiles {
        let sorted = sorted(numbers);
        Quartiles {
            first: part(&sorted, 0.25),
            third: part(&sorted, 0.75),
        }
    }
}

/// The mean of numbers, of which there is at least one.
pub fn mean(numbers: impl ExactSizeIterator<Item = f64>) -> f64 {
    let count = numbers.len() as f64;
    numbers.sum::<f64>() / count
}

/// The mean of the smaller half of numbers, of which there is at least one; an odd number of them has its middle one in
/// that half.
pub fn mean_of_smaller_half(numbers: impl IntoIterator<Item = f64>) -> f64 {
    let sorted = sorted(numbers);
    mean(sorted[..sorted.len().div_ceil(2)].iter().copied())
}

/// The median of numbers, of which there is at least one; of an even number of them, the mean of the two in the
/// middle.
pub fn median(numbers: impl IntoIterator<Item = f64>) -> f64 {
    part(&sorted(numbers), 0.5)
}

fn sorted(numbers: impl IntoIterator<Item = f64>) -> Vec<f64> {
    let mut sorted: Vec<f64> = numbers.into_iter().collect();
    sorted.sort_by(f64::total_cmp);
    sorted
}

/// The number that so large a part of the others lies below, between two of them if need be.
fn part(sorted: &[f64], below: f64) -> f64 {
    let place = (sorted.len() - 1) as f64 * below;
    let (before, after) = (sorted[place.floor() as usize], sorted[place.ceil() as usize]);
    before + (after - before) * place.fract()
}
