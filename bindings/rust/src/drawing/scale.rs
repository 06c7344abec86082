// Where the marks of a scale stand, and what is written at them.

use crate::spelling::thousandths;

/// A mark: how far along, and its label.
pub type Mark = (f64, String);

/// 1, 2 and 5 times the powers of ten, from a thousandth on.
fn steps() -> impl Iterator<Item = f64> {
    (-3..=6).flat_map(|power| [1.0, 2.0, 5.0].map(|digit| digit * 10f64.powi(power)))
}

/// Marks from 0 to an end, at most so many steps, labelled with the decimals that their step has.
pub fn marks(end: f64, most: usize) -> Vec<Mark> {
    let fits = |step: &f64| end / step <= most as f64;
    let step = steps().find(fits).unwrap_or(end);
    let decimals = (-step.log10() - 0.001).ceil().max(0.0) as usize;
    // A little more than the end, so that rounding does not lose the last.
    let count = (end / step * (1.0 + 1e-9)) as usize;
    (0..=count).map(|k| (k as f64 * step, format!("{:.decimals$}", k as f64 * step))).collect()
}

/// Marks at round metres between two numbers of millimetres, at most so many steps: the number, and its label in metres.
pub fn between(low: i64, high: i64, most: usize) -> Vec<(i64, String)> {
    let (low, high) = (i128::from(low), i128::from(high));
    let steps = (0..=18).flat_map(|power| [1, 2, 5].map(|digit| digit * 10i128.pow(power)));
    let mut fitting = steps.filter(|step| (high - low) / step <= most.max(1) as i128);
    let step = fitting.next().unwrap_or(high - low + 1);
    // As many decimals as the step has.
    let decimals = [10, 100, 1000].iter().filter(|more| step < **more).count();
    let first = low.div_euclid(step) + i128::from(low.rem_euclid(step) != 0);
    let label = |number: i128| {
        let text = thousandths(number);
        text[..text.len() - if decimals == 0 { 4 } else { 3 - decimals }].to_string()
    };
    (first..)
        .map(|k| k * step)
        .take_while(|number| *number <= high)
        .map(|number| (number as i64, label(number)))
        .collect()
}

/// Numbers of cells to be written beside a row of so many, at most so many of them.
pub fn cells(count: usize, most: usize) -> impl Iterator<Item = usize> {
    let step = [1, 2, 5, 10, 20, 50].into_iter().find(|step| count.div_ceil(*step) <= most.max(1));
    (0..count).step_by(step.unwrap_or(100))
}

#[cfg(test)]
mod tests {
    use super::*;

    #[test]
    fn marks_are_round() {
        let labels =
            |end: f64, most: usize| marks(end, most).into_iter().map(|(_, label)| label).collect::<Vec<_>>();
        assert_eq!(labels(2.0, 4), ["0.0", "0.5", "1.0", "1.5", "2.0"]);
        assert_eq!(labels(0.15, 4), ["0.00", "0.05", "0.10", "0.15"]);
        assert_eq!(labels(0.003, 4), ["0.000", "0.001", "0.002", "0.003"]);
        assert_eq!(labels(128.0, 5), ["0", "50", "100"]);
        assert_eq!(cells(40, 12).collect::<Vec<_>>(), [0, 5, 10, 15, 20, 25, 30, 35]);
        assert_eq!(cells(3, 12).collect::<Vec<_>>(), [0, 1, 2]);
    }

    #[test]
    fn metres_are_round() {
        let metres = |low: i64, high: i64, most: usize| {
            between(low, high, most).into_iter().map(|(_, label)| label).collect::<Vec<_>>()
        };
        assert_eq!(metres(117_950, 118_240, 3), ["118.0", "118.1", "118.2"]);
        assert_eq!(metres(-30, 30, 6), ["-0.03", "-0.02", "-0.01", "0.00", "0.01", "0.02", "0.03"]);
        assert_eq!(metres(5_200_000_000, 5_200_004_500, 3), ["5,200,000", "5,200,002", "5,200,004"]);
        assert_eq!(metres(7, 7, 4), ["0.007"]);
        assert_eq!(metres(i64::MIN, i64::MAX, 4).len(), 3);
    }
}
