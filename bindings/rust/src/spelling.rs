//! Numbers as people read them.

use crate::ONE;

/// A whole number with commas between its thousands.
pub fn grouped(number: impl Into<i128>) -> String {
    let number = number.into();
    let digits = number.unsigned_abs().to_string();
    let groups: Vec<_> = digits.as_bytes().rchunks(3).rev().map(String::from_utf8_lossy).collect();
    format!("{}{}", if number < 0 { "-" } else { "" }, groups.join(","))
}

/// A count of cells or the like, as [`grouped`].
pub fn counted(count: usize) -> String {
    grouped(count as i128)
}

/// Thousandths as a number with three decimals.
pub fn thousandths(number: impl Into<i128>) -> String {
    let number = number.into();
    let sign = if number < 0 { "-" } else { "" };
    let whole = number.unsigned_abs() / 1000;
    format!("{sign}{}.{:03}", grouped(whole as i128), number.unsigned_abs() % 1000)
}

/// Water in units as litres, where a cell's edge is so many millimetres: to the nearest millilitre.
pub fn litres(units: i64, edge: i64) -> String {
    // In cubic millimetres a cell is edge³, and a millilitre is 1,000 of them.
    let (share, whole) = (i128::from(units) * i128::from(edge).pow(3), i128::from(ONE) * 1000);
    thousandths((2 * share + share.signum() * whole) / (2 * whole))
}

/// Water of a section in units as litres per metre of its width, where a cell's edge is so many millimetres: to the nearest millilitre.
pub fn litres_per_metre(units: i64, edge: i64) -> String {
    // In square millimetres a cell is edge², and each of them is a millilitre in a metre of width.
    let (share, whole) = (i128::from(units) * i128::from(edge).pow(2), i128::from(ONE));
    thousandths((2 * share + share.signum() * whole) / (2 * whole))
}

#[cfg(test)]
mod tests {
    use super::*;

    #[test]
    fn numbers_are_spelled() {
        for (number, text) in [(0, "0"), (999, "999"), (1000, "1,000"), (-1_234_567, "-1,234,567")] {
            assert_eq!(grouped(number), text);
        }
        assert_eq!(grouped(i64::MIN), "-9,223,372,036,854,775,808");
        for (number, text) in [(0, "0.000"), (-1, "-0.001"), (5_200_000_001i64, "5,200,000.001")] {
            assert_eq!(thousandths(number), text);
        }
        // A cell of 100 mm holds a litre, one of a metre a thousand.
        assert_eq!(litres(ONE.into(), 100), "1.000");
        assert_eq!(litres(i64::from(-ONE) / 2, 1000), "-500.000");
        assert_eq!(litres(1, 50), "0.000");
        assert_eq!(litres(295, 100), "0.001");
        assert_eq!(litres(294, 100), "0.000");
        // A cell of 100 mm holds ten litres in each metre of its width.
        assert_eq!(litres_per_metre(ONE.into(), 100), "10.000");
        assert_eq!(litres_per_metre(i64::from(-ONE) / 2, 1), "-0.001");
    }
}
