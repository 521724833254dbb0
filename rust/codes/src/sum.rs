//! The sum and the mark of a remembered row, by docs/LAYOUT.md, in plain Rust.

/// So many times a sum with one number more: 37 times for the sum, 3 times for the mark.
pub fn mixed(times: u32, sum: u32, number: u32) -> u32 {
    sum.wrapping_mul(times).wrapping_add(number)
}

/// The bucket of a sum, of so many.
pub fn bucket(buckets: u64, sum: u32) -> u64 {
    u64::from(sum.wrapping_mul(2_654_435_769)) * buckets >> 32
}

/// A symbol as a number, by its tag and its own number.
pub fn weight(tag: u32, number: u64) -> u32 {
    (number as u32).wrapping_add(tag.wrapping_mul(1_000_000))
}

#[cfg(test)]
mod tests {
    use super::{bucket, mixed, weight};

    const PAGE: &str = include_str!("../../../docs/LAYOUT.md");

    /// The numbers that stand in a text.
    fn numbers(text: &str) -> Vec<u64> {
        let parts = text.split(|c: char| !c.is_ascii_digit());
        let parts = parts.filter(|part| !part.is_empty());
        parts.map(|part| part.parse().expect("digits")).collect()
    }

    /// The rows of the page's example: what is added, as a number, and the two sums with it.
    fn example() -> Vec<[Vec<u64>; 3]> {
        let (_, after) = PAGE
            .split_once("| what | as a number |")
            .expect("the table");
        let rows = after
            .lines()
            .skip(2)
            .take_while(|line| line.starts_with('|'));
        let row = |line: &str| {
            let cells: Vec<&str> = line.split('|').collect();
            [numbers(cells[2]), numbers(cells[3]), numbers(cells[4])]
        };
        rows.map(row).collect()
    }

    /// One more step of a sum, as the page has it.
    fn step(times: u32, sum: u32, number: u32, written: &[u64]) -> u32 {
        let after = mixed(times, sum, number);
        let right = [times, sum, number, after].map(u64::from);
        assert_eq!(written, right);
        after
    }

    #[test]
    fn the_example_of_the_page_is_right() {
        let rows = example();
        assert_eq!(rows.len(), 5);
        let (mut sum, mut mark) = (0, 0);
        for [number, first, second] in rows {
            let number = match number[..] {
                [plain] => plain as u32,
                [own, 1_000_000, tag, is] => {
                    assert_eq!(u64::from(weight(tag as u32, own)), is);
                    is as u32
                }
                _ => panic!("{number:?}"),
            };
            sum = step(37, sum, number, &first);
            mark = step(3, mark, number, &second);
        }
        let says = format!("has the sum {sum} and the mark {}:", bucket(256, mark));
        assert!(PAGE.contains(&says), "{says}");
    }
}
