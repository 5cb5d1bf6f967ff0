//! Amounts as people read them.

/// A number with commas between its thousands: `1,000,000`.
pub fn thousands(number: impl TryInto<u64>) -> String {
    let digits = number.try_into().unwrap_or(u64::MAX).to_string();
    let mut text = String::new();
    for (place, digit) in digits.char_indices() {
        if place > 0 && (digits.len() - place) % 3 == 0 {
            text.push(',');
        }
        text.push(digit);
    }
    text
}

/// So many of a thing, which has its plural by an `s`: `1 state`, `2,048 transitions`.
pub fn of(count: impl TryInto<u64>, thing: &str) -> String {
    let number = thousands(count);
    let ending = if number == "1" { "" } else { "s" };
    format!("{number} {thing}{ending}")
}

/// The first things of a list, and how many more there are.
pub fn listed(things: impl IntoIterator<Item = String>, most: usize) -> String {
    let things: Vec<String> = things.into_iter().collect();
    match things.len().saturating_sub(most) {
        // The last one itself takes no more room than saying that there is one more.
        0 | 1 => things.join(", "),
        more => format!("{} and {more} more", things[..most].join(", ")),
    }
}

#[cfg(test)]
mod tests {
    use super::*;

    #[test]
    fn commas_stand_between_thousands() {
        let cases = [(0, "0"), (7, "7"), (999, "999"), (1_000, "1,000"), (12_345, "12,345"), (1_000_000, "1,000,000")];
        for (number, text) in cases {
            assert_eq!(thousands(number as u64), text);
        }
        assert_eq!(thousands(u64::MAX), "18,446,744,073,709,551,615");
    }

    #[test]
    fn long_lists_are_cut() {
        let list = |count: usize| listed((0..count).map(|number| number.to_string()), 2);
        assert_eq!([0, 1, 2, 3, 4].map(list), ["", "0", "0, 1", "0, 1, 2", "0, 1 and 2 more"]);
    }

    #[test]
    fn one_thing_has_no_plural() {
        assert_eq!(of(0_usize, "state"), "0 states");
        assert_eq!(of(1_u64, "state"), "1 state");
        assert_eq!(of(2_048_usize, "transition"), "2,048 transitions");
    }
}
