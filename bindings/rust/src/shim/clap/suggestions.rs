//! Names that are close to a word.

/// Returns how much two texts are alike, from 0 to 1, by the measure of Jaro.
fn likeness(a: &str, b: &str) -> f64 {
    let (a, b): (Vec<char>, Vec<char>) = (a.chars().collect(), b.chars().collect());
    if a == b {
        return 1.0;
    }
    let reach = (a.len().max(b.len()) / 2).saturating_sub(1);
    let mut is_taken = vec![false; b.len()];
    let mut of_a = Vec::new();
    for (at, c) in a.iter().enumerate() {
        let window = at.saturating_sub(reach)..(at + reach + 1).min(b.len());
        if let Some(place) = window.into_iter().find(|&it| !is_taken[it] && b[it] == *c) {
            is_taken[place] = true;
            of_a.push(*c);
        }
    }
    if of_a.is_empty() {
        return 0.0;
    }
    let of_b = (0..b.len()).filter(|&it| is_taken[it]).map(|it| b[it]);
    let moved = of_a.iter().zip(of_b).filter(|(c, d)| *c != d).count() / 2;
    let count = of_a.len() as f64;
    let parts = [
        count / a.len() as f64,
        count / b.len() as f64,
        (count - moved as f64) / count,
    ];
    parts.iter().sum::<f64>() / 3.0
}

/// Returns the name that is most like a word, the last one of several, if one is enough.
pub fn similar<'a>(word: &str, names: impl Iterator<Item = &'a str>) -> Option<&'a str> {
    let mut best: Option<(f64, &str)> = None;
    for name in names {
        let found = likeness(word, name);
        if found > 0.7 && best.map_or(true, |(known, _)| known <= found) {
            best = Some((found, name));
        }
    }
    best.map(|(_, name)| name)
}

#[cfg(test)]
mod tests {
    use super::*;

    /// Values of the measure as its literature has them.
    #[test]
    fn known_values() {
        for (a, b, wanted) in [
            ("MARTHA", "MARHTA", 0.944),
            ("DIXON", "DICKSONX", 0.767),
            ("DWAYNE", "DUANE", 0.822),
            ("", "a", 0.0),
            ("", "", 1.0),
            ("ab", "cd", 0.0),
        ] {
            assert!((likeness(a, b) - wanted).abs() < 0.001, "{a} {b}");
        }
    }
}
