//! Numbers and words as a drawing has them.

/// A place on the page, to a hundredth.
pub(super) fn place(x: f64) -> String {
    let text = format!("{x:.2}");
    let text = text.trim_end_matches('0').trim_end_matches('.');
    if text == "-0" {
        return "0".into();
    }
    text.into()
}

/// A number to six digits; a −0 is 0.
pub(super) fn short(x: f64) -> String {
    let x = x + 0.0;
    let text = format!("{x:.5e}");
    let (digits, exponent) = text.split_once('e').expect("written so");
    match exponent.parse::<i32>() {
        Ok(exponent @ -3..=5) => {
            let decimals = usize::try_from(5 - exponent).expect("at most 8");
            trimmed(&format!("{x:.decimals$}")).into()
        }
        _ => format!("{}e{exponent}", trimmed(digits)),
    }
}

/// Without the zeros that end a fraction.
fn trimmed(digits: &str) -> &str {
    match digits.contains('.') {
        true => digits.trim_end_matches('0').trim_end_matches('.'),
        false => digits,
    }
}

/// Text as XML takes it; what XML has no character for becomes U+FFFD.
pub(super) fn escaped(words: &str) -> String {
    let mut text = String::new();
    for c in words.chars() {
        match c {
            '&' => text += "&amp;",
            '<' => text += "&lt;",
            '>' => text += "&gt;",
            '"' => text += "&quot;",
            '\u{fffe}' | '\u{ffff}' => text.push('\u{fffd}'),
            c if c.is_control() => text.push('\u{fffd}'),
            c => text.push(c),
        }
    }
    text
}

#[cfg(test)]
mod tests {
    use super::{escaped, place, short};

    #[test]
    fn numbers_have_six_digits() {
        let shown = [
            (0.0, "0"),
            (-0.0, "0"),
            (1.0, "1"),
            (0.15625, "0.15625"),
            (0.13258252147247765, "0.132583"),
            (-3.1415926535897927, "-3.14159"),
            (123456.7, "123457"),
            (999999.5, "1e6"),
            (1048576.0, "1.04858e6"),
            (0.0012345678, "0.00123457"),
            (0.00012345678, "1.23457e-4"),
        ];
        for (x, expected) in shown {
            assert_eq!(short(x), expected);
        }
    }

    #[test]
    fn places_have_hundredths() {
        let shown = [(0.0, "0"), (-0.001, "0"), (10.5, "10.5"), (1.006, "1.01")];
        for (x, expected) in shown {
            assert_eq!(place(x), expected);
        }
    }

    #[test]
    fn words_are_escaped() {
        assert_eq!(
            escaped("a<b> & \"c\"\u{1}"),
            "a&lt;b&gt; &amp; &quot;c&quot;\u{fffd}"
        );
    }
}
