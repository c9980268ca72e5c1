//! Text for SVG and HTML.

/// Text in which no character is markup, and no control character.
pub fn escaped(text: &str) -> String {
    let mut safe = String::new();
    for character in crate::output::shown(text).chars() {
        match character {
            '&' => safe += "&amp;",
            '<' => safe += "&lt;",
            '>' => safe += "&gt;",
            '"' => safe += "&quot;",
            other => safe.push(other),
        }
    }
    safe
}

#[cfg(test)]
mod tests {
    use super::*;

    #[test]
    fn markup_and_control_characters_are_text() {
        assert_eq!(escaped("a<b>&\"\x1b"), "a&lt;b&gt;&amp;&quot;\\x1b");
    }
}
