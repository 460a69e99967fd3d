//! SVG as text, element by element.

use std::fmt::Write;

pub type Point = (f64, f64);

#[derive(Default)]
pub struct Svg {
    body: String,
}

/// One decimal at most.
pub fn number(value: f64) -> String {
    let tenths = (value * 10.0).round() as i64;
    let sign = if tenths < 0 { "-" } else { "" };
    let (whole, tenth) = (tenths.abs() / 10, tenths.abs() % 10);
    match tenth {
        0 => format!("{sign}{whole}"),
        _ => format!("{sign}{whole}.{tenth}"),
    }
}

pub fn escape(text: &str) -> String {
    text.replace('&', "&amp;").replace('<', "&lt;").replace('>', "&gt;").replace('"', "&quot;")
}

/// About how wide text is in a usual sans-serif, rather too wide than too narrow.
pub fn text_width(text: &str, size: f64) -> f64 {
    let em = |letter: char| match letter {
        'i' | 'j' | 'l' | 't' | 'f' | 'I' | ' ' | '.' | ',' | ':' | ';' | '(' | ')' | '\'' => 0.33,
        'm' | 'w' | 'M' | 'W' => 0.88,
        'A'..='Z' => 0.70,
        _ => 0.57,
    };
    size * text.chars().map(em).sum::<f64>()
}

/// Breaks text into lines of at most this width.
pub fn wrap(text: &str, size: f64, width: f64) -> Vec<String> {
    let mut lines: Vec<String> = Vec::new();
    for word in text.split_whitespace() {
        match lines.last_mut() {
            Some(line) if text_width(&format!("{line} {word}"), size) <= width => {
                line.push(' ');
                line.push_str(word);
            }
            _ => lines.push(word.to_string()),
        }
    }
    lines
}

impl Svg {
    pub fn into_body(self) -> String {
        self.body
    }

    /// Any element without content; `attributes` as they stand in SVG.
    fn element(&mut self, name: &str, attributes: &str) {
        let _ = writeln!(self.body, "<{name} {attributes}/>");
    }

    pub fn line(&mut self, from: Point, to: Point, style: &str) {
        let [x1, y1, x2, y2] = [from.0, from.1, to.0, to.1].map(number);
        self.element("line", &format!(r#"x1="{x1}" y1="{y1}" x2="{x2}" y2="{y2}" {style}"#));
    }

    pub fn rect(&mut self, at: Point, size: Point, style: &str) {
        let [x, y, width, height] = [at.0, at.1, size.0, size.1].map(number);
        self.element("rect", &format!(r#"x="{x}" y="{y}" width="{width}" height="{height}" {style}"#));
    }

    pub fn circle(&mut self, at: Point, radius: f64, style: &str) {
        let [x, y, r] = [at.0, at.1, radius].map(number);
        self.element("circle", &format!(r#"cx="{x}" cy="{y}" r="{r}" {style}"#));
    }

    pub fn polygon(&mut self, points: &[Point], style: &str) {
        let points: Vec<String> = points.iter().map(|(x, y)| format!("{},{}", number(*x), number(*y))).collect();
        self.element("polygon", &format!(r#"points="{}" {style}"#, points.join(" ")));
    }

    /// `class` names classes of the picture's style; `style` may add attributes, without any it is dark.
    pub fn text(&mut self, at: Point, class: &str, style: &str, text: &str) {
        let [x, y] = [at.0, at.1].map(number);
        let style = if style.is_empty() { r##"fill="#222""## } else { style };
        let _ = writeln!(self.body, r#"<text x="{x}" y="{y}" class="{class}" {style}>{}</text>"#, escape(text));
    }

    /// What is drawn between `begin_group` and `end_group` shows this text when pointed at.
    pub fn begin_group(&mut self, title: &str) {
        let _ = writeln!(self.body, "<g><title>{}</title>", escape(title));
    }

    pub fn end_group(&mut self) {
        self.body.push_str("</g>\n");
    }
}

#[cfg(test)]
mod tests {
    use super::*;

    #[test]
    fn numbers() {
        let written = [0.0, 3.0, 2.25, -0.04, -1.5, 1199.96].map(number);
        assert_eq!(written, ["0", "3", "2.3", "0", "-1.5", "1200"]);
    }

    #[test]
    fn lines_keep_to_their_width() {
        let text = "one two three four five six seven eight nine ten";
        let lines = wrap(text, 12.0, 90.0);
        assert!(lines.len() > 2 && lines.iter().all(|line| text_width(line, 12.0) <= 90.0), "{lines:?}");
        assert_eq!(lines.join(" "), text);
        assert_eq!(wrap("", 12.0, 90.0), Vec::<String>::new());
    }
}
