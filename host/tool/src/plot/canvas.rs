//! The elements of an SVG drawing.

/// A drawing that grows element by element.
pub struct Canvas {
    text: String,
}

/// The looks of all elements.
const STYLE: &str = "text{font-family:Helvetica,Arial,'DejaVu Sans',sans-serif;font-size:13px;fill:#333}\
.title{font-size:18px;font-weight:bold;fill:#111}.label{font-size:14px}.small{font-size:12px}\
.end{text-anchor:end}.middle{text-anchor:middle}\
.frame{fill:none;stroke:#555}.grid{stroke:#e4e4e4;fill:none}.index{stroke:#555;stroke-dasharray:6 4;fill:none}\
.dots{fill:none;stroke-linecap:round}.few{stroke:#6baed6}.some{stroke:#2171b5}.many{stroke:#08306b}\
.bars{fill:#2171b5}.clipped{fill:#d94801}.open{fill:#f3e3b3}";

impl Canvas {
    /// An empty white drawing.
    pub fn new(width: f64, height: f64, title: &str) -> Canvas {
        let text = format!(
            "<?xml version=\"1.0\" encoding=\"UTF-8\"?>\n<svg xmlns=\"http://www.w3.org/2000/svg\" width=\"{width}\" height=\"{height}\" \
             viewBox=\"0 0 {width} {height}\">\n<title>{}</title>\n<style>{STYLE}</style>\n<rect width=\"{width}\" height=\"{height}\" \
             fill=\"#fff\"/>\n",
            escaped(title)
        );
        Canvas { text }
    }

    /// Some text.
    pub fn text(&mut self, class: &str, (x, y): (f64, f64), text: &str) {
        self.text.push_str(&format!("<text class=\"{class}\" x=\"{x:.1}\" y=\"{y:.1}\">{}</text>\n", escaped(text)));
    }

    /// Some text that runs upwards.
    pub fn upward_text(&mut self, class: &str, (x, y): (f64, f64), text: &str) {
        let place = format!("transform=\"translate({x:.1} {y:.1}) rotate(-90)\"");
        self.text.push_str(&format!("<text class=\"{class}\" {place}>{}</text>\n", escaped(text)));
    }

    /// A path.
    pub fn path(&mut self, class: &str, moves: &str) {
        self.text.push_str(&format!("<path class=\"{class}\" d=\"{moves}\"/>\n"));
    }

    /// Dots of a size, at places in tenths of a pixel.
    pub fn dots(&mut self, class: &str, size: f64, places: &[(i64, i64)]) {
        let mut moves = String::new();
        let mut last = (0, 0);
        for &(x, y) in places {
            moves.push_str(&format!("m{} {}h0", tenths(x - last.0), tenths(y - last.1)));
            last = (x, y);
        }
        self.text.push_str(&format!("<path class=\"dots {class}\" stroke-width=\"{size:.1}\" d=\"{moves}\"/>\n"));
    }

    /// The whole drawing.
    pub fn finish(mut self) -> String {
        self.text.push_str("</svg>\n");
        self.text
    }
}

/// A number of tenths, as short as can be.
fn tenths(number: i64) -> String {
    let sign = if number < 0 { "-" } else { "" };
    match (number.abs() / 10, number.abs() % 10) {
        (whole, 0) => format!("{sign}{whole}"),
        (0, part) => format!("{sign}.{part}"),
        (whole, part) => format!("{sign}{whole}.{part}"),
    }
}

/// Text as XML has it; what XML cannot hold is replaced.
fn escaped(text: &str) -> String {
    let mut escaped = String::new();
    for letter in text.chars() {
        match letter {
            '&' => escaped.push_str("&amp;"),
            '<' => escaped.push_str("&lt;"),
            '>' => escaped.push_str("&gt;"),
            '\u{FFFE}' | '\u{FFFF}' => escaped.push('\u{FFFD}'),
            letter if letter.is_control() => escaped.push('\u{FFFD}'),
            letter => escaped.push(letter),
        }
    }
    escaped
}

#[cfg(test)]
mod tests {
    use super::*;

    #[test]
    fn tenths_are_short() {
        assert_eq!([0, 10, -10, 7, -7, 123, -123].map(tenths), ["0", "1", "-1", ".7", "-.7", "12.3", "-12.3"]);
    }

    #[test]
    fn text_is_escaped() {
        assert_eq!(escaped("a<b>&\u{1}\u{FFFF}é"), "a&lt;b&gt;&amp;\u{FFFD}\u{FFFD}é");
    }
}
