//! The texts of a picture.

use std::fmt::Write;

pub const INK: &str = "#1c2230";
/// For what is read second.
pub const QUIET: &str = "#565d68";

/// How a text is set: from its place to the right, unless told otherwise.
#[derive(Clone, Copy)]
pub struct Lettering {
    size: f64,
    ink: &'static str,
    more: &'static str,
}

impl Lettering {
    pub const fn new(size: f64, ink: &'static str) -> Lettering {
        let more = "";
        Lettering { size, ink, more }
    }

    pub const fn bold(size: f64, ink: &'static str) -> Lettering {
        let more = " font-weight=\"bold\"";
        Lettering { size, ink, more }
    }

    /// Up to its place.
    pub const fn ending(size: f64, ink: &'static str) -> Lettering {
        let more = " text-anchor=\"end\"";
        Lettering { size, ink, more }
    }

    pub const fn bold_ending(size: f64, ink: &'static str) -> Lettering {
        let more = " font-weight=\"bold\" text-anchor=\"end\"";
        Lettering { size, ink, more }
    }

    /// Around its place.
    pub const fn centred(size: f64, ink: &'static str) -> Lettering {
        let more = " text-anchor=\"middle\"";
        Lettering { size, ink, more }
    }

    /// On the line at y.
    pub fn write(self, out: &mut String, x: f64, y: f64, words: &str) {
        let Lettering { size, ink, more } = self;
        let words = escaped(words);
        let _ = writeln!(
            out,
            "<text x=\"{x:.1}\" y=\"{y:.1}\" font-size=\"{size:.1}\" fill=\"{ink}\"{more}>\
             {words}</text>"
        );
    }

    /// With the middle of the digits at y.
    pub fn write_level(self, out: &mut String, x: f64, y: f64, words: &str) {
        self.write(out, x, y + self.size * 0.36, words);
    }
}

pub fn escaped(words: &str) -> String {
    let words = words.replace('&', "&amp;").replace('<', "&lt;");
    words.replace('>', "&gt;").replace('"', "&quot;")
}
