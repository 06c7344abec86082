//! Pictures: a sheet of pixels with rectangles, frames and letters on it, and its PNG file.

mod font;
mod png;

/// Red, green and blue.
pub type Colour = [u8; 3];

pub const WHITE: Colour = [255, 255, 255];
/// What letters and frames are drawn in.
pub const INK: Colour = [32, 40, 48];

/// A sheet of pixels, white at first. What is drawn over its edge is left out.
#[derive(Clone, Debug, PartialEq, Eq)]
pub struct Picture {
    width: usize,
    height: usize,
    pixels: Vec<Colour>,
    notes: Vec<(String, String)>,
}

/// Letters of a size: a dot of the letter is a square of so many pixels.
#[derive(Clone, Copy, Debug, PartialEq, Eq)]
pub struct Letters(pub usize);

impl Letters {
    /// The width of a text in pixels.
    pub fn width(self, text: &str) -> usize {
        self.0 * (font::ADVANCE * text.chars().count()).saturating_sub(font::ADVANCE - font::WIDTH)
    }

    /// The height of a capital, and of a line with a little room below it.
    pub fn capital(self) -> usize {
        self.0 * font::CAPITAL
    }

    pub fn line(self) -> usize {
        self.0 * (font::HEIGHT + 2)
    }
}

impl Picture {
    pub fn new(width: usize, height: usize) -> Picture {
        Picture { width, height, pixels: vec![WHITE; width * height], notes: Vec::new() }
    }

    pub fn width(&self) -> usize {
        self.width
    }

    pub fn height(&self) -> usize {
        self.height
    }

    /// The colour of a pixel, x from the left and y from the top.
    pub fn pixel(&self, x: usize, y: usize) -> Option<Colour> {
        (x < self.width).then(|| self.pixels.get(self.width * y + x).copied()).flatten()
    }

    /// A filled rectangle from its upper left corner.
    pub fn fill(&mut self, x: usize, y: usize, width: usize, height: usize, colour: Colour) {
        let (right, bottom) = ((x + width).min(self.width), (y + height).min(self.height));
        for y in y..bottom {
            if x < right {
                self.pixels[self.width * y + x..self.width * y + right].fill(colour);
            }
        }
    }

    /// A rectangle's outline, one pixel wide, drawn within it.
    pub fn frame(&mut self, x: usize, y: usize, width: usize, height: usize, colour: Colour) {
        self.fill(x, y, width, 1, colour);
        self.fill(x, (y + height).saturating_sub(1), width, 1, colour);
        self.fill(x, y, 1, height, colour);
        self.fill((x + width).saturating_sub(1), y, 1, height, colour);
    }

    /// Another picture from its upper left corner, without its notes.
    pub fn paste(&mut self, x: usize, y: usize, other: &Picture) {
        for (row, pixels) in other.pixels.chunks(other.width.max(1)).enumerate() {
            for (column, &colour) in pixels.iter().enumerate() {
                self.fill(x + column, y + row, 1, 1, colour);
            }
        }
    }

    /// A line from point to point, both drawn.
    pub fn line(&mut self, from: (usize, usize), to: (usize, usize), colour: Colour) {
        let steps = from.0.abs_diff(to.0).max(from.1.abs_diff(to.1)).max(1);
        let between = |a: usize, b: usize, k: usize| (a * (steps - k) + b * k + steps / 2) / steps;
        for k in 0..=steps {
            self.fill(between(from.0, to.0, k), between(from.1, to.1, k), 1, 1, colour);
        }
    }

    /// A text from the upper left corner of its first letter.
    pub fn text(&mut self, x: usize, y: usize, text: &str, letters: Letters, colour: Colour) {
        let Letters(size) = letters;
        for (place, letter) in text.chars().enumerate() {
            for (column, row) in (0..font::HEIGHT).flat_map(|row| (0..font::WIDTH).map(move |x| (x, row))) {
                if font::dot(letter, column, row) {
                    let left = x + size * (font::ADVANCE * place + column);
                    self.fill(left, y + size * row, size, size, colour);
                }
            }
        }
    }

    /// A text whose middle lies over x.
    pub fn centred(&mut self, x: usize, y: usize, text: &str, letters: Letters, colour: Colour) {
        self.text(x.saturating_sub(letters.width(text) / 2), y, text, letters, colour);
    }

    /// A text that ends before x.
    pub fn ending(&mut self, x: usize, y: usize, text: &str, letters: Letters, colour: Colour) {
        self.text(x.saturating_sub(letters.width(text)), y, text, letters, colour);
    }

    /// What the file says beside the picture: a keyword ("Title", "Description") and a text in ASCII.
    pub fn note(&mut self, keyword: &str, text: &str) {
        self.notes.push((keyword.into(), text.into()));
    }

    /// The bytes of a PNG file.
    pub fn png(&self) -> Vec<u8> {
        png::file(self.width, &self.pixels, &self.notes)
    }
}
