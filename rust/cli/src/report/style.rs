//! The styles of a terminal, as sequences and as classes of HTML.

/// The character that begins a sequence.
pub(crate) const ESCAPE: char = '\u{1b}';

/// The sequence after which no style is in force.
pub(crate) const RESET: &str = "\u{1b}[0m";

/// A colour of a terminal.
#[derive(Clone, Copy, PartialEq, Eq)]
enum Colour {
    /// One of the 256 colours. The first 16 are those of all terminals.
    Number(u8),

    /// A mixture of red, green and blue.
    Mixed(u8, u8, u8),
}

/// The styles that are in force. Rare ones are left out, for example that of a text that blinks.
#[derive(Clone, Copy, Default, PartialEq, Eq)]
pub(crate) struct Style {
    bold: bool,
    dim: bool,
    italic: bool,
    underline: bool,
    reversed: bool,
    foreground: Option<Colour>,
    background: Option<Colour>,
}

impl Style {
    /// Takes the parameters of a sequence.
    pub(crate) fn set(&mut self, parameters: &str) {
        let mut numbers = parameters.split(';').map(|number| match number {
            "" => Some(0),
            number => number.parse::<u8>().ok(),
        });
        while let Some(number) = numbers.next() {
            match number {
                Some(0) => *self = Style::default(),
                Some(1) => self.bold = true,
                Some(2) => self.dim = true,
                Some(3) => self.italic = true,
                Some(4) => self.underline = true,
                Some(7) => self.reversed = true,
                Some(22) => (self.bold, self.dim) = (false, false),
                Some(23) => self.italic = false,
                Some(24) => self.underline = false,
                Some(27) => self.reversed = false,
                Some(code @ 30..=37) => self.foreground = Some(Colour::Number(code - 30)),
                Some(38) => self.foreground = Colour::read(&mut numbers).or(self.foreground),
                Some(39) => self.foreground = None,
                Some(code @ 40..=47) => self.background = Some(Colour::Number(code - 40)),
                Some(48) => self.background = Colour::read(&mut numbers).or(self.background),
                Some(49) => self.background = None,
                Some(code @ 90..=97) => self.foreground = Some(Colour::Number(code - 82)),
                Some(code @ 100..=107) => self.background = Some(Colour::Number(code - 92)),
                Some(_) | None => {}
            }
        }
    }

    /// Returns the sequence after which no style is in force, or an empty text if this style is none.
    pub(crate) fn reset(self) -> &'static str {
        if self == Style::default() { "" } else { RESET }
    }

    /// Returns the sequence that sets this style where none is in force, or an empty text if this style is none.
    pub(crate) fn sequence(self) -> String {
        if self == Style::default() {
            return String::new();
        }
        let mut sequence = format!("{ESCAPE}[");
        for parameter in self.names(["1", "2", "3", "4", "7"]) {
            sequence.extend([parameter, ";"]);
        }
        for (colour, first) in [(self.foreground, 30), (self.background, 40)] {
            if let Some(colour) = colour {
                sequence.extend([&colour.parameters(first), ";"]);
            }
        }
        sequence.pop();
        sequence.push('m');
        sequence
    }

    /// Returns the classes of this style, with spaces between them.
    pub(crate) fn classes(self) -> String {
        let class = |letter, colour| match colour {
            Some(Colour::Number(number @ 0..16)) => Some(format!("{letter}{number}")),
            Some(Colour::Number(_) | Colour::Mixed(..)) | None => None,
        };
        let colours = [class('c', self.foreground), class('g', self.background)];
        let mut classes: Vec<String> = colours.into_iter().flatten().collect();
        classes.extend(self.names(["b", "d", "i", "u", ""]).map(str::to_string));
        classes.join(" ")
    }

    /// Returns those of these names whose flag is set: bold, dim, italic, underlined and reversed. An empty name is none.
    fn names(self, names: [&'static str; 5]) -> impl Iterator<Item = &'static str> {
        let flags = [
            self.bold,
            self.dim,
            self.italic,
            self.underline,
            self.reversed,
        ];
        let named = flags.into_iter().zip(names);
        let named = named.filter(|(is_set, name)| *is_set && !name.is_empty());
        named.map(|(_, name)| name)
    }
}

impl Colour {
    /// Reads the numbers after 38 and 48. Returns `None` if they are no colour.
    fn read(numbers: &mut impl Iterator<Item = Option<u8>>) -> Option<Colour> {
        let mut next = || numbers.next().flatten();
        match next()? {
            5 => Some(Colour::Number(next()?)),
            2 => Some(Colour::Mixed(next()?, next()?, next()?)),
            _ => None,
        }
    }

    /// Returns the parameters that set this colour. `first` is the one for the first colour of the text or of its background.
    fn parameters(self, first: u8) -> String {
        match self {
            Colour::Number(number @ 0..8) => (first + number).to_string(),
            Colour::Number(number @ 8..16) => (first + 52 + number).to_string(),
            Colour::Number(number) => format!("{};5;{number}", first + 8),
            Colour::Mixed(red, green, blue) => format!("{};2;{red};{green};{blue}", first + 8),
        }
    }
}
