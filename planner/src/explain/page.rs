//! Lines of text that stay within a page's width.

const WIDTH: usize = 100;

#[derive(Default)]
pub struct Page {
    text: String,
}

impl Page {
    pub fn text(self) -> String {
        self.text
    }

    pub fn blank(&mut self) {
        self.text.push('\n');
    }

    /// As it is, for what is laid out already.
    pub fn as_it_is(&mut self, line: &str) {
        self.text.push_str(line.trim_end());
        self.text.push('\n');
    }

    /// A line with this indent; what does not fit goes on below, two further in.
    pub fn line(&mut self, indent: usize, line: &str) {
        self.hung("", indent, indent + 2, line);
    }

    /// A line that a reader who skims should find.
    pub fn marked(&mut self, indent: usize, line: &str) {
        self.hung("* ", indent, indent + 2, line);
    }

    /// A record and its answer, in one line if they fit.
    pub fn short_or_split(&mut self, indent: usize, asked: &str, answer: &str) {
        let joined = format!("{asked} - {answer}");
        if joined.chars().count() <= WIDTH {
            self.as_it_is(&joined);
        } else {
            self.hung_as_is(asked, indent);
            self.line(indent, answer);
        }
    }

    /// Keeps the spaces in front, which line up the numbers.
    fn hung_as_is(&mut self, line: &str, rest: usize) {
        let front = line.len() - line.trim_start().len();
        self.hung("", front, rest + 2, line.trim_start());
    }

    fn hung(&mut self, mark: &str, first: usize, rest: usize, line: &str) {
        let mut current = format!("{}{mark}", " ".repeat(first));
        let mut bare = true;
        for word in line.split(' ') {
            let room = current.chars().count() + word.chars().count();
            if !bare && room + 1 > WIDTH {
                self.as_it_is(&current);
                current = " ".repeat(rest);
                bare = true;
            }
            if !bare {
                current.push(' ');
            }
            current.push_str(word);
            bare = false;
        }
        self.as_it_is(&current);
    }
}
