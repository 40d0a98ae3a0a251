//! The text of an SVG path: relative moves and lines in whole units, no blank and no letter that can be left out.

/// A path under way. Whole units add up exactly, so a long path does not drift.
#[derive(Default)]
pub struct Path {
    text: String,
    at: (i64, i64),
    command: char,
}

impl Path {
    pub fn text(&self) -> &str {
        &self.text
    }

    /// A closed figure through these corners.
    pub fn figure(&mut self, corners: &[(i64, i64)]) {
        let Some((first, rest)) = corners.split_first() else { return };
        self.go('m', first);
        self.command = 'l'; // pairs after a move are lines
        let mut at = *first;
        for to in rest {
            let by = (to.0 - at.0, to.1 - at.1);
            self.line(by);
            at = *to;
        }
        self.text.push('z'); // which goes back to the first corner
        self.command = 'z';
    }

    /// A point: a line of no length, which is seen where its ends are round.
    pub fn dot(&mut self, at: (i64, i64)) {
        self.go('m', &at);
        self.text += "h0";
        self.command = 'h';
    }

    fn go(&mut self, command: char, to: &(i64, i64)) {
        self.text.push(command);
        self.command = command;
        self.number(to.0 - self.at.0, true);
        self.number(to.1 - self.at.1, false);
        self.at = *to;
    }

    fn line(&mut self, by: (i64, i64)) {
        let command = match by {
            (_, 0) => 'h',
            (0, _) => 'v',
            _ => 'l',
        };
        let changed = command != self.command;
        if changed {
            self.text.push(command);
            self.command = command;
        }
        if command != 'v' {
            self.number(by.0, changed);
        }
        if command != 'h' {
            self.number(by.1, changed && command == 'v');
        }
    }

    fn number(&mut self, n: i64, first: bool) {
        if !first && n >= 0 {
            self.text.push(' ');
        }
        self.text += &n.to_string();
    }
}

#[cfg(test)]
mod tests {
    use super::*;

    #[test]
    fn figures_are_relative_and_short() {
        let mut path = Path::default();
        path.figure(&[(10, -20), (40, -20), (55, 6), (25, 6)]);
        path.figure(&[(12, -20), (12, 0), (0, 0)]);
        assert_eq!(path.text(), "m10-20h30l15 26h-30zm2 0v20h-12z");
    }

    #[test]
    fn lines_that_go_on_share_their_letter() {
        let mut path = Path::default();
        path.figure(&[(0, 0), (1, 2), (3, 1), (3, 5), (3, 9)]);
        path.dot((3, 3));
        assert_eq!(path.text(), "m0 0 1 2 2-1v4 4zm3 3h0");
    }
}
