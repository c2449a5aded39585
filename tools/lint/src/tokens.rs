//! Tokens of definitions and proofs (`.antt`), and of the contracts in code.

/// What a token is.
#[derive(Clone, Copy, Debug, PartialEq, Eq)]
pub enum Kind {
    /// A name, an operator or a numeral.
    Name,
    /// A name between « and ».
    Escaped,
    /// One of `( ) { } . ; , @`.
    Mark,
    /// A quoted text.
    Text,
}

/// A token, and where it stands.
#[derive(Clone, Debug)]
pub struct Token {
    /// What it is.
    pub kind: Kind,
    /// As it is spelled; an escaped name without its quotes.
    pub text: String,
    /// The line, from 1.
    pub line: usize,
    /// Characters before it on its line.
    pub column: usize,
    /// It is the first of its line.
    pub first: bool,
    /// Nothing stands between it and the token before.
    pub joined: bool,
}

impl Token {
    /// Is it the mark or the bare word `text`?
    pub fn is(&self, text: &str) -> bool {
        self.text == text && matches!(self.kind, Kind::Mark | Kind::Name)
    }

    /// Is it a name, escaped or not?
    pub fn is_name(&self) -> bool {
        matches!(self.kind, Kind::Name | Kind::Escaped)
    }
}

const MARKS: &str = "(){}.;,@";

struct Reader<'a> {
    rest: std::iter::Peekable<std::str::Chars<'a>>,
    line: usize,
    column: usize,
}

impl Reader<'_> {
    fn next(&mut self) -> Option<char> {
        let c = self.rest.next()?;
        self.column += 1;
        if c == '\n' {
            self.line += 1;
            self.column = 0;
        }
        Some(c)
    }

    fn take(&mut self, mut more: impl FnMut(char) -> bool) -> String {
        let mut taken = String::new();
        while let Some(&c) = self.rest.peek() {
            if !more(c) {
                break;
            }
            taken.push(c);
            self.next();
        }
        taken
    }

    fn starts_with(&self, start: &str) -> bool {
        let mut rest = self.rest.clone();
        start.chars().all(|c| rest.next() == Some(c))
    }

    // A comment between {- and -}, in which others may stand.
    fn skip_block(&mut self) {
        let mut depth = 0;
        loop {
            let step = match () {
                _ if self.starts_with("{-") => 1,
                _ if self.starts_with("-}") => -1,
                _ => 0,
            };
            if self.next().is_none() {
                return;
            }
            if step != 0 {
                self.next();
                depth += step;
            }
            if depth == 0 {
                return;
            }
        }
    }

    // A quoted text; a backslash takes the next character along.
    fn quoted(&mut self) -> String {
        self.next();
        let mut text = String::new();
        while let Some(c) = self.next() {
            if c == '"' {
                break;
            }
            text.push(c);
            if c == '\\' {
                text.extend(self.next());
            }
        }
        text
    }

    fn token(&mut self, c: char) -> (Kind, String) {
        if c == '"' {
            return (Kind::Text, self.quoted());
        }
        if c == '«' {
            self.next();
            let name = self.take(|c| c != '»');
            self.next();
            return (Kind::Escaped, name);
        }
        if MARKS.contains(c) {
            self.next();
            return (Kind::Mark, c.to_string());
        }
        let part_of_name =
            |c: char| !c.is_whitespace() && !MARKS.contains(c) && !"\"«»".contains(c);
        let name = self.take(part_of_name);
        if name.is_empty() {
            self.next();
        }
        (Kind::Name, name)
    }
}

/// The tokens of a text whose first line has the number `line`; comments are left out.
pub fn tokens(text: &str, line: usize) -> Vec<Token> {
    let mut reader = Reader { rest: text.chars().peekable(), line, column: 0 };
    let mut found: Vec<Token> = Vec::new();
    let mut joined = false;
    while let Some(&c) = reader.rest.peek() {
        if c.is_whitespace() {
            reader.next();
            joined = false;
        } else if reader.starts_with("--") {
            reader.take(|c| c != '\n');
        } else if reader.starts_with("{-") {
            reader.skip_block();
            joined = false;
        } else {
            let (line, column) = (reader.line, reader.column);
            let (kind, text) = reader.token(c);
            let first = found.last().map_or(true, |before| before.line < line);
            found.push(Token { kind, text, line, column, first, joined });
            joined = true;
        }
    }
    found
}
