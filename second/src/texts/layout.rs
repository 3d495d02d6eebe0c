//! What stands between the words of a text: blanks, line ends, comment lines.

use crate::dimacs::is_blank;
use crate::random::Random;

/// A piece of a text before it is laid out.
#[derive(Clone, Debug)]
pub enum Mark {
    /// A word that may stand anywhere.
    Word(Vec<u8>),
    /// A word on the line of what stands before it.
    Behind(Vec<u8>),
    /// Words on a line of their own.
    Line(Vec<Vec<u8>>),
}

impl Mark {
    pub fn word(bytes: impl AsRef<[u8]>) -> Mark {
        Mark::Word(bytes.as_ref().to_vec())
    }

    pub fn behind(bytes: impl AsRef<[u8]>) -> Mark {
        Mark::Behind(bytes.as_ref().to_vec())
    }

    /// The words of a line, given with single blanks between them.
    pub fn line(words: impl AsRef<[u8]>) -> Mark {
        let words = words.as_ref().split(|&byte| byte == b' ');
        Mark::Line(words.map(<[u8]>::to_vec).collect())
    }
}

/// How an author writes. Of chances each is one in so many.
#[derive(Debug)]
pub struct Style {
    gaps: &'static [&'static str],
    line_ends: &'static [&'static str],
    /// Whether the 0 of a clause ends its line.
    by_clause: bool,
    /// That another word begins a line.
    breaks: usize,
    /// That comment lines stand before a line.
    comments: usize,
    /// That blanks stand before the first word of a line.
    indents: usize,
}

const NEVER: usize = usize::MAX;

/// One clause a line and nothing more.
pub const PLAIN: Style = Style {
    gaps: &[" "],
    line_ends: &["\n"],
    by_clause: true,
    breaks: NEVER,
    comments: NEVER,
    indents: NEVER,
};

/// Clauses over lines, several on one, blanks of any number, some comments.
pub const FREE: Style = Style {
    gaps: &[" ", " ", " ", "  ", "\t", " \t ", "\r", "   \t\t"],
    line_ends: &["\n", "\n", " \n", "\n\n", "\t\n \n", "\n\r\n"],
    by_clause: false,
    breaks: 5,
    comments: 9,
    indents: 4,
};

/// As editors of other systems leave it.
pub const CRLF: Style = Style {
    gaps: &[" "],
    line_ends: &["\r\n"],
    by_clause: true,
    breaks: NEVER,
    comments: 12,
    indents: NEVER,
};

/// CR wherever it can stand.
pub const CR: Style = Style {
    gaps: &["\r", " ", "\r\r", " \r", "\r "],
    line_ends: &["\r\n", "\n", "\r\r\n", "\n\r\n", "\n\r\r\n"],
    by_clause: false,
    breaks: 4,
    comments: 6,
    indents: 5,
};

/// Comment lines before nearly every line, inside clauses too.
pub const COMMENTED: Style = Style {
    gaps: &[" ", "\t"],
    line_ends: &["\n", "\n", "\r\n"],
    by_clause: true,
    breaks: 4,
    comments: 2,
    indents: 6,
};

/// Each of them.
pub const STYLES: [&Style; 5] = [&PLAIN, &FREE, &CRLF, &CR, &COMMENTED];

pub fn any_style(random: &mut Random) -> &'static Style {
    STYLES[random.below(STYLES.len())]
}

/// Lays marks out as a text. What stands behind the last word is left open as often as not.
pub fn lay(marks: &[Mark], style: &Style, random: &mut Random) -> Vec<u8> {
    let mut page = Page::begin(style, random);
    page.put_all(marks);
    page.finish()
}

/// The same, and the last byte is that of the last word.
pub fn lay_open(marks: &[Mark], style: &Style, random: &mut Random) -> Vec<u8> {
    let mut page = Page::begin(style, random);
    page.put_all(marks);
    page.text
}

struct Page<'a> {
    style: &'a Style,
    random: &'a mut Random,
    text: Vec<u8>,
    /// Whether the next word begins a line.
    line_is_over: bool,
}

impl<'a> Page<'a> {
    fn begin(style: &'a Style, random: &'a mut Random) -> Page<'a> {
        Page {
            style,
            random,
            text: Vec::new(),
            line_is_over: true,
        }
    }

    fn put_all(&mut self, marks: &[Mark]) {
        for mark in marks {
            match mark {
                Mark::Word(word) => self.put_anywhere(word),
                Mark::Behind(word) => {
                    self.line_is_over = false;
                    self.put(word);
                }
                Mark::Line(words) => {
                    self.line_is_over = true;
                    words.iter().for_each(|word| self.put(word));
                    self.line_is_over = true;
                }
            }
        }
    }

    fn put_anywhere(&mut self, word: &[u8]) {
        if self.random.one_in(self.style.breaks) {
            self.line_is_over = true;
        }
        self.put(word);
        let closes = word.iter().all(|&byte| byte == b'0');
        self.line_is_over = closes && self.style.by_clause;
    }

    /// Puts a word behind what there is, or on a line of its own if that is over.
    fn put(&mut self, word: &[u8]) {
        if self.line_is_over {
            self.begin_line();
        } else if self.text.last().is_some_and(|&byte| !is_blank(byte)) {
            self.gap();
        }
        // With no blank before it, it would begin a comment.
        if word.starts_with(b"c") && self.is_line_begun() {
            self.text.push(b' ');
        }
        self.text.extend(word);
        self.line_is_over = false;
    }

    fn gap(&mut self) {
        let gap = self.style.gaps[self.random.below(self.style.gaps.len())];
        self.text.extend(gap.bytes());
    }

    /// Whether the next byte is the first of a line.
    fn is_line_begun(&self) -> bool {
        matches!(self.text.last(), None | Some(b'\n'))
    }

    fn begin_line(&mut self) {
        if !self.is_line_begun() {
            self.end_line();
        }
        while self.is_line_begun() && self.random.one_in(self.style.comments) {
            self.text.extend(any_comment(self.random));
            self.text.push(b'\n');
        }
        if self.random.one_in(self.style.indents) {
            self.gap();
        }
    }

    fn end_line(&mut self) {
        let ends = self.style.line_ends;
        self.text
            .extend(ends[self.random.below(ends.len())].bytes());
    }

    /// The last line is closed, or not, or is a comment.
    fn finish(mut self) -> Vec<u8> {
        match self.random.below(8) {
            0 | 1 => {}
            2 => self.gap(),
            3 => {
                if !self.is_line_begun() {
                    self.end_line();
                }
                self.text.extend(any_comment(self.random));
            }
            _ => self.end_line(),
        }
        self.text
    }
}

/// A comment line without its end. It may read as a text of its own.
pub fn any_comment(random: &mut Random) -> Vec<u8> {
    const SOME: [&[u8]; 16] = [
        b"c",
        b"c a rule",
        b"c p cnf 3 2",
        b"c 1 2 0",
        b"cnf 3 2",
        b"c0",
        b"c\t1 0",
        b"c\r",
        b"c flags \r1 0",
        b"c\rp cnf 1 1\r",
        b"c\0",
        b"cc",
        b"c x 0 c",
        b"c\x0b\x0c\x7f\x80\xff",
        b"c regles d\xe9j\xe0 vues",
        b"c \xe2\x88\x92 1",
    ];
    match random.below(4) {
        0 => {
            let mut comment = vec![b'c'];
            comment.extend((0..random.below(40)).map(|_| random.draw() as u8));
            comment.retain(|&byte| byte != b'\n');
            comment
        }
        1 => [b"c ", &b"p cnf 1 0 \r"[..].repeat(random.below(30))[..]].concat(),
        _ => SOME[random.below(SOME.len())].to_vec(),
    }
}
