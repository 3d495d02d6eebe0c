//! Another reader of texts, which may deviate from request 1 in one rule.
//!
//! It is written apart from the one in `src`: it goes by lines and lists of words, keeps numbers as
//! they are, and finds all faults of a word before it tells the first.

use second::texts::run::Reads;

/// One rule that is read in another way.
#[derive(Clone, Copy, Debug, PartialEq, Eq)]
pub enum Way {
    Right,
    // blanks and lines
    VtAndFfAreBlanks,
    NulIsBlank,
    HighBytesAreBlanks,
    CrIsNoBlank,
    TabIsNoBlank,
    CrEndsALine,
    LastLineNeedsLf,
    // comments
    CommentEndsAtCr,
    CommentsOnlyBeforeProblemLine,
    CommentsNotInsideClauses,
    IndentedComments,
    CommentsBehindWords,
    CommentsNeedABlank,
    CommentsNotInTheProblemLine,
    LastWordNeedsABlank,
    // the problem line
    ProblemLineNotIndented,
    PByPrefix,
    CnfByPrefix,
    CnfInAnyCase,
    VariableCountJudgedLast,
    ProblemLineOverLines,
    FifthWordPasses,
    DnfPasses,
    SecondLinePasses,
    SecondLineOnlyIfWhole,
    SecondLineNotInClauses,
    SecondLineAnywhere,
    SecondLineNotIndented,
    CutLineBeforePIs22,
    CutLineAtTextsLength,
    MissingLineAtTextsLength,
    MissingLineAtZero,
    NoWordAtZero,
    FirstWordsPass,
    // numbers
    LiteralsWrapAt(u32),
    VariablesWrapAt(u32),
    ClausesWrapAt(u32),
    ReadsDigits(usize),
    DigitsAtMost(usize),
    LeadingZerosRefused,
    DoubleZeroDoesNotClose,
    MinusZeroCloses,
    PlusPasses,
    SignedCountPasses,
    StopsAtNoDigit,
    MinusStandsApart,
    // bounds
    VariablesFrom0,
    VariablesTo2049,
    PastCountPasses,
    CountItselfIsPast,
    NegativesAreNeverPast,
    LongClausesPass,
    ClausesTo255,
    SameSignOnlyIsTwice,
    TwiceAcrossClauses,
    TwiceByBitsOfTheClause(u32),
    // numbers and positions
    OffByOne,
    PositionsWrapAt(u32),
    TwiceAtTheFirst,
    TooLongAtTheClause,
    TooLongAtTheClose,
    UnclosedAtTheLastWord,
    TooManyAtTheClause,
    TooLongBeforeTwice,
    TooLongBeforePast,
    CountBeforeUnclosed,
    CountNotCompared,
    TooFewOnly,
    TooManyOnly,
    EmptyClausesNotCounted,
    LineEndCloses,
    UnclosedIsClosed,
    // frames
    IdsFrom0,
    IdsAreLines,
    FramesBeforeTheFault,
    EmptyClausesLeftOut,
    LiteralsSorted,
}

/// All but the right one, those with a number for some numbers.
pub const WAYS: [Way; 98] = {
    use Way::*;
    [
        VtAndFfAreBlanks,
        NulIsBlank,
        HighBytesAreBlanks,
        CrIsNoBlank,
        TabIsNoBlank,
        CrEndsALine,
        LastLineNeedsLf,
        CommentEndsAtCr,
        CommentsOnlyBeforeProblemLine,
        CommentsNotInsideClauses,
        IndentedComments,
        CommentsBehindWords,
        CommentsNeedABlank,
        CommentsNotInTheProblemLine,
        LastWordNeedsABlank,
        ProblemLineNotIndented,
        PByPrefix,
        CnfByPrefix,
        CnfInAnyCase,
        VariableCountJudgedLast,
        ProblemLineOverLines,
        FifthWordPasses,
        DnfPasses,
        SecondLinePasses,
        SecondLineOnlyIfWhole,
        SecondLineNotInClauses,
        SecondLineAnywhere,
        SecondLineNotIndented,
        CutLineBeforePIs22,
        CutLineAtTextsLength,
        MissingLineAtTextsLength,
        MissingLineAtZero,
        NoWordAtZero,
        FirstWordsPass,
        LiteralsWrapAt(8),
        LiteralsWrapAt(16),
        LiteralsWrapAt(31),
        LiteralsWrapAt(32),
        LiteralsWrapAt(63),
        LiteralsWrapAt(64),
        VariablesWrapAt(16),
        VariablesWrapAt(31),
        VariablesWrapAt(32),
        VariablesWrapAt(63),
        VariablesWrapAt(64),
        ClausesWrapAt(8),
        ClausesWrapAt(16),
        ClausesWrapAt(31),
        ClausesWrapAt(32),
        ClausesWrapAt(63),
        ClausesWrapAt(64),
        ReadsDigits(9),
        ReadsDigits(18),
        ReadsDigits(19),
        DigitsAtMost(10),
        DigitsAtMost(20),
        DigitsAtMost(255),
        DigitsAtMost(65_535),
        LeadingZerosRefused,
        DoubleZeroDoesNotClose,
        MinusZeroCloses,
        PlusPasses,
        SignedCountPasses,
        StopsAtNoDigit,
        MinusStandsApart,
        VariablesFrom0,
        VariablesTo2049,
        PastCountPasses,
        CountItselfIsPast,
        NegativesAreNeverPast,
        LongClausesPass,
        ClausesTo255,
        SameSignOnlyIsTwice,
        TwiceAcrossClauses,
        TwiceByBitsOfTheClause(8),
        TwiceByBitsOfTheClause(16),
        OffByOne,
        PositionsWrapAt(8),
        PositionsWrapAt(16),
        TwiceAtTheFirst,
        TooLongAtTheClause,
        TooLongAtTheClose,
        UnclosedAtTheLastWord,
        TooManyAtTheClause,
        TooLongBeforeTwice,
        TooLongBeforePast,
        CountBeforeUnclosed,
        CountNotCompared,
        TooFewOnly,
        TooManyOnly,
        EmptyClausesNotCounted,
        LineEndCloses,
        UnclosedIsClosed,
        IdsFrom0,
        IdsAreLines,
        FramesBeforeTheFault,
        EmptyClausesLeftOut,
        LiteralsSorted,
    ]
};

/// A word with where it stands.
#[derive(Clone, Copy)]
struct Word<'t> {
    bytes: &'t [u8],
    start: usize,
    line: usize,
    is_first: bool,
    is_indented: bool,
}

/// What is wrong: number and position.
type Fault = (u64, usize);

/// What a number is for.
#[derive(Clone, Copy)]
enum Role {
    Literal,
    Variables,
    Clauses,
}

/// A number as it is, or as a deviant takes it.
#[derive(Clone, Copy)]
struct Number {
    negative: bool,
    magnitude: u128,
}

/// A clause, and the line where it was closed.
#[derive(Clone, Default)]
struct Clause {
    literals: Vec<i64>,
    starts: Vec<usize>,
    line: usize,
}

/// What a text says as far as it was read.
#[derive(Default)]
struct Told {
    vars: u128,
    declared: u128,
    closed: Vec<Clause>,
    open: Clause,
}

pub struct Deviant(pub Way);

impl Deviant {
    fn is(&self, way: Way) -> bool {
        self.0 == way
    }

    // ---- words

    fn is_blank(&self, byte: u8) -> bool {
        match byte {
            b' ' | b'\n' => true,
            b'\t' => !self.is(Way::TabIsNoBlank),
            b'\r' => !self.is(Way::CrIsNoBlank),
            0x0b | 0x0c => self.is(Way::VtAndFfAreBlanks),
            0 => self.is(Way::NulIsBlank),
            0x80.. => self.is(Way::HighBytesAreBlanks),
            _ => false,
        }
    }

    /// The lines of a text without their ends, and where they start.
    fn lines<'t>(&self, text: &'t [u8]) -> Vec<(usize, &'t [u8])> {
        let ends = |byte: &u8| *byte == b'\n' || *byte == b'\r' && self.is(Way::CrEndsALine);
        let mut start = 0;
        let mut lines = Vec::new();
        for line in text.split(ends) {
            lines.push((start, line));
            start += line.len() + 1;
        }
        if self.is(Way::LastLineNeedsLf) {
            lines.pop();
        }
        lines
    }

    fn words<'t>(&self, text: &'t [u8]) -> Vec<Word<'t>> {
        let mut words = Vec::new();
        for (number, (start, line)) in self.lines(text).into_iter().enumerate() {
            if !self.is_comment(line, &words) {
                self.add_words(&mut words, line, start, number);
            } else if let (true, Some(cr)) = (
                self.is(Way::CommentEndsAtCr),
                line.iter().position(|&byte| byte == b'\r'),
            ) {
                self.add_words(&mut words, &line[cr..], start + cr, number);
            }
        }
        let is_ended = text.last().is_some_and(|&byte| self.is_blank(byte));
        if self.is(Way::LastWordNeedsABlank) && !is_ended {
            words.pop();
        }
        words
    }

    fn is_comment(&self, line: &[u8], before: &[Word<'_>]) -> bool {
        let first = line.iter().position(|&byte| !self.is_blank(byte));
        let is_open = before
            .last()
            .is_some_and(|word| word.bytes.iter().any(|&byte| byte != b'0') && before.len() > 4);
        match self.0 {
            Way::IndentedComments => first.is_some_and(|at| line[at] == b'c'),
            Way::CommentsNeedABlank => {
                line.starts_with(b"c")
                    && line[1..].first().map_or(true, |&byte| self.is_blank(byte))
            }
            Way::CommentsOnlyBeforeProblemLine => line.starts_with(b"c") && before.is_empty(),
            Way::CommentsNotInsideClauses => line.starts_with(b"c") && !is_open,
            Way::CommentsNotInTheProblemLine => {
                line.starts_with(b"c") && !(1..4).contains(&before.len())
            }
            _ => line.starts_with(b"c"),
        }
    }

    fn add_words<'t>(
        &self,
        words: &mut Vec<Word<'t>>,
        line: &'t [u8],
        start: usize,
        number: usize,
    ) {
        let mut at = start;
        let mut is_first = true;
        for bytes in line.split(|&byte| self.is_blank(byte)) {
            if bytes == b"c" && !is_first && self.is(Way::CommentsBehindWords) {
                return;
            }
            if !bytes.is_empty() {
                words.push(Word {
                    bytes,
                    start: at,
                    line: number,
                    is_first,
                    is_indented: at > start,
                });
                is_first = false;
            }
            at += bytes.len() + 1;
        }
    }

    // ---- numbers

    fn magnitude(&self, digits: &[u8], role: Role) -> Option<u128> {
        let counted = match self.0 {
            Way::ReadsDigits(most) => &digits[..digits.len().min(most)],
            Way::StopsAtNoDigit => {
                let end = digits.iter().position(|byte| !byte.is_ascii_digit());
                &digits[..end.unwrap_or(digits.len())]
            }
            _ => digits,
        };
        if counted.is_empty() || !counted.iter().all(u8::is_ascii_digit) {
            return None;
        }
        if digits.len() > 1 && digits[0] == b'0' && self.is(Way::LeadingZerosRefused) {
            return None;
        }
        let next = |number: u128, digit: &u8| {
            let larger = number
                .saturating_mul(10)
                .saturating_add((digit - b'0').into());
            match (self.0, role) {
                (Way::LiteralsWrapAt(bits), Role::Literal)
                | (Way::VariablesWrapAt(bits), Role::Variables)
                | (Way::ClausesWrapAt(bits), Role::Clauses) => larger % (1 << bits),
                _ => larger,
            }
        };
        match self.0 {
            Way::DigitsAtMost(most) if digits.len() > most => Some(u128::MAX),
            _ => Some(counted.iter().fold(0, next)),
        }
    }

    fn count(&self, word: Word<'_>, role: Role) -> Result<u128, Fault> {
        let digits = match word.bytes {
            [b'+' | b'-', digits @ ..] if self.is(Way::SignedCountPasses) => digits,
            digits => digits,
        };
        self.magnitude(digits, role).ok_or((23, word.start))
    }

    fn number(&self, word: Word<'_>) -> Result<Number, Fault> {
        let (negative, digits) = match word.bytes {
            [b'-', digits @ ..] => (true, digits),
            [b'+', digits @ ..] if self.is(Way::PlusPasses) => (false, digits),
            digits => (false, digits),
        };
        let magnitude = self
            .magnitude(digits, Role::Literal)
            .ok_or((23, word.start))?;
        let is_odd_zero = magnitude == 0
            && (negative && !self.is(Way::MinusZeroCloses)
                || digits.len() > 1 && self.is(Way::DoubleZeroDoesNotClose));
        match is_odd_zero {
            true => Err((23, word.start)),
            false => Ok(Number {
                negative,
                magnitude,
            }),
        }
    }

    // ---- the problem line

    /// Reads the problem line; what is left are the words of the clauses.
    fn problem_line<'w, 't>(
        &self,
        words: &'w [Word<'t>],
        length: usize,
        told: &mut Told,
    ) -> Result<&'w [Word<'t>], Fault> {
        let words = self.words_from_p(words, length)?;
        let line = words[0].line;
        let on_line = |place: usize| self.on_line(words.get(place), line, length);
        let cnf = on_line(1)?;
        if !self.is_cnf(cnf.bytes) {
            return Err((23, cnf.start));
        }
        let vars = on_line(2)?;
        told.vars = self.count(vars, Role::Variables)?;
        let judged = self.judge_variables(vars, told);
        if !self.is(Way::VariableCountJudgedLast) {
            judged?;
        }
        let clauses = on_line(3)?;
        told.declared = self.count(clauses, Role::Clauses)?;
        judged?;
        let is_behind = |word: &&Word<'_>| word.line == clauses.line;
        let more = words[4..].iter().take_while(is_behind).count();
        match words.get(4) {
            Some(fifth) if more > 0 && !self.is(Way::FifthWordPasses) => Err((23, fifth.start)),
            _ => Ok(&words[4 + more..]),
        }
    }

    /// The words from the problem line's p on.
    fn words_from_p<'w, 't>(
        &self,
        words: &'w [Word<'t>],
        length: usize,
    ) -> Result<&'w [Word<'t>], Fault> {
        let is_p = |word: &Word<'_>| match self.0 {
            Way::PByPrefix => word.bytes.starts_with(b"p"),
            Way::ProblemLineNotIndented => word.bytes == b"p" && !word.is_indented,
            _ => word.bytes == b"p",
        };
        let passed = match self.0 {
            Way::FirstWordsPass => words.iter().position(is_p).unwrap_or(0),
            _ => 0,
        };
        match (words.get(passed), self.0) {
            (Some(first), _) if is_p(first) => Ok(&words[passed..]),
            (Some(_), Way::MissingLineAtTextsLength) => Err((21, length)),
            (Some(_), Way::MissingLineAtZero) | (None, Way::NoWordAtZero) => Err((21, 0)),
            (Some(first), _) => Err((21, first.start)),
            (None, _) => Err((21, length)),
        }
    }

    fn is_cnf(&self, word: &[u8]) -> bool {
        match self.0 {
            Way::DnfPasses => word == b"cnf" || word == b"dnf",
            Way::CnfByPrefix => word.starts_with(b"cnf"),
            Way::CnfInAnyCase => word.eq_ignore_ascii_case(b"cnf"),
            _ => word == b"cnf",
        }
    }

    fn judge_variables(&self, word: Word<'_>, told: &Told) -> Result<(), Fault> {
        let least = u128::from(!self.is(Way::VariablesFrom0));
        let most = 2_048 + u128::from(self.is(Way::VariablesTo2049));
        match (least..=most).contains(&told.vars) {
            true => Ok(()),
            false => Err((27, word.start)),
        }
    }

    fn on_line<'t>(
        &self,
        word: Option<&Word<'t>>,
        line: usize,
        length: usize,
    ) -> Result<Word<'t>, Fault> {
        match word {
            None => Err((23, length)),
            Some(word) if word.line == line || self.is(Way::ProblemLineOverLines) => Ok(*word),
            Some(_) if self.is(Way::CutLineAtTextsLength) => Err((23, length)),
            Some(word)
                if word.bytes == b"p" && word.is_first && self.is(Way::CutLineBeforePIs22) =>
            {
                Err((22, word.start))
            }
            Some(word) => Err((23, word.start)),
        }
    }

    /// Whether p, which is not that of the problem line, begins a second one.
    fn is_second(&self, at: &[Word<'_>], told: &Told) -> bool {
        let is_inside = !told.open.literals.is_empty();
        let is_whole = || {
            let line = at.iter().take_while(|word| word.line == at[0].line);
            line.count() == 4 && at[1].bytes == b"cnf"
        };
        match self.0 {
            Way::SecondLineAnywhere => true,
            Way::SecondLineNotInClauses => at[0].is_first && !is_inside,
            Way::SecondLineOnlyIfWhole => at[0].is_first && is_whole(),
            Way::SecondLineNotIndented => at[0].is_first && !at[0].is_indented,
            _ => at[0].is_first,
        }
    }

    // ---- clauses

    fn clauses(&self, words: &[Word<'_>], told: &mut Told) -> Result<(), Fault> {
        let mut skipped = None;
        for (place, &word) in words.iter().enumerate() {
            if skipped == Some(word.line) {
                continue;
            }
            if word.bytes == b"p" && self.is_second(&words[place..], told) {
                if !self.is(Way::SecondLinePasses) {
                    return Err((22, word.start));
                }
                skipped = Some(word.line);
                continue;
            }
            if word.bytes == b"-" && self.is(Way::MinusStandsApart) {
                continue;
            }
            let number = self.number(word)?;
            let last_line = place.checked_sub(1).map(|last| words[last].line);
            let is_new_line = last_line != Some(word.line);
            if is_new_line && !told.open.literals.is_empty() && self.is(Way::LineEndCloses) {
                self.close(word, told)?;
            }
            match number.magnitude {
                0 => self.close(word, told)?,
                _ => self.add(number, word, told)?,
            }
        }
        Ok(())
    }

    fn close(&self, word: Word<'_>, told: &mut Told) -> Result<(), Fault> {
        if told.open.literals.len() > 256 && self.is(Way::TooLongAtTheClose) {
            return Err((26, word.start));
        }
        let mut clause = std::mem::take(&mut told.open);
        clause.line = word.line;
        let start = clause.starts.first().copied().unwrap_or(word.start);
        told.closed.push(clause);
        let is_surplus = told.closed.len() as u128 > told.declared;
        match is_surplus && self.is(Way::TooManyAtTheClause) {
            true => Err((29, start)),
            false => Ok(()),
        }
    }

    fn add(&self, number: Number, word: Word<'_>, told: &mut Told) -> Result<(), Fault> {
        let literal = match number.negative {
            true => -(number.magnitude.min(1 << 40) as i64),
            false => number.magnitude.min(1 << 40) as i64,
        };
        let past = self.past(number, told).then_some((24, word.start));
        let twice = self.twice(literal, told).map(|first| match self.0 {
            Way::TwiceAtTheFirst => (25, first),
            _ => (25, word.start),
        });
        let long = self.too_long(told).then(|| match self.0 {
            Way::TooLongAtTheClause => (26, told.open.starts[0]),
            _ => (26, word.start),
        });
        let first = match self.0 {
            Way::TooLongBeforePast => long.or(past).or(twice),
            Way::TooLongBeforeTwice => past.or(long).or(twice),
            _ => past.or(twice).or(long),
        };
        told.open.literals.push(literal);
        told.open.starts.push(word.start);
        first.map_or(Ok(()), Err)
    }

    fn past(&self, number: Number, told: &Told) -> bool {
        match self.0 {
            Way::PastCountPasses => number.magnitude > 2_048,
            Way::CountItselfIsPast => number.magnitude >= told.vars,
            Way::NegativesAreNeverPast => !number.negative && number.magnitude > told.vars,
            _ => number.magnitude > told.vars,
        }
    }

    /// Where the variable stood before, if it did.
    fn twice(&self, literal: i64, told: &Told) -> Option<usize> {
        let is_same = |&(&other, _): &(&i64, &usize)| match self.0 {
            Way::SameSignOnlyIsTwice => other == literal,
            _ => other.abs() == literal.abs(),
        };
        let here = |clause: &Clause| {
            let mut literals = clause.literals.iter().zip(&clause.starts);
            literals.find(is_same).map(|(_, &start)| start)
        };
        let before = match self.0 {
            Way::TwiceAcrossClauses => told.closed.last().and_then(here),
            Way::TwiceByBitsOfTheClause(bits) => {
                let backward = told.closed.iter().rev().zip(1usize..);
                let mut met = backward.filter_map(|(clause, ago)| Some((here(clause)?, ago)));
                met.next()
                    .filter(|(_, ago)| ago % (1 << bits) == 0)
                    .map(|(start, _)| start)
            }
            _ => None,
        };
        here(&told.open).or(before)
    }

    fn too_long(&self, told: &Told) -> bool {
        match self.0 {
            Way::LongClausesPass | Way::TooLongAtTheClose => false,
            Way::ClausesTo255 => told.open.literals.len() >= 255,
            _ => told.open.literals.len() >= 256,
        }
    }

    fn end(&self, words: &[Word<'_>], length: usize, told: &mut Told) -> Result<(), Fault> {
        let is_open = !told.open.literals.is_empty();
        if is_open && (self.is(Way::UnclosedIsClosed) || self.is(Way::LineEndCloses)) {
            let last = words[words.len() - 1];
            self.close(last, told)?;
        }
        let unclosed = (!told.open.literals.is_empty()).then(|| match self.0 {
            Way::UnclosedAtTheLastWord => (28, words[words.len() - 1].start),
            _ => (28, length),
        });
        let counted = told
            .closed
            .iter()
            .filter(|clause| !clause.literals.is_empty() || !self.is(Way::EmptyClausesNotCounted));
        let counted = counted.count() as u128;
        let is_wrong = match self.0 {
            Way::CountNotCompared => false,
            Way::TooFewOnly => counted < told.declared,
            Way::TooManyOnly => counted > told.declared,
            _ => counted != told.declared,
        };
        let wrong = is_wrong.then_some((29, length));
        let first = match self.0 {
            Way::CountBeforeUnclosed => wrong.or(unclosed),
            _ => unclosed.or(wrong),
        };
        first.map_or(Ok(()), Err)
    }

    fn read(&self, text: &[u8]) -> (Told, Result<(), Fault>) {
        let words = self.words(text);
        let mut told = Told::default();
        let read = self.problem_line(&words, text.len(), &mut told);
        let read = read.and_then(|words| {
            self.clauses(words, &mut told)?;
            self.end(words, text.len(), &mut told)
        });
        (told, read)
    }

    fn frame(&self, place: usize, clause: &Clause) -> Vec<i32> {
        let id = match self.0 {
            Way::IdsFrom0 => place,
            Way::IdsAreLines => clause.line,
            _ => place + 1,
        };
        let mut literals: Vec<i32> = clause
            .literals
            .iter()
            .map(|&literal| literal as i32)
            .collect();
        if self.is(Way::LiteralsSorted) {
            literals.sort_by_key(|literal| literal.abs());
        }
        [vec![1, id as i32], literals].concat()
    }
}

impl Reads for Deviant {
    fn judge(&mut self, text: &[u8]) -> Result<(u64, u64), (u64, u64)> {
        let (told, read) = self.read(text);
        let position = |position: usize| match self.0 {
            Way::OffByOne => position + 1,
            Way::PositionsWrapAt(bits) => position % (1 << bits),
            _ => position,
        };
        match read {
            Ok(()) => Ok((told.vars as u64, told.closed.len() as u64)),
            Err((number, at)) => Err((number, position(at) as u64)),
        }
    }

    fn frames(&mut self, text: &[u8]) -> Vec<Vec<i32>> {
        let (told, read) = self.read(text);
        if read.is_err() && !self.is(Way::FramesBeforeTheFault) {
            return Vec::new();
        }
        let clauses = told
            .closed
            .iter()
            .filter(|clause| !clause.literals.is_empty() || !self.is(Way::EmptyClausesLeftOut));
        let frames = clauses.enumerate();
        frames
            .map(|(place, clause)| self.frame(place, clause))
            .collect()
    }
}
