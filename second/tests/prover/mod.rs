//! Another checker of proofs, written in another way: whole lines are split into words, and a clause is a
//! set. It can deviate from request 3 in one rule.

use second::dimacs;
use second::proofs::run::ChecksProofs;
use std::collections::{BTreeMap, BTreeSet};

/// Names the ways once, for the type and for the list.
macro_rules! ways {
    ($($way:ident)*) => {
        /// A rule in which a checker deviates.
        #[derive(Clone, Copy, Debug, PartialEq, Eq)]
        pub enum Way {
            Right,
            $($way,)*
        }

        /// All of them that deviate.
        pub const WAYS: &[Way] = &[$(Way::$way,)*];
    };
}

ways! {
    CommentsSkipped
    EmptyLinesSkipped
    EmptyLinesNotCounted
    CrIsNoBlank
    TabIsNoBlank
    VerticalTabIsBlank
    FormFeedIsBlank
    NulIsBlank
    CrEndsLines
    PlusIsASign
    MinusZeroIsZero
    TwoSigns
    NineDigits
    TenDigits
    TwentyDigits
    NoLeadingZeros
    IdsWrapAt32Bits
    HintsWrapAt32Bits
    HintsWrapAt64Bits
    DeletedIdsWrapAt32Bits
    LiteralsWrapAt16Bits
    LiteralsWrapAt32Bits
    CapitalD
    DBeginsTheLine
    DAnywhere
    FirstIdOfDeletionIsPositive
    FirstIdOfDeletionFits
    FirstIdOfDeletionIsNoNumber
    FirstIdOfDeletionRises
    EmptyDeletionIsMalformed
    DeletedIdTwiceIsOnce
    NegativeDeletedIdIsNotHeld
    UnheldDeletionPasses
    RulesAreNotDeleted
    DeletionKeepsTheClause
    DeletionsOfALineAreCheckedFirst
    ZeroInADeletionIsSkipped
    WordsBehindTheEndPass
    LastZeroMayMiss
    NoHintsNeedNoZero
    IdZeroIsNotAbove
    NegativeIdIsNotAbove
    HugeIdsPass
    GreatestIdIsMalformed
    IdAboveRulesAlone
    IdNotHeldPasses
    IdEqualPasses
    DeletionsRaiseTheHighest
    IdsFollowEachOther
    LiteralAtCountIsPast
    PastCountIsMalformed
    LongClausesPass
    ShorterClausesAlone
    SameLiteralTwicePasses
    OppositesPass
    OppositesAreProved
    NegativeHintIfRead
    NegativeHintIsMalformed
    NegativeHintFails
    NegativeHintIsItsClause
    EmptyClauseNeedsNoEntry
    EntriesByOneMore
    EntriesByOneLess
    WordsByOneMore
    WordsByOneLess
    WordsBeforeEntries
    GoneEntriesAreNotFree
    GoneWordsAreNotFree
    RoomAfterTheProof
    RoomBeforeNegativeHints
    RoomBeforeIds
    IdsBeforeTerms
    TermsBeforeCount
    HintsBeforeIds
    RoomOfRulesInTheFirstLine
    UnheldHintIsSkipped
    TrueHintIsSkipped
    OpenHintIsSkipped
    HintsUsedUpPasses
    OwnIdIsAHint
    GoneHintsStay
    HintsInAnyOrder
    HintsBehindTheConflictAreRead
    LinesBehindTheEndAreRead
    EmptyRuleIsEnough
    LastLineNeedsLf
    LinesFrom0
    EndCountsOneMore
    EndCountsAdditionsAlone
    RulesFaultsLast
    RoomBeforeFaultsAtTheEnd
    PositionsFrom1
    SizesAreNotJudged
    SizesAfterTheRules
    AcceptsWithoutAnEmptyClause
}

/// A checker that deviates in this way.
pub struct Deviant(pub Way);

/// What it hands out, or the number of a refusal.
type Outcome<T> = Result<T, u64>;
type Clause = BTreeSet<i128>;

const MOST_ID: i128 = 2_147_483_647;

impl ChecksProofs for Deviant {
    fn check(&mut self, entries: usize, words: usize, rules: &[u8], proof: &[u8]) -> (u64, u64) {
        let way = self.0;
        let fits = (1..=1_024).contains(&entries) && (1..=8_192).contains(&words);
        let refuses_sizes = !fits && way != Way::SizesAreNotJudged;
        if refuses_sizes && way != Way::SizesAfterTheRules {
            return (1, 0);
        }
        let mut run = Run::new(way, entries, words);
        let read = dimacs::read(rules);
        if way == Way::RoomBeforeFaultsAtTheEnd && read.is_err() {
            if let Err(code) = run.load(&rules[..rules.len().saturating_sub(2)]) {
                return (code, 0);
            }
        }
        if let Err(fault) = read {
            let first = u64::from(way == Way::PositionsFrom1);
            return match way == Way::RulesFaultsLast && proof.is_empty() {
                true => (38, 0),
                false => (fault.kind.number().into(), fault.position as u64 + first),
            };
        }
        if refuses_sizes {
            return (1, 0);
        }
        if let Err(code) = run.load(rules) {
            return (code, u64::from(way == Way::RoomOfRulesInTheFirstLine));
        }
        if way == Way::EmptyRuleIsEnough && run.held.values().any(Clause::is_empty) {
            return (0, 0);
        }
        run.judge(proof)
    }
}

/// A number: exact up to a bound that no 64 bits reach, and what is left of it in 64 bits.
#[derive(Clone, Copy)]
struct Number {
    value: i128,
    low: u64,
}

impl Number {
    fn in_32_bits(self) -> i128 {
        self.value.signum() * i128::from(self.low as u32)
    }
}

/// A line that adds.
struct Addition {
    id: i128,
    literals: Vec<i128>,
    hints: Vec<i128>,
}

/// What is judged in a line that is no deletion, in the list's order.
#[derive(Clone, Copy, PartialEq)]
enum Check {
    Count,
    Terms,
    Id,
    Hints,
    Room,
    Proof,
}

struct Run {
    way: Way,
    entries: usize,
    words: usize,
    vars: i128,
    rules: i128,
    highest: i128,
    held: BTreeMap<i128, Clause>,
    gone: BTreeMap<i128, Clause>,
}

impl Run {
    fn new(way: Way, entries: usize, words: usize) -> Run {
        let more = |one, other| usize::from(way == one).wrapping_sub(usize::from(way == other));
        Run {
            way,
            entries: entries.wrapping_add(more(Way::EntriesByOneMore, Way::EntriesByOneLess)),
            words: words.wrapping_add(more(Way::WordsByOneMore, Way::WordsByOneLess)),
            vars: 0,
            rules: 0,
            highest: 0,
            held: BTreeMap::new(),
            gone: BTreeMap::new(),
        }
    }

    fn is(&self, way: Way) -> bool {
        self.way == way
    }

    /// The number of a refusal, unless this way lets it pass.
    fn refuse_unless(&self, way: Way, code: u64) -> Outcome<()> {
        match self.is(way) {
            true => Ok(()),
            false => Err(code),
        }
    }

    fn load(&mut self, rules: &[u8]) -> Outcome<()> {
        let Ok((declared, frames)) = dimacs::read(rules) else {
            return Ok(());
        };
        self.vars = declared.vars.into();
        self.rules = declared.clauses as i128;
        for frame in frames.iter() {
            let clause: Clause = frame[2..].iter().map(|&word| word.into()).collect();
            self.has_room(clause.len())?;
            self.highest += 1;
            self.held.insert(self.highest, clause);
        }
        Ok(())
    }

    fn has_room(&self, literals: usize) -> Outcome<()> {
        let words = |clauses: &BTreeMap<i128, Clause>| clauses.values().map(Clause::len).sum();
        let (mut entries, mut used): (usize, usize) = (self.held.len(), words(&self.held));
        if self.is(Way::GoneEntriesAreNotFree) {
            entries += self.gone.len();
        }
        if self.is(Way::GoneWordsAreNotFree) {
            used += words(&self.gone);
        }
        let (no_entry, no_words) = (entries >= self.entries, used + literals > self.words);
        match (no_entry, no_words) {
            (true, true) if self.is(Way::WordsBeforeEntries) => Err(13),
            (true, _) => Err(12),
            (_, true) => Err(13),
            _ => Ok(()),
        }
    }

    fn judge(&mut self, proof: &[u8]) -> (u64, u64) {
        let cr_ends = self.is(Way::CrEndsLines);
        let ends = |byte: &u8| *byte == b'\n' || cr_ends && *byte == b'\r';
        let mut lines: Vec<&[u8]> = proof.split(ends).collect();
        let is_unclosed = lines.last().is_some_and(|line| !line.is_empty());
        if !is_unclosed {
            lines.pop();
        }
        let (mut number, mut additions, mut is_proved) = (0, 0, false);
        for (place, line) in lines.iter().enumerate() {
            let words: Vec<&[u8]> = line
                .split(|&byte| self.is_blank(byte))
                .filter(|word| !word.is_empty())
                .collect();
            number += u64::from(!(words.is_empty() && self.is(Way::EmptyLinesNotCounted)));
            let skips_empty = self.is(Way::EmptyLinesSkipped) || self.is(Way::EmptyLinesNotCounted);
            let is_comment = line.starts_with(b"c") && self.is(Way::CommentsSkipped);
            if is_comment || words.is_empty() && skips_empty {
                continue;
            }
            let is_last = is_unclosed && place + 1 == lines.len();
            let passed = match is_last && self.is(Way::LastLineNeedsLf) {
                true => Err(31),
                false => self.pass(&words),
            };
            match passed {
                Err(code) => return (code, number - u64::from(self.is(Way::LinesFrom0))),
                Ok(Some(0)) if !self.is(Way::LinesBehindTheEndAreRead) => return (0, 0),
                Ok(Some(0)) => is_proved = true,
                Ok(literals) => additions += u64::from(literals.is_some()),
            }
        }
        match self.way {
            _ if is_proved => (0, 0),
            Way::AcceptsWithoutAnEmptyClause => (0, 0),
            Way::EndCountsOneMore => (38, number + 1),
            Way::EndCountsAdditionsAlone => (38, additions),
            _ => (38, number),
        }
    }

    fn is_blank(&self, byte: u8) -> bool {
        match byte {
            b' ' => true,
            b'\t' => !self.is(Way::TabIsNoBlank),
            b'\r' => !self.is(Way::CrIsNoBlank),
            0x0b => self.is(Way::VerticalTabIsBlank),
            0x0c => self.is(Way::FormFeedIsBlank),
            0 => self.is(Way::NulIsBlank),
            _ => false,
        }
    }

    fn number(&self, word: &[u8]) -> Outcome<Number> {
        let mut digits = word;
        let mut sign = 1;
        if let Some(rest) = word.strip_prefix(b"-") {
            (digits, sign) = (rest, -1);
            if self.is(Way::TwoSigns) {
                digits = rest.strip_prefix(b"-").unwrap_or(rest);
            }
        } else if self.is(Way::PlusIsASign) {
            digits = word.strip_prefix(b"+").unwrap_or(word);
        }
        let most = match self.way {
            Way::NineDigits => 9,
            Way::TenDigits => 10,
            Way::TwentyDigits => 20,
            Way::NoLeadingZeros if digits.starts_with(b"0") => 1,
            _ => usize::MAX,
        };
        let is_number = !digits.is_empty() && digits.iter().all(u8::is_ascii_digit);
        if !is_number || digits.len() > most {
            return Err(31);
        }
        let (mut value, mut low) = (0i128, 0u64);
        for digit in digits.iter().map(|digit| digit - b'0') {
            value = (10 * value + i128::from(digit)).min(1 << 100);
            low = low.wrapping_mul(10).wrapping_add(digit.into());
        }
        if sign < 0 && value == 0 && !self.is(Way::MinusZeroIsZero) {
            return Err(31);
        }
        let value = sign * value;
        Ok(Number { value, low })
    }

    /// Tells how many literals were added, if it is no deletion.
    fn pass(&mut self, words: &[&[u8]]) -> Outcome<Option<usize>> {
        let is_d = |word: &&[u8]| *word == b"d" || self.is(Way::CapitalD) && *word == b"D";
        let place = words.iter().position(is_d);
        match place {
            Some(0) if self.is(Way::DBeginsTheLine) => self.delete(&words[1..])?,
            Some(1) => {
                self.judge_first(words[0])?;
                self.delete(&words[2..])?;
            }
            Some(place) if self.is(Way::DAnywhere) => self.delete(&words[place + 1..])?,
            _ => return self.add(words).map(Some),
        }
        Ok(None)
    }

    /// A deletion's own first id.
    fn judge_first(&mut self, word: &[u8]) -> Outcome<()> {
        let first = match self.number(word) {
            Err(_) if self.is(Way::FirstIdOfDeletionIsNoNumber) => return Ok(()),
            first => first?.value,
        };
        match self.way {
            Way::FirstIdOfDeletionIsPositive if first <= 0 => Err(31),
            Way::FirstIdOfDeletionFits if first.abs() > MOST_ID => Err(31),
            Way::FirstIdOfDeletionRises if first < self.highest => Err(34),
            Way::DeletionsRaiseTheHighest => {
                self.highest = self.highest.max(first.min(MOST_ID));
                Ok(())
            }
            _ => Ok(()),
        }
    }

    /// The numbers up to a 0, and the words behind it.
    fn to_zero<'w, 't>(&self, words: &'w [&'t [u8]]) -> Outcome<(Vec<Number>, &'w [&'t [u8]])> {
        let mut numbers = Vec::new();
        for (place, word) in words.iter().enumerate() {
            match self.number(word)? {
                Number { value: 0, .. } => return Ok((numbers, &words[place + 1..])),
                number => numbers.push(number),
            }
        }
        self.refuse_unless(Way::LastZeroMayMiss, 31)?;
        Ok((numbers, &[]))
    }

    fn end(&self, rest: &[&[u8]]) -> Outcome<()> {
        match rest.is_empty() {
            true => Ok(()),
            false => self.refuse_unless(Way::WordsBehindTheEndPass, 31),
        }
    }

    fn delete(&mut self, words: &[&[u8]]) -> Outcome<()> {
        if self.is(Way::DeletionsOfALineAreCheckedFirst) {
            let unheld = |id: i128| id > 0 && !self.held.contains_key(&id);
            let mut numbers = words.iter().filter_map(|word| self.number(word).ok());
            if numbers.any(|number| unheld(number.value)) {
                return Err(35);
            }
        }
        let (mut numbers, mut rest) = self.to_zero(words)?;
        while self.is(Way::ZeroInADeletionIsSkipped) && !rest.is_empty() {
            let more;
            (more, rest) = self.to_zero(rest)?;
            numbers.extend(more);
        }
        self.end(rest)?;
        if numbers.is_empty() && self.is(Way::EmptyDeletionIsMalformed) {
            return Err(31);
        }
        if numbers.iter().any(|number| number.value < 0) {
            return Err(if self.is(Way::NegativeDeletedIdIsNotHeld) {
                35
            } else {
                31
            });
        }
        let mut ids: Vec<i128> = numbers.iter().map(|number| number.value).collect();
        if self.is(Way::DeletedIdsWrapAt32Bits) {
            ids = numbers.iter().map(|number| number.in_32_bits()).collect();
        }
        if self.is(Way::DeletedIdTwiceIsOnce) {
            ids = ids.into_iter().collect::<Clause>().into_iter().collect();
        }
        ids.into_iter().try_for_each(|id| self.delete_one(id))
    }

    fn delete_one(&mut self, id: i128) -> Outcome<()> {
        if self.is(Way::RulesAreNotDeleted) && id <= self.rules {
            return Err(35);
        }
        let Some(clause) = self.held.remove(&id) else {
            return self.refuse_unless(Way::UnheldDeletionPasses, 35);
        };
        match self.is(Way::DeletionKeepsTheClause) {
            true => self.held.insert(id, clause),
            false => self.gone.insert(id, clause),
        };
        Ok(())
    }

    fn add(&mut self, words: &[&[u8]]) -> Outcome<usize> {
        let addition = self.read_addition(words)?;
        for check in self.checks() {
            self.judge_addition(check, &addition)?;
        }
        self.highest = self.highest.max(addition.id);
        let clause = addition.literals.iter().copied().collect();
        self.held.insert(addition.id, clause);
        Ok(addition.literals.len())
    }

    fn read_addition(&self, words: &[&[u8]]) -> Outcome<Addition> {
        let id = self.number(words.first().ok_or(31u64)?)?;
        let (literals, rest) = self.to_zero(&words[1..])?;
        let no_more = rest.is_empty() && self.is(Way::NoHintsNeedNoZero);
        let (hints, rest) = if no_more {
            (Vec::new(), rest)
        } else {
            self.to_zero(rest)?
        };
        self.end(rest)?;
        let id = match self.is(Way::IdsWrapAt32Bits) {
            true => id.in_32_bits(),
            false => id.value,
        };
        self.judge_id(id)?;
        let wrapped = |number: &Number, bits: u32| match number.low & ((1 << bits) - 1) {
            0 => number.value,
            low => number.value.signum() * i128::from(low),
        };
        let literal = |number: &Number| match self.way {
            Way::LiteralsWrapAt16Bits => wrapped(number, 16),
            Way::LiteralsWrapAt32Bits => wrapped(number, 32),
            _ => number.value,
        };
        let hint = |number: &Number| match self.way {
            Way::HintsWrapAt32Bits => number.in_32_bits(),
            Way::HintsWrapAt64Bits => number.value.signum() * i128::from(number.low),
            Way::NegativeHintIsItsClause => number.value.abs(),
            _ => number.value,
        };
        let hints: Vec<i128> = hints.iter().map(hint).collect();
        if self.is(Way::NegativeHintIsMalformed) && hints.iter().any(|&hint| hint < 0) {
            return Err(31);
        }
        Ok(Addition {
            id,
            literals: literals.iter().map(literal).collect(),
            hints,
        })
    }

    /// Whether a clause can have the id.
    fn judge_id(&self, id: i128) -> Outcome<()> {
        match id {
            0 => self.refuse_unless(Way::IdZeroIsNotAbove, 31),
            ..0 => self.refuse_unless(Way::NegativeIdIsNotAbove, 31),
            MOST_ID if self.is(Way::GreatestIdIsMalformed) => Err(31),
            1..=MOST_ID => Ok(()),
            _ => self.refuse_unless(Way::HugeIdsPass, 31),
        }
    }

    fn checks(&self) -> [Check; 6] {
        use Check::*;
        match self.way {
            Way::TermsBeforeCount => [Terms, Count, Id, Hints, Room, Proof],
            Way::IdsBeforeTerms => [Count, Id, Terms, Hints, Room, Proof],
            Way::HintsBeforeIds => [Count, Terms, Hints, Id, Room, Proof],
            Way::RoomBeforeIds => [Count, Terms, Room, Id, Hints, Proof],
            Way::RoomBeforeNegativeHints => [Count, Terms, Id, Room, Hints, Proof],
            Way::RoomAfterTheProof => [Count, Terms, Id, Hints, Proof, Room],
            _ => [Count, Terms, Id, Hints, Room, Proof],
        }
    }

    fn judge_addition(&self, check: Check, addition: &Addition) -> Outcome<()> {
        match check {
            Check::Count => self.judge_count(&addition.literals),
            Check::Terms => self.judge_terms(&addition.literals),
            Check::Id => self.judge_order(addition.id),
            Check::Hints => self.judge_hints(&addition.hints),
            Check::Room
                if addition.literals.is_empty() && self.is(Way::EmptyClauseNeedsNoEntry) =>
            {
                Ok(())
            }
            Check::Room => self.has_room(addition.literals.len()),
            Check::Proof => self.prove(addition),
        }
    }

    fn judge_count(&self, literals: &[i128]) -> Outcome<()> {
        let most = self.vars - i128::from(self.is(Way::LiteralAtCountIsPast));
        match literals.iter().any(|literal| literal.abs() > most) {
            true if self.is(Way::PastCountIsMalformed) => Err(31),
            true => Err(32),
            false => Ok(()),
        }
    }

    fn judge_terms(&self, literals: &[i128]) -> Outcome<()> {
        let most = match self.way {
            Way::LongClausesPass => usize::MAX,
            Way::ShorterClausesAlone => 255,
            _ => 256,
        };
        let set: Clause = literals.iter().copied().collect();
        let is_twice = set.len() < literals.len() && !self.is(Way::SameLiteralTwicePasses);
        let passes_opposites = self.is(Way::OppositesPass) || self.is(Way::OppositesAreProved);
        let opposes = set.iter().any(|literal| set.contains(&-literal)) && !passes_opposites;
        match literals.len() > most || is_twice || opposes {
            true => Err(33),
            false => Ok(()),
        }
    }

    fn judge_order(&self, id: i128) -> Outcome<()> {
        let is_above = match self.way {
            Way::IdAboveRulesAlone => id > self.rules,
            Way::IdNotHeldPasses => !self.held.contains_key(&id),
            Way::IdEqualPasses => id >= self.highest,
            Way::IdsFollowEachOther => id == self.highest + 1,
            _ => id > self.highest,
        };
        match is_above {
            true => Ok(()),
            false => Err(34),
        }
    }

    fn judge_hints(&self, hints: &[i128]) -> Outcome<()> {
        match (hints.iter().any(|&hint| hint < 0), self.way) {
            (false, _) | (_, Way::NegativeHintIfRead) => Ok(()),
            (_, Way::NegativeHintFails) => Err(37),
            _ => Err(36),
        }
    }

    fn prove(&self, addition: &Addition) -> Outcome<()> {
        let mut truths: Clause = addition.literals.iter().map(|literal| -literal).collect();
        let opposes = truths.iter().any(|literal| truths.contains(&-literal));
        if opposes && self.is(Way::OppositesAreProved) {
            return Ok(());
        }
        let rounds = match self.is(Way::HintsInAnyOrder) {
            true => addition.hints.len(),
            false => 1,
        };
        let mut is_proved = false;
        for _ in 0..rounds {
            for &hint in &addition.hints {
                is_proved |= self.read_hint(hint, addition, &mut truths)?;
                if is_proved && !self.is(Way::HintsBehindTheConflictAreRead) {
                    return Ok(());
                }
            }
        }
        match is_proved {
            true => Ok(()),
            false => self.refuse_unless(Way::HintsUsedUpPasses, 37),
        }
    }

    /// Whether the clause of the hint is all false.
    fn read_hint(&self, hint: i128, addition: &Addition, truths: &mut Clause) -> Outcome<bool> {
        if hint < 0 {
            return Err(36);
        }
        let skipped = |way| match self.is(way) || self.is(Way::HintsInAnyOrder) {
            true => Ok(false),
            false => Err(37),
        };
        let Some(clause) = self.find(hint, addition) else {
            return self
                .refuse_unless(Way::UnheldHintIsSkipped, 37)
                .map(|()| false);
        };
        if !clause.is_disjoint(truths) {
            return skipped(Way::TrueHintIsSkipped);
        }
        let mut open = clause.iter().filter(|&literal| !truths.contains(&-literal));
        match (open.next(), open.next()) {
            (None, _) => Ok(true),
            (Some(&literal), None) => {
                truths.insert(literal);
                Ok(false)
            }
            _ => skipped(Way::OpenHintIsSkipped),
        }
    }

    fn find(&self, id: i128, addition: &Addition) -> Option<Clause> {
        match self.held.get(&id) {
            None if self.is(Way::GoneHintsStay) => self.gone.get(&id).cloned(),
            None if self.is(Way::OwnIdIsAHint) && id == addition.id => {
                Some(addition.literals.iter().copied().collect())
            }
            held => held.cloned(),
        }
    }
}
