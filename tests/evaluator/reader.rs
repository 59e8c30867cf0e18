//! "A question is one record of kind 14": bytes to a tree, with refusals 21, 22 and 23.

use super::budget::Stop;
use super::tables::{first_record, four_signed_bytes, two_bytes, Record};
use super::terms::{Comprehension, Monoid, Name, Operation, Qualifier, Term};

/// "22: a record that breaks the byte rules, none at all, or bytes left over".
const BYTES: Stop = Stop::Refused(22);

/// Reads the question. "21; 22 and 23 in reading order, 23 first at one record".
pub fn read_question(question: &[u8]) -> Result<Comprehension, Stop> {
    if question.len() > 4096 {
        return Err(Stop::Refused(21));
    }
    let mut reader = Reader { records: 0 };
    let record = reader.open(question, 1)?;
    if record.kind != 14 {
        return Err(BYTES);
    }
    let read = reader.comprehension(record.content, 1)?;
    filled(record.rest)?;
    Ok(read)
}

/// "must be filled exactly": nothing may be left behind the last part.
fn filled(left: &[u8]) -> Result<(), Stop> {
    if left.is_empty() {
        Ok(())
    } else {
        Err(BYTES)
    }
}

/// The content's one byte.
fn only_byte(content: &[u8]) -> Result<u8, Stop> {
    match content {
        [byte] => Ok(*byte),
        _ => Err(BYTES),
    }
}

/// "name (2 bytes, 0 to 255)", and what stands behind it.
fn name_first(content: &[u8]) -> Result<(Name, &[u8]), Stop> {
    let name = two_bytes(content, 0)
        .filter(|name| *name <= 255)
        .ok_or(BYTES)?;
    Ok((Name::from(name), content.get(2..).ok_or(BYTES)?))
}

struct Reader {
    /// Records met so far, this one included.
    records: usize,
}

impl Reader {
    /// Opens the record at the front. "23: a 33rd level (the question is level 1) or a 257th
    /// record", before the record's own bytes are judged; no byte at all is no record.
    fn open<'a>(&mut self, bytes: &'a [u8], level: usize) -> Result<Record<'a>, Stop> {
        if bytes.is_empty() {
            return Err(BYTES);
        }
        self.records = self.records.saturating_add(1);
        if level > 32 || self.records > 256 {
            return Err(Stop::Refused(23));
        }
        first_record(bytes).ok_or(BYTES)
    }

    /// "Kind 14 is one byte of monoid, any count of qualifiers, then one head term." The level
    /// is that of the comprehension itself.
    fn comprehension(&mut self, content: &[u8], level: usize) -> Result<Comprehension, Stop> {
        let (byte, mut left) = content.split_first().ok_or(BYTES)?;
        let monoid = Monoid::of_byte(*byte).ok_or(BYTES)?;
        let below = level.saturating_add(1);
        let mut qualifiers = Vec::new();
        loop {
            let record = self.open(left, below)?;
            if matches!(record.kind, 16..=18) {
                qualifiers.push(self.qualifier(&record, below)?);
                left = record.rest;
            } else {
                let head = self.term_of(&record, below)?;
                filled(record.rest)?;
                return Ok(Comprehension {
                    monoid,
                    qualifiers,
                    head,
                });
            }
        }
    }

    /// "Qualifiers: 16 generator (2-byte name, term), 17 binding (2-byte name, term), 18
    /// condition (term)."
    fn qualifier(&mut self, record: &Record<'_>, level: usize) -> Result<Qualifier, Stop> {
        if record.kind == 18 {
            return Ok(Qualifier::Condition(self.only_term(record.content, level)?));
        }
        let (name, left) = name_first(record.content)?;
        let term = self.only_term(left, level)?;
        if record.kind == 16 {
            Ok(Qualifier::Generator(name, term))
        } else {
            Ok(Qualifier::Binding(name, term))
        }
    }

    /// One term that fills the rest of its parent's content.
    fn only_term(&mut self, content: &[u8], parent_level: usize) -> Result<Term, Stop> {
        let (term, left) = self.next_term(content, parent_level)?;
        filled(left)?;
        Ok(term)
    }

    /// The term at the front of its parent's content, and what stands behind it.
    fn next_term<'a>(
        &mut self,
        content: &'a [u8],
        parent_level: usize,
    ) -> Result<(Term, &'a [u8]), Stop> {
        let level = parent_level.saturating_add(1);
        let record = self.open(content, level)?;
        let term = self.term_of(&record, level)?;
        Ok((term, record.rest))
    }

    /// The kinds of terms.
    fn term_of(&mut self, record: &Record<'_>, level: usize) -> Result<Term, Stop> {
        let content = record.content;
        if let Some(operation) = Operation::of_kind(record.kind) {
            return self.two_terms(operation, content, level);
        }
        match record.kind {
            1 => Ok(Term::Number(four_signed_bytes(content).ok_or(BYTES)?)),
            2 => read_truth(content),
            3 => read_name(content),
            4 => self.field(content, level),
            5 => self.record(content, level),
            13 => Ok(Term::Not(Box::new(self.only_term(content, level)?))),
            14 => Ok(Term::Comprehension(Box::new(
                self.comprehension(content, level)?,
            ))),
            15 => Ok(Term::Table(only_byte(content)?)),
            19 => self.choice(content, level),
            21 => self.open_minute(content, level),
            _ => Err(BYTES),
        }
    }

    /// "4 field (one byte of index from 0, one term)".
    fn field(&mut self, content: &[u8], level: usize) -> Result<Term, Stop> {
        let (index, left) = content.split_first().ok_or(BYTES)?;
        Ok(Term::Field(*index, Box::new(self.only_term(left, level)?)))
    }

    /// "5 record (1 to 8 terms)".
    fn record(&mut self, content: &[u8], level: usize) -> Result<Term, Stop> {
        let (first, mut left) = self.next_term(content, level)?;
        let mut fields = vec![first];
        while !left.is_empty() && fields.len() < 8 {
            let (field, behind) = self.next_term(left, level)?;
            fields.push(field);
            left = behind;
        }
        filled(left)?;
        Ok(Term::Record(fields))
    }

    fn two_terms(
        &mut self,
        operation: Operation,
        content: &[u8],
        level: usize,
    ) -> Result<Term, Stop> {
        let (left, behind) = self.next_term(content, level)?;
        let right = self.only_term(behind, level)?;
        Ok(Term::Binary(operation, Box::new(left), Box::new(right)))
    }

    /// E4: "Kind 21 holds one byte of calendar and one number term"; any byte, like a table's number.
    fn open_minute(&mut self, content: &[u8], level: usize) -> Result<Term, Stop> {
        let (calendar, left) = content.split_first().ok_or(BYTES)?;
        let minute = Box::new(self.only_term(left, level)?);
        Ok(Term::Open(*calendar, minute))
    }

    /// E2: "kind 19, three terms".
    fn choice(&mut self, content: &[u8], level: usize) -> Result<Term, Stop> {
        let (truth, behind) = self.next_term(content, level)?;
        let (first, behind) = self.next_term(behind, level)?;
        let second = self.only_term(behind, level)?;
        Ok(Term::Choice(
            Box::new(truth),
            Box::new(first),
            Box::new(second),
        ))
    }
}

/// "2 truth (one byte, 0 or 1)".
fn read_truth(content: &[u8]) -> Result<Term, Stop> {
    match only_byte(content)? {
        0 => Ok(Term::Truth(false)),
        1 => Ok(Term::Truth(true)),
        _ => Err(BYTES),
    }
}

/// "3 name (2 bytes, 0 to 255)".
fn read_name(content: &[u8]) -> Result<Term, Stop> {
    let (name, left) = name_first(content)?;
    filled(left)?;
    Ok(Term::Name(name))
}
