//! One call of the line input, held to what it must answer and leave.

use super::buffers::{Buffers, Given, Reader};
use super::calls::Calls;
use super::giving::{expect_end, expect_give, Fed};
use super::judging::{differs, tell_tables, wrong_numbers, wrong_tables, Difference};
use super::tables::Tables;

/// Gives a part of the input; tables and buffers are left as the call left them.
pub fn judge_give(
    calls: &mut dyn Calls,
    tables: &mut Tables,
    buffers: &mut Buffers,
    part: &[u8],
) -> Result<Fed, Difference> {
    let (before, lent) = (tables.clone(), buffers.clone());
    let expected = expect_give(&before, &lent, part);
    let (numbers, given) = calls.give(tables, buffers, part);
    let fault = wrong_numbers((expected.code, 0), numbers)
        .or_else(|| wrong_given(&expected, given))
        .or_else(|| wrong_out(&expected.answers, &lent.out, &buffers.out))
        .or_else(|| wrong_tables(&expected.state, &before, tables))
        .or_else(|| wrong_line(&expected.line, &lent, buffers));
    differs(fault, || {
        let (part, lent) = (tell_part(part), tell_buffers(&lent));
        format!("give {part}, {lent}, {}", tell_tables(&before))
    })?;
    Ok(expected)
}

/// Ends the input; the code that it must get.
pub fn judge_end(
    calls: &mut dyn Calls,
    reader: &Reader,
    out: &mut [u8],
) -> Result<u32, Difference> {
    let before = out.to_vec();
    let (code, answer) = expect_end(reader, before.len());
    let (numbers, written) = calls.end(reader, out);
    let right = answer.len() as u64;
    let wrong_count = (written != right).then(|| format!("{written} bytes instead of {right}"));
    let fault = wrong_numbers((code, 0), numbers)
        .or(wrong_count)
        .or_else(|| wrong_out(&answer, &before, out));
    differs(fault, || {
        format!("end, {reader:?}, out buffer of {} bytes", before.len())
    })?;
    Ok(code)
}

fn wrong_given(expected: &Fed, found: Given) -> Option<String> {
    let given = Given {
        taken: expected.taken as u64,
        written: expected.answers.len() as u64,
    };
    (found != given).then(|| format!("{found:?} instead of {given:?}"))
}

/// The answers, and behind them what was there before.
fn wrong_out(answers: &[u8], before: &[u8], after: &[u8]) -> Option<String> {
    let (written, behind) = after.split_at(answers.len());
    if written != answers {
        return Some("other bytes for answers".to_string());
    }
    let stays = behind == &before[answers.len()..];
    (!stays).then(|| "a byte behind the answers changed".to_string())
}

/// Reader and frame buffer are judged by the line that they hold, else by every word.
fn wrong_line(expected: &Option<Vec<u8>>, before: &Buffers, after: &Buffers) -> Option<String> {
    let fault = match expected {
        None => {
            let stays = (before.reader, &before.frame) == (after.reader, &after.frame);
            (!stays).then_some("a word of reader or frame buffer changed")
        }
        Some(_) if after.reader.spoilt > 1 => Some("the reader is left spoilt by another number"),
        Some(line) => {
            (after.line().as_ref() != Some(line)).then_some("another line is left as begun")
        }
    };
    fault.map(|fault| format!("{fault}: {:?}", after.reader))
}

fn tell_part(part: &[u8]) -> String {
    const MOST: usize = 400;
    let shown = part[..part.len().min(MOST)].escape_ascii();
    let cut = if part.len() > MOST { ".." } else { "" };
    format!("\"{shown}{cut}\" [{} bytes]", part.len())
}

fn tell_buffers(buffers: &Buffers) -> String {
    format!(
        "{:?}, frame buffer of {} words, out buffer of {} bytes",
        buffers.reader,
        buffers.frame.len(),
        buffers.out.len()
    )
}
