//! The program of 01 section 5 on 000: one packed job, and the text of its answer.

use crate::stage::Job;

const MOST_VERTICES: usize = 512;

/// The answer to a packed job, as `rawoffset` prints it.
pub fn answer(bytes: &[u8]) -> String {
    let Some(job) = decode(bytes) else {
        return "7 0\n".to_owned();
    };
    let outcome = job.run(crate::job);
    let [number, place, count, _, is_closed] = outcome.answer;
    if number != 0 {
        return format!("{number} {place}\n");
    }
    let count = count as usize;
    let mut text = format!(
        "0 {count} {}\n",
        if is_closed == 1 { "closed" } else { "open" }
    );
    for (i, vertex) in outcome.vertices.chunks(3).take(count).enumerate() {
        for bits in vertex {
            text += &format!("{bits:016x} ");
        }
        text += if is_closed == 0 && i + 1 == count {
            "-\n"
        } else if outcome.flags[i] == 1 {
            "!\n"
        } else {
            ".\n"
        };
    }
    text
}

/// The closed mark, then numbers: offset, ε, three a vertex. `None` where the size is wrong, a zero
/// bit is set or there are too many vertices.
fn decode(bytes: &[u8]) -> Option<Job> {
    let (header, rest) = bytes.split_first_chunk()?;
    let header = u16::from_be_bytes(*header);
    let v = usize::from(header & 0xfff);
    if header & 0x7000 != 0 || v > MOST_VERTICES || rest.len() != 16 + 24 * v {
        return None;
    }
    let (words, _) = rest.as_chunks();
    let mut numbers = words.iter().map(|word| f64::from_be_bytes(*word));
    let (offset, eps) = (numbers.next()?, numbers.next()?);
    let closed = header & 0x8000 != 0;
    Some(Job::new(closed, offset, eps, numbers.collect()))
}
