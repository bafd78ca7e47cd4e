//! Capture records of the old and the new form, and a capture of one form written in the other (01 "Replay", 02 §5).

/// A record's bytes in the old form, and the most that it carries.
pub const RECORD: usize = 8;
pub const CARRIED: usize = 6;
/// The same in the new form.
pub const NEW_RECORD: usize = 16;
pub const NEW_CARRIED: usize = 8;

pub const GAP: u8 = 0x00;
pub const BYTES: u8 = 0x01;

/// The seat whose records a replay plays.
pub const PLAYED_SEAT: u8 = 0;
const LAST_SEAT: u8 = 1;

#[derive(Clone, Copy, Debug, PartialEq, Eq)]
pub enum Form {
    Old,
    New,
}

impl Form {
    pub const BOTH: [Form; 2] = [Form::Old, Form::New];

    /// A record's bytes.
    pub const fn record(self) -> usize {
        match self {
            Form::Old => RECORD,
            Form::New => NEW_RECORD,
        }
    }

    /// The most bytes that one record carries.
    pub const fn carried(self) -> usize {
        match self {
            Form::Old => CARRIED,
            Form::New => NEW_CARRIED,
        }
    }

    pub const fn other(self) -> Form {
        match self {
            Form::Old => Form::New,
            Form::New => Form::Old,
        }
    }

    pub const fn name(self) -> &'static str {
        match self {
            Form::Old => "old",
            Form::New => "new",
        }
    }
}

/// A record judged good. One of the old form has seat 0 and tick 0.
#[derive(Clone, Copy, Debug, PartialEq, Eq)]
pub struct Record {
    pub seat: u8,
    pub tick: u32,
    /// None of a gap; else the bytes carried, as many as the count says, and then 00h.
    pub carried: Option<Carried>,
}

#[derive(Clone, Copy, Debug, PartialEq, Eq)]
pub struct Carried {
    pub bytes: [u8; NEW_CARRIED],
    pub count: usize,
}

impl Carried {
    pub fn bytes(&self) -> &[u8] {
        &self.bytes[..self.count]
    }
}

/// A record is judged whole before anything is done with it; a short one is bad, and so is a longer one.
pub fn judge_record(form: Form, record: &[u8]) -> Option<Record> {
    match form {
        Form::Old => {
            let &[kind, count, ref data @ ..] = <&[u8; RECORD]>::try_from(record).ok()?;
            let mut bytes = [0x00; NEW_CARRIED];
            bytes[..CARRIED].copy_from_slice(data);
            Some(Record {
                seat: 0,
                tick: 0,
                carried: judge_carried(kind, count, bytes, CARRIED)?,
            })
        }
        Form::New => {
            let &[kind, count, seat, reserved, t0, t1, t2, t3, ref data @ ..] =
                <&[u8; NEW_RECORD]>::try_from(record).ok()?;
            if seat > LAST_SEAT || reserved != 0x00 {
                return None;
            }
            Some(Record {
                seat,
                tick: u32::from_le_bytes([t0, t1, t2, t3]),
                carried: judge_carried(kind, count, *data, NEW_CARRIED)?,
            })
        }
    }
}

/// What a record of this kind and count carries, a gap nothing; None where it is bad.
fn judge_carried(
    kind: u8,
    count: u8,
    bytes: [u8; NEW_CARRIED],
    most: usize,
) -> Option<Option<Carried>> {
    let count = usize::from(count);
    let carried = match kind {
        GAP if count == 0 => None,
        BYTES if (1..=most).contains(&count) => Some(Carried { bytes, count }),
        _ => return None,
    };
    let unused_are_clear = bytes[count..].iter().all(|byte| *byte == 0x00);
    unused_are_clear.then_some(carried)
}

impl Record {
    /// A record that carries these bytes, one to eight, or a gap where there are none.
    pub fn carrying(seat: u8, tick: u32, carried: &[u8]) -> Record {
        let mut bytes = [0x00; NEW_CARRIED];
        bytes[..carried.len()].copy_from_slice(carried);
        let count = carried.len();
        Record {
            seat,
            tick,
            carried: (count > 0).then_some(Carried { bytes, count }),
        }
    }

    /// Whether the form can hold it: "where the seat is 0, the tick 0 and the count at most 6".
    pub fn is_held_by(&self, form: Form) -> bool {
        let count = self.carried.map_or(0, |carried| carried.count);
        form == Form::New || self.seat == 0 && self.tick == 0 && count <= CARRIED
    }

    /// Its bytes in a form that can hold it, which are as many as the form's records have.
    pub fn write(&self, form: Form, output: &mut [u8]) {
        let (kind, count, bytes) = match &self.carried {
            None => (GAP, 0, [0x00; NEW_CARRIED]),
            Some(carried) => (BYTES, carried.count as u8, carried.bytes),
        };
        output[..2].copy_from_slice(&[kind, count]);
        match form {
            Form::Old => output[2..].copy_from_slice(&bytes[..CARRIED]),
            Form::New => {
                output[2..4].copy_from_slice(&[self.seat, 0x00]);
                output[4..8].copy_from_slice(&self.tick.to_le_bytes());
                output[8..].copy_from_slice(&bytes);
            }
        }
    }

    pub fn written(&self, form: Form) -> Vec<u8> {
        let mut bytes = vec![0x00; form.record()];
        self.write(form, &mut bytes);
        bytes
    }
}

/// The record of the old form that carries these bytes, one to six.
pub fn bytes_record(carried: &[u8]) -> [u8; RECORD] {
    let mut record = [0x00; RECORD];
    Record::carrying(0, 0, carried).write(Form::Old, &mut record);
    record
}

/// Why a conversion is refused, with the number of the record, counted from 0.
#[derive(Clone, Copy, Debug, PartialEq, Eq)]
pub enum Refusal {
    Bad(u64),
    NotHeld(u64),
    ShortOutput,
}

impl Refusal {
    pub fn number(self) -> u32 {
        match self {
            Refusal::Bad(_) => 10,
            Refusal::NotHeld(_) => 11,
            Refusal::ShortOutput => 12,
        }
    }

    pub fn record(self) -> Option<u64> {
        match self {
            Refusal::Bad(record) | Refusal::NotHeld(record) => Some(record),
            Refusal::ShortOutput => None,
        }
    }
}

/// A capture of this form written in the other at the start of the output; how many bytes that were. The first bad record of all comes before the first that
/// cannot be held, and both before the room; whatever is refused, nothing is written.
pub fn convert(from: Form, capture: &[u8], output: &mut [u8]) -> Result<usize, Refusal> {
    let to = from.other();
    let mut not_held = None;
    for (number, bytes) in capture.chunks(from.record()).enumerate() {
        let number = number as u64;
        let record = judge_record(from, bytes).ok_or(Refusal::Bad(number))?;
        if not_held.is_none() && !record.is_held_by(to) {
            not_held = Some(number);
        }
    }
    if let Some(number) = not_held {
        return Err(Refusal::NotHeld(number));
    }
    let needed = capture.len() / from.record() * to.record();
    let output = output.get_mut(..needed).ok_or(Refusal::ShortOutput)?;
    let records = capture.chunks_exact(from.record());
    for (bytes, written) in records.zip(output.chunks_exact_mut(to.record())) {
        let record = judge_record(from, bytes).expect("all records were judged above");
        record.write(to, written);
    }
    Ok(needed)
}

/// The same into as much room as it takes.
pub fn converted(from: Form, capture: &[u8]) -> Result<Vec<u8>, Refusal> {
    let to = from.other();
    let mut output = vec![0x00; capture.len() / from.record() * to.record()];
    convert(from, capture, &mut output)?;
    Ok(output)
}
