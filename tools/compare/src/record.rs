//! The records of the fixed lists: a header of 36 bytes, the texts, the output.

use crate::call::{Call, Question, Reply};
use crate::oracle::Answer;

const HEADER: usize = 36;

pub struct Record {
    pub call: Call,
    pub text: Vec<u8>,
    pub second: Vec<u8>,
    pub room: usize,
    pub want: Answer,
}

impl Record {
    /// The answer to the question with `room` bytes lent.
    pub fn new(question: Question, room: usize, answer: &Answer) -> Record {
        Record {
            call: question.call,
            text: question.text.to_vec(),
            second: question.second.to_vec(),
            room,
            want: answer.within(room),
        }
    }

    pub fn question(&self) -> Question<'_> {
        Question { call: self.call, text: &self.text, second: &self.second }
    }

    pub fn write(&self, to: &mut Vec<u8>) {
        let (first, second, position) = numbers(self.call);
        let reply = &self.want.reply;
        to.extend([self.call.number() as u8, byte(first), byte(second), byte(reply.code)]);
        to.extend(pair(self.text.len() as u64));
        to.extend(pair(self.second.len() as u64));
        to.extend(pair(self.room as u64));
        to.extend(pair(reply.length));
        to.extend(pair(reply.body));
        to.extend([byte(reply.tone), byte(reply.khin)]);
        to.extend(pair(reply.position));
        to.extend(pair(self.want.out.len() as u64));
        to.extend(position.to_le_bytes());
        to.extend(reply.count.to_le_bytes());
        to.extend(&self.text);
        to.extend(&self.second);
        to.extend(&self.want.out);
    }

    /// The record at the front of `from`, and what follows it.
    pub fn read(from: &[u8]) -> Option<(Record, &[u8])> {
        let (head, rest) = (from.get(..HEADER)?, &from[HEADER..]);
        let small = |at: usize| u16::from_le_bytes([head[at], head[at + 1]]) as usize;
        let large = |at: usize| u64::from_le_bytes(head[at..at + 8].try_into().unwrap());
        let call = call(head[0], head[1] as u64, head[2] as u64, large(20))?;
        let reply = Reply {
            code: head[3] as u64,
            length: small(10) as u64,
            count: large(28),
            body: small(12) as u64,
            tone: head[14] as u64,
            khin: head[15] as u64,
            position: small(16) as u64,
        };
        let (text, rest) = (rest.get(..small(4))?, &rest[small(4)..]);
        let (second, rest) = (rest.get(..small(6))?, &rest[small(6)..]);
        let (out, rest) = (rest.get(..small(18))?, &rest[small(18)..]);
        let want = Answer { reply, out: out.to_vec(), chance: false };
        let record = Record { call, text: text.to_vec(), second: second.to_vec(), room: small(8), want };
        Some((record, rest))
    }
}

/// The first and the second argument and the asked position, 0 where a call has none.
fn numbers(call: Call) -> (u64, u64, u64) {
    match call {
        Call::Keys { form, kind } => (form, kind, 0),
        Call::Compose { tone, khin } => (tone, khin, 0),
        Call::Candidate { position } => (0, 0, position),
        Call::Keying { kind, position } => (kind, 0, position),
        Call::Telex { key, mode } => (mode, key, 0),
        _ => (0, 0, 0),
    }
}

fn call(number: u8, first: u64, second: u64, position: u64) -> Option<Call> {
    Some(match number {
        0 => Call::Strip,
        1 => Call::ToneLetter,
        2 => Call::Nfd,
        3 => Call::Nfc,
        4 => Call::StripKhin,
        5 => Call::HasToneLetter,
        6 => Call::Keys { form: first, kind: second },
        7 => Call::FromRaw,
        8 => Call::Compose { tone: first, khin: second },
        9 => Call::Candidate { position },
        10 => Call::Keying { kind: first, position },
        11 => Call::Telex { key: second, mode: first },
        12 => Call::Align,
        _ => return None,
    })
}

fn byte(number: u64) -> u8 {
    number.try_into().expect("fits one byte")
}

fn pair(number: u64) -> [u8; 2] {
    u16::try_from(number).expect("fits two bytes").to_le_bytes()
}

#[cfg(test)]
mod tests {
    use super::*;

    fn calls() -> Vec<Call> {
        vec![
            Call::Strip,
            Call::ToneLetter,
            Call::Nfd,
            Call::Nfc,
            Call::StripKhin,
            Call::HasToneLetter,
            Call::Keys { form: 1, kind: 2 },
            Call::FromRaw,
            Call::Compose { tone: 8, khin: 1 },
            Call::Candidate { position: u64::MAX },
            Call::Keying { kind: 2, position: 1 << 32 },
            Call::Telex { key: 0x7E, mode: 1 },
            Call::Align,
        ]
    }

    #[test]
    fn a_record_is_read_as_it_was_written() {
        for (number, call) in calls().into_iter().enumerate() {
            assert_eq!(call.number(), number);
            let reply =
                Reply { code: 0, length: 3, count: 1 << 32, body: 2, tone: 9, khin: 1, position: 258 };
            let answer = Answer { reply, out: b"out".to_vec(), chance: false };
            let mut bytes = Vec::new();
            Record::new(Question { call, text: b"text", second: b"second" }, 300, &answer).write(&mut bytes);
            bytes.extend(b"next");
            let (record, rest) = Record::read(&bytes).unwrap();
            assert_eq!((record.call, record.room, rest), (call, 300, &b"next"[..]));
            assert_eq!((&record.text[..], &record.second[..]), (&b"text"[..], &b"second"[..]));
            assert_eq!(record.want, answer);
        }
    }

    #[test]
    fn the_header_is_as_the_readme_says() {
        let call = Call::Keying { kind: 2, position: 0x0807_0605_0403_0201 };
        let reply = Reply { length: 1, count: 0x1817_1615_1413_1211, ..Reply::default() };
        let answer = Answer { reply, out: b"x".to_vec(), chance: false };
        let mut bytes = Vec::new();
        Record::new(call.of(b"ab"), 0x0304, &answer).write(&mut bytes);
        let head = [10, 2, 0, 0, 2, 0, 0, 0, 4, 3, 1, 0, 0, 0, 0, 0, 0, 0, 1, 0];
        assert_eq!(bytes[..20], head);
        assert_eq!(bytes[20..36], [1, 2, 3, 4, 5, 6, 7, 8, 0x11, 0x12, 0x13, 0x14, 0x15, 0x16, 0x17, 0x18]);
        assert_eq!(&bytes[36..], b"abx");
    }
}
