//! An input of the fuzzer: the call, what it takes, and the comparison of both programs on it.

use reference::Answer;
use reference::cases::{Call, Input};

use crate::host::{self, Place};

/// The bytes before the files.
pub const HEAD: usize = 13;

/// One call and what it takes.
///
/// Its bytes: call, buffer, fill, a, b, the lengths of schema, policies and first instance (days
/// and lengths in two bytes, high byte first), then the four files. Any bytes are a trial.
#[derive(Clone, Debug)]
pub struct Trial {
    /// The call.
    pub call: Call,
    /// Chooses the buffer's length.
    pub buffer: u8,
    /// Chooses what the buffer holds before the call.
    pub fill: u8,
    /// The pass.
    pub pass: (u16, u16),
    /// Schema, policies, first and second instance.
    pub files: [Vec<u8>; 4],
}

impl Trial {
    /// The trial that `bytes` say.
    pub fn read(bytes: &[u8]) -> Self {
        let mut head = [0; HEAD];
        let (said, mut rest) = bytes.split_at(HEAD.min(bytes.len()));
        head[..said.len()].copy_from_slice(said);
        let word = |place| u16::from_be_bytes([head[place], head[place + 1]]);
        let mut file = |length: usize| {
            let (file, after) = rest.split_at(length.min(rest.len()));
            rest = after;
            file.to_vec()
        };
        Trial {
            call: Call::ALL[usize::from(head[0]) % Call::ALL.len()],
            buffer: head[1],
            fill: head[2],
            pass: (word(3), word(5)),
            files: [
                file(word(7).into()),
                file(word(9).into()),
                file(word(11).into()),
                file(usize::MAX),
            ],
        }
    }

    /// The bytes that say the trial.
    pub fn bytes(&self) -> Vec<u8> {
        let mut bytes = vec![self.call as u8, self.buffer, self.fill];
        let lengths = [0, 1, 2].map(|file| self.files[file].len() as u16);
        for word in [self.pass.0, self.pass.1].into_iter().chain(lengths) {
            bytes.extend(word.to_be_bytes());
        }
        bytes.extend(self.files.concat());
        bytes
    }

    /// What the call takes.
    pub fn input(&self) -> Input<'_> {
        let [schema, policies, first, second] = &self.files;
        Input { schema, policies, pass: self.pass, first, second }
    }

    /// The length of the buffer, often near the one that is just enough.
    fn buffer_length(&self) -> usize {
        let any = usize::from(self.buffer / 8);
        let longest = self.call.longest();
        let exact = || written(self.call, &self.input()).len();
        match self.buffer % 8 {
            0 => exact(),
            1 => exact().saturating_sub(1),
            2 => exact() + any,
            3 => exact().saturating_sub(any),
            4 => any,
            5 => longest + any,
            _ => longest,
        }
    }

    /// Runs both programs on buffers that hold the same, the library once for each place, and
    /// demands the same answer and the same whole buffer.
    pub fn demand_equal(&self) {
        let length = self.buffer_length();
        let before: Vec<u8> = (0..length).map(|index| index as u8 ^ self.fill).collect();
        let mut expected = before.clone();
        let answer = self.call.answer(&self.input(), &mut expected);
        for place in Place::ALL {
            let mut out = before.clone();
            let ours = host::answer(self.call, place, &self.input(), &mut out);
            if ours != answer || out != expected {
                self.report(place, [answer, ours], [&expected, &out]);
            }
        }
    }

    #[cold]
    fn report(&self, place: Place, answers: [Answer; 2], buffers: [&[u8]; 2]) -> ! {
        let [schema, policies, first, second] = self.files.each_ref().map(|file| digits(file));
        panic!(
            "{:?} differs, {place:?}, pass {:?}\n\
             reference {:?}\nlibrary   {:?}\n\
             reference's buffer {}\nlibrary's buffer   {}\n\
             schema {schema}\npolicies {policies}\nfirst {first}\nsecond {second}",
            self.call,
            self.pass,
            answers[0],
            answers[1],
            digits(buffers[0]),
            digits(buffers[1]),
        )
    }
}

/// What the reference's `call` writes, or nothing.
pub fn written(call: Call, input: &Input) -> Vec<u8> {
    let mut out = vec![0; call.longest()];
    let length = call.answer(input, &mut out).value as usize;
    out.truncate(length);
    out
}

fn digits(bytes: &[u8]) -> String {
    bytes.iter().map(|byte| format!("{byte:02x}")).collect()
}
