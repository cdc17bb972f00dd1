//! What a call gives.

/// What a call gave besides the tables and the dictionary.
#[derive(Clone, Default, PartialEq)]
pub struct Outcome {
    pub number: u32,
    pub result: [u32; 4],
    /// How many rows, or how many bytes of a delivery or of lines.
    pub count: u64,
    pub output: Vec<u32>,
    pub delivery: Vec<u8>,
    /// The output of a writing.
    pub lines: Vec<u8>,
}

impl Outcome {
    /// That of a call which gives a number alone.
    pub fn of(number: u32) -> Outcome {
        Outcome {
            number,
            ..Outcome::default()
        }
    }

    /// That of a reading: its reply, and the bytes of the delivery after it.
    pub fn of_reading(reply: Result<usize, u32>, delivery: Vec<u8>) -> Outcome {
        Outcome {
            delivery,
            ..Outcome::of_length(reply)
        }
    }

    /// That of a writing: its reply, and the bytes of the output after it.
    pub fn of_writing(reply: Result<usize, u32>, lines: Vec<u8>) -> Outcome {
        Outcome {
            lines,
            ..Outcome::of_length(reply)
        }
    }

    /// That of a call which gives a length.
    fn of_length(reply: Result<usize, u32>) -> Outcome {
        Outcome {
            count: reply.map_or(0, |length| length as u64),
            ..Outcome::of(reply.err().unwrap_or(0))
        }
    }
}
