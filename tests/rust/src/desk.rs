//! The crate `desk`: it lends output and room to the calls and holds every call to what it promises of them: the
//! room ends all zeros, only the answer's bytes change, a refusal changes nothing. Panics where not.

use gorbihesh::calls::{self, Answer, Setup};

/// What the output and the fence behind it hold before a call.
const UNTOUCHED: u8 = 0xA5;
const FENCE: usize = 16;

/// Rooms are dirtied at one call in so many; they are zeros at the others. At one call in so many the
/// call is made with a short room first.
const DIRTY_TURN: u32 = 16;
const SHORT_TURN: u32 = 97;

#[derive(Default)]
pub struct Desk {
    out: Vec<u8>,
    room: Vec<u8>,
    turn: u32,
}

impl Desk {
    #[must_use]
    pub fn new() -> Self {
        Self::default()
    }

    /// The stored query, or the refusal.
    ///
    /// # Errors
    /// The refusal number.
    pub fn parse(&mut self, setup: Setup, text: &[u8], out: usize) -> Result<Vec<u8>, u32> {
        self.parse_placed(setup, text, out).map_err(|(number, _)| number)
    }

    /// The stored query, or the refusal and its place.
    ///
    /// # Errors
    /// The refusal number, and the place.
    pub fn parse_placed(&mut self, setup: Setup, text: &[u8], out: usize) -> Result<Vec<u8>, (u32, u32)> {
        let room = calls::parse_room();
        let (answer, bytes) = self.call(out, room, |o, r| calls::parse(setup, text, o, r))?;
        assert_eq!((answer.count, answer.rounds), (0, 0), "{answer:?}");
        Ok(bytes)
    }

    /// The rewritten query and the rounds, or the refusal.
    ///
    /// # Errors
    /// The refusal number.
    pub fn rewrite(&mut self, query: &[u8], out: usize) -> Result<(Vec<u8>, u32), u32> {
        let room = calls::rewrite_room();
        self.rewritten(out, room, |o, r| calls::rewrite(query, o, r))
    }

    /// The same, by the strict call.
    ///
    /// # Errors
    /// The refusal number.
    pub fn rewrite_strict(&mut self, query: &[u8], out: usize) -> Result<(Vec<u8>, u32), u32> {
        let room = calls::rewrite_strict_room();
        self.rewritten(out, room, |o, r| calls::rewrite_strict(query, o, r))
    }

    fn rewritten(
        &mut self,
        out: usize,
        room: usize,
        call: impl Fn(&mut [u8], &mut [u8]) -> Answer,
    ) -> Result<(Vec<u8>, u32), u32> {
        let (answer, bytes) = self.call(out, room, call).map_err(nowhere)?;
        assert_eq!(answer.count, 0, "{answer:?}");
        Ok((bytes, answer.rounds))
    }

    /// The numbers of the records picked, or the refusal.
    ///
    /// # Errors
    /// The refusal number.
    pub fn select(&mut self, query: &[u8], list: &[u8], rows: usize) -> Result<Vec<u32>, u32> {
        let room = calls::select_room();
        let answered = self.call(rows, room, |o, r| calls::select(query, list, o, r));
        let (answer, bytes) = answered.map_err(nowhere)?;
        let (rows, rest) = bytes.as_chunks::<4>();
        assert!(rest.is_empty(), "rows of four bytes");
        assert_eq!(
            (answer.count as usize, answer.rounds),
            (rows.len(), 0),
            "{answer:?}"
        );
        Ok(rows.iter().map(|row| u32::from_be_bytes(*row)).collect())
    }

    /// A call with an output and a room of these lengths; the room is longer at some calls.
    fn call(
        &mut self,
        out_len: usize,
        room_len: usize,
        call: impl Fn(&mut [u8], &mut [u8]) -> Answer,
    ) -> Result<(Answer, Vec<u8>), (u32, u32)> {
        self.turn = self.turn.wrapping_add(1);
        if room_len > 0 && self.turn.is_multiple_of(SHORT_TURN) {
            let refused = self.call_in(out_len, room_len - 1, 0xEE, &call);
            assert_eq!(refused.map(|_| ()), Err((32, 0)), "a short room");
        }
        if self.turn.is_multiple_of(DIRTY_TURN) {
            let more = self.turn as usize / 16 % 9;
            self.call_in(out_len, room_len + more, 0xEE, &call)
        } else {
            self.call_in(out_len, room_len, 0, &call)
        }
    }

    /// With a room that holds these bytes.
    fn call_in(
        &mut self,
        out_len: usize,
        room_len: usize,
        dirt: u8,
        call: &impl Fn(&mut [u8], &mut [u8]) -> Answer,
    ) -> Result<(Answer, Vec<u8>), (u32, u32)> {
        self.out.clear();
        self.out.resize(out_len + FENCE, UNTOUCHED);
        self.room.clear();
        self.room.resize(room_len, dirt);
        let answer = call(&mut self.out[..out_len], &mut self.room);
        assert!(is_zeros(&self.room), "the room ends all zeros");
        self.settle(answer, out_len)
    }

    fn settle(&self, answer: Answer, out_len: usize) -> Result<(Answer, Vec<u8>), (u32, u32)> {
        let length = answer.length as usize;
        assert!(length <= out_len, "{answer:?} within {out_len}");
        let (written, rest) = self.out.split_at(length);
        assert!(
            rest.iter().all(|b| *b == UNTOUCHED),
            "bytes behind the answer: {answer:?}"
        );
        if answer.refusal == 0 {
            assert_eq!(answer.place, 0, "{answer:?}");
            return Ok((answer, written.to_vec()));
        }
        assert_eq!(
            (answer.length, answer.count, answer.rounds),
            (0, 0, 0),
            "{answer:?}"
        );
        Err((answer.refusal, answer.place))
    }
}

/// The refusal of a call that is handed no text, and so has no place.
fn nowhere((refusal, place): (u32, u32)) -> u32 {
    assert_eq!(place, 0, "the place of {refusal}");
    refusal
}

/// A fold with no early way out is as fast as the room is long.
fn is_zeros(bytes: &[u8]) -> bool {
    bytes.iter().fold(0, |all, b| all | b) == 0
}
