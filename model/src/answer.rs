//! The model as the program `calls`: reads requests, makes the calls and writes what comes back.

use crate::asked::Call;
use crate::bytes::{all_zero, get_u64};
use crate::calls::Service;
use crate::checks::FILLER;
use crate::requests::{
    answer, HEADER, LOAD, LONGEST_OUTPUT, LONGEST_PAYLOAD, LONGEST_TABLE, MALFORMED_ANSWER, POKE,
    SHOW, SLOTS,
};
use crate::variant::Variant;
use std::io::{self, Read, Write};

/// A request as it was read.
struct Request {
    code: u8,
    slot: usize,
    numbers: [u64; 5],
    room: usize,
    payload: Vec<u8>,
}

/// What came next in the input.
enum Next {
    Request(Request),
    Malformed,
    End,
}

/// Answers requests until the input ends or one is malformed. A code of a call that isn't among
/// these is out of range.
pub fn serve(input: &mut impl Read, output: &mut impl Write, codes: &[u8]) -> io::Result<()> {
    let mut tables: [Vec<u8>; SLOTS] = Default::default();
    loop {
        let response = match next(input, codes)? {
            Next::End => break,
            Next::Malformed => None,
            Next::Request(request) => respond(&mut tables[request.slot], request),
        };
        let Some(bytes) = response else {
            // "A malformed request [..] is answered by 16 bytes FF and ends it."
            output.write_all(&MALFORMED_ANSWER)?;
            break;
        };
        output.write_all(&bytes)?;
    }
    output.flush()
}

/// Reads a request. "A malformed request (a code, slot or length out of range, non-zero padding, or
/// cut short)".
fn next(input: &mut impl Read, codes: &[u8]) -> io::Result<Next> {
    let header = read_up_to(input, HEADER as u64)?;
    if header.is_empty() {
        return Ok(Next::End);
    }
    if header.len() < HEADER {
        return Ok(Next::Malformed);
    }
    let code = header[0];
    let slot = usize::from(header[1]);
    let (room, length) = (get_u64(&header, 48), get_u64(&header, 56));
    let longest = if code == LOAD {
        LONGEST_TABLE
    } else {
        LONGEST_PAYLOAD
    };
    let well_formed = (codes.contains(&code) || [LOAD, POKE, SHOW].contains(&code))
        && slot < SLOTS
        && all_zero(&header[2..8])
        && room <= LONGEST_OUTPUT
        && length <= longest;
    if !well_formed {
        return Ok(Next::Malformed);
    }
    let payload = read_up_to(input, length)?;
    if (payload.len() as u64) < length {
        return Ok(Next::Malformed);
    }
    Ok(Next::Request(Request {
        code,
        slot,
        numbers: [8, 16, 24, 32, 40].map(|at| get_u64(&header, at)),
        room: room as usize,
        payload,
    }))
}

fn read_up_to(input: &mut impl Read, length: u64) -> io::Result<Vec<u8>> {
    let mut bytes = Vec::new();
    input.take(length).read_to_end(&mut bytes)?;
    Ok(bytes)
}

/// The answer to a request, unless it is malformed after all.
fn respond(table: &mut Vec<u8>, request: Request) -> Option<Vec<u8>> {
    match request.code {
        LOAD => *table = request.payload,
        POKE => poke(table, request.numbers[0], &request.payload)?,
        SHOW => {
            let length = table.len() as u32;
            return Some([&answer(0, length, table)[..], table].concat());
        }
        _ => return make(table, request),
    }
    Some(answer(0, 0, table).to_vec())
}

/// "code 33 writes the payload over the slot's bytes from the offset in the first number on (as far
/// as they fit in the table's length: otherwise the request is malformed)"
fn poke(table: &mut [u8], at: u64, payload: &[u8]) -> Option<()> {
    let at = usize::try_from(at).ok()?;
    let end = at.checked_add(payload.len())?;
    table.get_mut(at..end)?.copy_from_slice(payload);
    Some(())
}

/// "The answer to a call: number u32, value u32, the Adler-32 (..), four zeros, and then the whole
/// output buffer, which was filled with the byte A5 before the call."
fn make(table: &mut [u8], request: Request) -> Option<Vec<u8>> {
    let Request {
        code,
        numbers,
        room,
        payload,
        ..
    } = request;
    let call = Call::with(code, numbers, payload, room)?;
    let service = Service {
        variant: Variant::Right,
    };
    let mut out = vec![FILLER; room];
    let made = call.make(&service, table, &mut out);
    let head = answer(made.number, made.value, table);
    Some([&head[..], &out].concat())
}
