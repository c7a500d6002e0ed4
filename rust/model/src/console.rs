//! The program: a party byte and setting requests in, plans out as text.

use crate::planner::{plan, PLAN_MAX};
use crate::refusal::Refusal;
use crate::request::request_read;
use crate::state::Converter;

pub const INPUT_MAX: usize = 4096;

const CONSOLE_ID: u8 = 0x3E;
const CONSOLE_TENANT: u8 = 1;

fn line(refusal: u8, plan: &[u8]) -> String {
    let mut text = refusal.to_string();
    for byte in plan {
        text.push_str(&format!(" {byte:02X}"));
    }
    text.push('\n');
    text
}

/// The program's whole output for its whole input.
pub fn console(input: &[u8]) -> Vec<u8> {
    if input.len() > INPUT_MAX {
        return line(Refusal::InputTooLong.number(), &[]).into_bytes();
    }
    let Some((&party, mut requests)) = input.split_first() else {
        return line(Refusal::RequestTruncated.number(), &[]).into_bytes();
    };
    let mut state = Converter::fresh(CONSOLE_ID);
    state.owners.fill(CONSOLE_TENANT);

    let mut text = String::new();
    while !requests.is_empty() {
        let (refusal, request, used) = request_read(requests);
        if refusal != 0 {
            text.push_str(&line(refusal, &[]));
            break;
        }
        requests = &requests[used..];
        let mut tx = [0; PLAN_MAX];
        let (refusal, length, next) = plan(state, u32::from(party), request, &mut tx, 0);
        text.push_str(&line(refusal, &tx[..length]));
        state = next;
    }
    text.into_bytes()
}
