//! Channels pair up by name: code 12.

use crate::codes;
use crate::record::{Channel, Record};
use crate::Refusal;

/// For each step of the left the right's number of the same step; the tick is 0 in both.
pub fn partners(left: &[u8], of_left: &Record, right: &[u8], of_right: &Record) -> Result<Vec<usize>, Refusal> {
    let mut partners = vec![0];
    for (i, channel) in of_left.channels.iter().enumerate() {
        let found = find(channel.name.spelling(left), right, &of_right.channels);
        match found {
            Some(j) if of_right.channels[j].direction() == channel.direction() => partners.push(j + 1),
            _ => return Err(Refusal::new(codes::UNMATCHED_CHANNEL, 1, i + 1, 0)),
        }
    }
    for (j, channel) in of_right.channels.iter().enumerate() {
        if find(channel.name.spelling(right), left, &of_left.channels).is_none() {
            return Err(Refusal::new(codes::UNMATCHED_CHANNEL, 2, j + 1, 0));
        }
    }
    Ok(partners)
}

fn find(spelling: &[u8], text: &[u8], channels: &[Channel]) -> Option<usize> {
    channels.iter().position(|channel| channel.name.spelling(text) == spelling)
}
