//! Safe states: the largest set in which every input stays and a tick or an output stays.

use crate::moves::{System, NONE};

pub struct SafeSet {
    pub member: Vec<bool>,
    pub count: usize,
}

impl SafeSet {
    /// Starts from the states whose invariant holds and removes until nothing changes.
    /// A tick mostly raises the state number, so the states are taken from the highest down.
    pub fn of(system: &System) -> SafeSet {
        let mut member = system.valid.clone();
        let mut changed = true;
        while changed {
            changed = false;
            for state in (0..system.states).rev() {
                if member[state] && !stays(system, &member, state) {
                    member[state] = false;
                    changed = true;
                }
            }
        }
        let count = member.iter().filter(|safe| **safe).count();
        SafeSet { member, count }
    }
}

/// Whether all inputs of a state stay in the set and a tick or some output does.
fn stays(system: &System, member: &[bool], state: usize) -> bool {
    let mut moves_on = false;
    for (reached, input) in system.row(state).iter().zip(&system.inputs) {
        let inside = *reached != NONE && member[usize::from(*reached)];
        if *input && !inside {
            return false;
        }
        moves_on |= inside && !*input;
    }
    moves_on
}

/// Takes off the moves that leave the safe states, and all moves of other states.
pub fn prune(system: &mut System, safe: &SafeSet) {
    for (state, row) in system.moves.chunks_exact_mut(system.steps).enumerate() {
        for entry in row {
            if *entry != NONE && !(safe.member[state] && safe.member[usize::from(*entry)]) {
                *entry = NONE;
            }
        }
    }
}

/// One bit per state, state 0 in the high bit of byte 0; bytes past the last state stay.
pub fn write_keep(safe: &SafeSet, keep: &mut [u8]) {
    for (byte, states) in keep.iter_mut().zip(safe.member.chunks(8)) {
        *byte = states.iter().enumerate().fold(0, |bits, (i, safe)| bits | u8::from(*safe) << (7 - i));
    }
}
