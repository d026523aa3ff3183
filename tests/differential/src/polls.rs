//! The rule about next numbers, as it is stated: a poll from a number that an accepted sample or
//! current of the list gave as the next one is late where that number has been overwritten since,
//! whatever its path and count, and neither late nor early where it has not. Of polls that an earlier
//! check refuses nothing is said. Whose requests they were does not matter.

use crate::call::Answer;
use reference::text::{self, Request};
use reference::Clean;
use std::collections::HashSet;

pub const LATE: u64 = 17;
pub const EARLY: u64 = 18;

/// The refusals ahead of these.
const EARLIER_CHECKS: [u64; 7] = [1, 2, 7, 8, 9, 10, 11];

#[derive(Default)]
pub struct Polls {
    /// The next numbers given so far.
    given: HashSet<u64>,
    /// Polls from them that were late, and that were not.
    pub late: u64,
    pub in_time: u64,
}

impl Polls {
    /// Takes an answered request of a ring of n places, with the last number as it stood.
    pub fn take(
        &mut self,
        text: &[u8],
        answer: Answer,
        reply: &[u64],
        [n, last]: [u64; 2],
    ) -> Result<(), String> {
        let request = text::read(text, Clean);
        if let Ok(Request::Sample { from: Some(from), .. }) = request {
            let refusal = answer.refusal();
            if self.given.contains(&from) && !EARLIER_CHECKS.contains(&refusal) {
                // Its ring place has been taken again once the number n behind it is recorded.
                self.judge(from, from + n <= last, refusal)?;
            }
        }
        if let (Ok(Request::Sample { .. } | Request::Current { .. }), Answer::Pair(0, _)) = (request, answer)
        {
            self.given.insert(reply[3]);
        }
        Ok(())
    }

    fn judge(&mut self, from: u64, overwritten: bool, refusal: u64) -> Result<(), String> {
        self.late += u64::from(overwritten);
        self.in_time += u64::from(!overwritten);
        match (overwritten, refusal) {
            (true, LATE) => Ok(()),
            (true, _) => {
                Err(format!("a poll from {from}, which has been overwritten, is answered {refusal}"))
            }
            (false, LATE | EARLY) => {
                Err(format!("a poll from {from}, which is held or next, is refused with {refusal}"))
            }
            (false, _) => Ok(()),
        }
    }
}
