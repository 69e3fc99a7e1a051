//! From a call on which the sides differ to the smallest one that is found.

use super::call::Call;
use super::simpler;
use std::time::{Duration, Instant};

/// How long a smaller call is looked for.
const LONGEST: Duration = Duration::from_secs(30);

/// Tries simpler calls as long as one of them still differs.
pub fn shrink(call: &Call, differs: &dyn Fn(&Call) -> bool) -> Call {
    let end = Instant::now() + LONGEST;
    let mut best = call.clone();
    loop {
        let mut found = None;
        simpler::each(&best.work, &mut |work| {
            let noise = best.noise;
            let call = Call { noise, work };
            if Instant::now() < end && differs(&call) {
                found = Some(call);
            }
            found.is_some()
        });
        match found {
            Some(call) => best = call,
            None => return best,
        }
    }
}
