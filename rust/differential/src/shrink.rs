//! A smaller code that shows the same mismatch.

use std::time::{Duration, Instant};

/// How often a smaller code is tried before what there is has to do.
const MOST_TRIALS: usize = 3_000;
/// And for how long, if nothing is said: the check of a long code takes hundredths of a second.
pub const MOST_TIME: Duration = Duration::from_secs(20);

/// Takes parts out, halves first and single bytes last, and then turns bytes into STOP or
/// JUMPDEST, as long as the mismatch is still there, and for so long at most.
pub fn smaller(time: Duration, code: &[u8], shows: impl Fn(&[u8]) -> bool) -> Vec<u8> {
    let begun = Instant::now();
    let mut trials = 0;
    let mut shows = |code: &[u8]| {
        trials += 1;
        trials <= MOST_TRIALS && begun.elapsed() < time && shows(code)
    };
    let mut best = code.to_vec();
    loop {
        let before = best.clone();
        let mut part = best.len().div_ceil(2);
        while part > 0 {
            take_out(&mut best, part, &mut shows);
            part /= 2;
        }
        plainer(&mut best, &mut shows);
        if best == before {
            return best;
        }
    }
}

/// Takes out parts of one length, from the end, so that addresses before them stay true.
fn take_out(best: &mut Vec<u8>, part: usize, shows: &mut impl FnMut(&[u8]) -> bool) {
    let mut end = best.len();
    while end >= part && part > 0 {
        let mut without = best.clone();
        without.drain(end - part..end);
        if shows(&without) {
            *best = without;
        }
        end = (end - part).min(best.len());
    }
}

fn plainer(best: &mut [u8], shows: &mut impl FnMut(&[u8]) -> bool) {
    for at in 0..best.len() {
        let was = best[at];
        for byte in [0x00, 0x5b] {
            if was == byte || was == 0x00 {
                break;
            }
            best[at] = byte;
            if shows(best) {
                break;
            }
            best[at] = was;
        }
    }
}

#[cfg(test)]
mod tests {
    use super::{MOST_TIME, smaller};
    use std::time::Duration;

    #[test]
    fn what_does_not_matter_is_taken_out() {
        let mut code = vec![0x60; 500];
        code[123] = 0x90;
        code[400] = 0xfe;
        let both = |code: &[u8]| code.contains(&0x90) && code.contains(&0xfe);
        assert_eq!(smaller(MOST_TIME, &code, both), [0x90, 0xfe]);
    }

    #[test]
    fn bytes_that_only_take_room_become_plain() {
        let code = vec![0x61; 5];
        assert_eq!(smaller(MOST_TIME, &code, |code| code.len() == 5), [0; 5]);
        assert_eq!(
            smaller(MOST_TIME, &code, |code| code.len() > 2
                && !code.contains(&0)),
            [0x5b; 3]
        );
    }

    #[test]
    fn no_code_is_tried_when_the_time_is_over() {
        assert_eq!(smaller(Duration::ZERO, &[1, 2], |_| true), [1, 2]);
        assert_eq!(smaller(Duration::MAX, &[1, 2], |_| true), []);
    }

    #[test]
    fn a_code_that_never_shows_again_is_given_back() {
        assert_eq!(smaller(MOST_TIME, &[1, 2, 3], |_| false), [1, 2, 3]);
    }
}
