//! The texts that whole texts are compared on.

use crate::gen::Rng;
use crate::{changes, limits, scripts, words, written};

/// Random scripts; each is also changed.
const RANDOM: usize = 1_000_000;

/// Random scripts that are cut at every byte.
const CUT: usize = 200;

/// Shows `see` each text.
pub fn each(seed: u64, see: &mut impl FnMut(&[u8])) {
    written::each(&mut |text| {
        see(text);
        changes::each(text, see);
    });
    written::each_operation(see);
    words::each(see);
    let mut rng = Rng::new(seed);
    limits::each(&mut rng, see);
    random_scripts(&mut rng, see);
}

fn random_scripts(rng: &mut Rng, see: &mut impl FnMut(&[u8])) {
    for number in 0..RANDOM {
        let script = scripts::script(rng);
        see(script.as_bytes());
        let changed = changes::random(rng, script.as_bytes());
        see(&changed);
        if number % 4 == 0 {
            see(&changes::random(rng, &changed));
        }
        if number < CUT {
            changes::each_cut(script.as_bytes(), see);
        }
    }
}
