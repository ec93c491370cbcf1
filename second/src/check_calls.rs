//! Compares the probe: stored calls first, then the specification's limits, the small calls and random ones.

use crate::call::Call;
use crate::check::{kind, short, tell, tell_stored, Check, MOST_STORED};
use crate::coverage::Coverage;
use crate::probe::{Difference, Probe};
use crate::stream::{Due, Item};
use crate::{regress, samples, shrink, shrink_lines, small, stream};

/// Calls in one run of the probe. A normal run is one run.
const AT_ONCE: u64 = 50_000;

/// While one call is made smaller.
const MOST_RESTARTS: usize = 20;

impl Check {
    pub fn stored_calls(&mut self, probe: &Probe) {
        let cases = regress::probe_cases(&self.regress).unwrap_or_else(|wrong| {
            self.wrong(&wrong);
            Vec::new()
        });
        let mut lines = 0;
        for (path, items) in &cases {
            lines += items.iter().filter(|item| item.due != Due::Nothing).count();
            for difference in probe.run(items).differences {
                let (item, got) = (&items[difference.at], short(&difference.got));
                self.wrong(&format!("{}: {}; got: {got}", path.display(), tell(item)));
            }
        }
        println!("stored calls: {lines} in {} files", cases.len());
    }

    /// Inputs without a call, and how they may end.
    pub fn empty_inputs(&mut self, probe: &Probe) {
        for input in ["", "\n", "#", "# no call\n\n"] {
            match probe.send(input.as_bytes(), 1) {
                Ok(outcome) if outcome.output.is_empty() && outcome.bad_end.is_none() => {}
                Ok(outcome) => {
                    let end = outcome.bad_end.unwrap_or_default();
                    let output = outcome.output.escape_ascii();
                    self.wrong(&format!("input {input:?}: due nothing; got {output} {end}"));
                }
                Err(error) => self.wrong(&format!("the probe can't be run: {error}")),
            }
        }
    }

    pub fn calls(&mut self, probe: &Probe, calls: u64) -> Coverage {
        let mut coverage = Coverage::default();
        let mut items = samples::limits();
        items.extend(small::items());
        println!("small calls and limits: {}", items.len());
        let mut counts = [0; 3];
        let mut from = 0;
        while from < calls {
            let to = calls.min(from + AT_ONCE);
            let random = stream::items(self.seed, from..to, &mut coverage);
            for item in &random {
                counts[match item.due {
                    Due::Answer(_) => 0,
                    Due::Error(_) => 1,
                    Due::Nothing => 2,
                }] += 1;
            }
            items.extend(random);
            self.compare(probe, &items);
            items.clear();
            from = to;
        }
        let [answered, malformed, passed_over] = counts;
        println!("random calls: {answered}; malformed lines: {malformed}; lines passed over: {passed_over}");
        coverage
    }

    fn compare(&mut self, probe: &Probe, all: &[Item]) {
        let mut items = all;
        // where answers and lines went out of step, the rest is tried again from behind that place
        for _ in 0..MOST_STORED {
            let report = probe.run(items);
            if let Some(end) = &report.lost {
                println!("out of step: {end} {}", probe.program.complaint());
            }
            let mut last = 0;
            for difference in &report.differences {
                last = difference.at;
                self.differences += 1;
                let kind = kind(&items[last], &difference.got, report.lost.is_some());
                if self.is_new(&kind) {
                    self.look_into(probe, items, difference, &kind);
                }
            }
            items = &items[last + 1..];
            if report.lost.is_none() || items.is_empty() {
                return;
            }
        }
        println!("out of step {MOST_STORED} times; the rest was not compared");
    }

    fn look_into(&mut self, probe: &Probe, items: &[Item], difference: &Difference, kind: &str) {
        let item = &items[difference.at];
        println!("DIFFERS {}; got: {}", tell(item), short(&difference.got));
        let alone = std::slice::from_ref(item);
        let few = if probe.differs(alone) {
            alone.to_vec()
        } else {
            // something is carried over from lines before it, or the program broke off later than it showed
            let before = shrink_lines::fewest(probe, &items[..=difference.at]);
            before.or_else(|| shrink_lines::fewest(probe, items)).unwrap_or(alone.to_vec())
        };
        let few = match (few.as_slice(), Call::parse(&few[0].line)) {
            ([_], Ok(call)) => vec![smallest(probe, call, kind)],
            _ => few,
        };
        let got = probe.run(&few).differences.pop();
        let got = got.map_or("(right when sent alone)".to_string(), |difference| short(&difference.got));
        for item in &few {
            println!("  smallest: {}", tell(item));
        }
        println!("  got: {got}");
        let remark = format!("seed {}; got: {got}", self.seed);
        tell_stored(regress::store_probe(&self.regress, &few, &remark));
    }
}

/// The smallest call found that is still answered wrongly in the same way. Candidates go to the probe together; the one
/// that differs is then tried alone.
fn smallest(probe: &Probe, call: Call, like: &str) -> Item {
    let first_alike = |items: &[Item]| {
        let mut from = 0;
        // where the program broke off at a candidate that differs in another way, those behind it are still to be tried
        for _ in 0..MOST_RESTARTS {
            let report = probe.run(&items[from..]);
            let lost = report.lost.is_some();
            let alike = |difference: &&Difference| kind(&items[from + difference.at], &difference.got, lost) == like;
            if let Some(difference) = report.differences.iter().find(alike) {
                return Some(from + difference.at);
            }
            from += report.differences.first().filter(|_| lost)?.at + 1;
            if from == items.len() {
                break;
            }
        }
        None
    };
    let first_differing = |calls: &[Call]| {
        let items: Vec<Option<Item>> = calls.iter().map(Item::of_call).collect();
        let numbers: Vec<usize> = (0..items.len()).filter(|&i| items[i].is_some()).collect();
        let sent: Vec<Item> = items.into_iter().flatten().collect();
        let at = if sent.is_empty() { None } else { first_alike(&sent) };
        at.filter(|&at| first_alike(&sent[at..=at]).is_some()).map(|at| numbers[at])
    };
    let small = shrink::call(call, first_differing);
    Item::of_call(&small).expect("only calls that can be answered are kept")
}
