//! How cost grows: with each part of a section, and from step to step where a section is refused.

use compare::library::section_values;
use ugbariteyo as library;

use crate::calls::STAND_IN;
use crate::output::Output;
use crate::portions::in_portions;
use crate::refusals::Refused;
use crate::samples::Sample;
use crate::timing::{best, taken, Time};

const GROWN: &str = "\
| what grows | bytes | read ns | one portion ns | label shown ns | support copy ns | write ns | memcpy ns | memset ns |
|---|--:|--:|--:|--:|--:|--:|--:|--:|";
const REFUSED: &str = "\
| refused at | read ns | of an accepted one | refused / accepted | support copy ns | of an accepted one | refused / accepted |
|---|--:|--:|--:|--:|--:|--:|";

/// Prints both tables.
pub fn print(samples: &[Sample]) {
    println!("{GROWN}");
    samples.iter().for_each(|sample| println!("{}", grown(sample)));
    println!("\n{REFUSED}");
    Refused::all().iter().for_each(|refused| println!("{}", beside_accepted(refused)));
}

fn grown(sample: &Sample) -> String {
    let (section, first) = (sample.section(), sample.first());
    let values = sample.values();
    let values = section_values(&values);
    let out = Output::new(section.len());
    let times = best(vec![
        taken(|| library::read(&section, first)),
        taken(|| in_portions(&[&section], first)),
        taken(|| library::label_shown(&section, first, STAND_IN)),
        out.written(|out| library::support_copy(&section, first, out)),
        out.written(|out| library::write_section(&values, out)),
        out.memcpy(),
        out.memset(),
    ]);
    let cells: String = times.into_iter().map(|time| format!(" {} |", Time(time))).collect();
    format!("| {} | {} |{cells}", sample.name, section.len())
}

fn beside_accepted(refused: &Refused) -> String {
    let out = Output::new(refused.accepted.len());
    let calls = [&refused.section, &refused.accepted].map(|section| {
        let read = taken(|| library::read(section, refused.first));
        let copy = out.taken(|out| library::support_copy(section, refused.first, out));
        [read, copy]
    });
    let times = best(calls.into_iter().flatten().collect());
    let [read, copy, accepted_read, accepted_copy] = times[..] else { unreachable!("four calls") };
    let cells = [(read, accepted_read), (copy, accepted_copy)].map(|(refused, accepted)| {
        format!(" {} | {} | {:.2} |", Time(refused), Time(accepted), refused / accepted)
    });
    format!("| {} |{}", refused.what, cells.concat())
}
