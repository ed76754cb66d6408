//! The sheet that the report program prints for a record.

use crate::line;
use crate::record::Record;
use crate::run::Run;

/// The whole sheet, each line with its line end.
pub fn sheet(bytes: &[u8]) -> String {
    line::list(bytes, lines)
}

fn lines(record: &Record) -> Vec<String> {
    let run = record.run();
    let mut lines = vec![
        line::run(record),
        line::end(&run),
        line::cycles(&run),
        line::outside(&run),
        line::passed(record),
        line::drawn(&run),
    ];
    lines.extend(closing_lines(record, &run));
    lines
}

/// A closing refusal stands in place of `weighted`, a recharge refusal in
/// place of `ac`; each ends the list.
fn closing_lines(record: &Record, run: &Run) -> Vec<String> {
    match record.close(run) {
        Err(number) => vec![line::refused(number)],
        Ok(figures) => {
            vec![line::weighted(&figures), line::range(&figures), line::ac(record, run, &figures)]
        }
    }
}
