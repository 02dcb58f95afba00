//! Document 02, Change 5: bus reads and bus writes in the dumps that the port wrote,
//! held to the ticks that were made since the last start.

use crate::dumps::bus_counters;
use crate::tally::Tally;
use oracle::calls::program::Dump;
use oracle::calls::totals::Totals;

/// Each dump is one comparison, but for those that have no count. It is looked at where
/// it is due. Behind an answer of another length it stands elsewhere, and what is found
/// there is no counter: then the bytes differ too. `place` says which dump it is.
pub fn compare(tally: &mut Tally, dumps: &[Dump], output: &[u8], place: impl Fn(&Dump) -> String) {
    for dump in dumps {
        let Some(due) = dump.totals else { continue };
        let found = output.get(dump.at..).and_then(bus_counters);
        tally.check(found == Some([due.reads(), due.writes()]), || {
            format!(
                "massey_calls, totals, {}: {}",
                place(dump),
                describe(found, &due)
            )
        });
    }
}

fn describe(found: Option<[u64; 2]>, due: &Totals) -> String {
    let found = match found {
        Some([reads, writes]) => format!("{reads} bus reads and {writes} bus writes"),
        None => "no bus counters".to_string(),
    };
    format!(
        "{found}, not {} and {}: since the last start {} second fetch ticks, {} second LOAD [yz] \
         ticks, {} third STORE ticks and {} undoes",
        due.reads(),
        due.writes(),
        due.second_fetches,
        due.second_loads,
        due.third_stores,
        due.undoes
    )
}
