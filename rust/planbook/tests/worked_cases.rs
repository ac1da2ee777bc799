//! The runs of the definitions' table, printed by the program.

use planbook::check_prints;
use reference::worked_cases::transcripts;

#[test]
fn the_program_prints_what_the_table_says() {
    for run in transcripts() {
        check_prints(&run.input, &run.output);
    }
}
