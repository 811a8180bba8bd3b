//! Places three runs on two machines. A run needs one of the minutes that it may start in; a machine has one runtime loaded
//! in a minute, and runs of that runtime can share it.

use tallyorchard::{Entry, Error, Problem, solution};

const RUNS: [(&str, i32, &[i32]); 3] = [("backup", 1, &[0]), ("billing", 2, &[0, 1]), ("reports", 2, &[1])];
const MACHINES: i32 = 2;
const MINUTES: i32 = 2;

fn main() -> Result<(), Error> {
    let mut placements = Vec::new();
    let mut options = Vec::new();
    for (run, (name, runtime, minutes)) in RUNS.iter().enumerate() {
        for &minute in *minutes {
            for machine in 0..MACHINES {
                let loaded = RUNS.len() as i32 + minute * MACHINES + machine;
                options.push(vec![Entry::plain(run as i32), Entry { item: loaded, colour: *runtime }]);
                placements.push(format!("{name} on machine {machine} in minute {minute}"));
            }
        }
    }
    let problem = Problem { primary: RUNS.len() as i32, secondary: MACHINES * MINUTES, options };
    for option in solution(&problem, 0, 1_000)? {
        println!("{}", placements[option]);
    }
    Ok(())
}
