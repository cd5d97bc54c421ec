//! Files that can't be read.

use std::fs;

use crate::pair::of_model;
use crate::program::Program;
use crate::recorded;

/// A file that isn't there and a folder, named among files that are right: each is told of, and the others are listed.
pub fn compare_all(program: &Program) -> Result<(), String> {
    let file = [recorded::dots(3), recorded::line(7), recorded::END.to_vec()].concat();
    fs::create_dir_all(program.folder.join("folder")).map_err(|error| format!("folder: {error}"))?;
    for name in ["first.session", "second.session"] {
        program.put(name, &file).map_err(|error| format!("{name}: {error}"))?;
    }
    for unreadable in ["missing.session", "folder"] {
        for names in [
            ["first.session", unreadable, "second.session"],
            [unreadable, "first.session", "second.session"],
            ["first.session", "second.session", unreadable],
        ] {
            compare(program, names, unreadable, &of_model(&file).repeat(2))?;
        }
    }
    println!("sessions: a missing file and a folder are told of, and the files beside them are listed");
    Ok(())
}

fn compare(program: &Program, names: [&str; 3], unreadable: &str, listings: &[u8]) -> Result<(), String> {
    let output = program.run(&names.map(String::from)).map_err(|error| error.to_string())?;
    let told = String::from_utf8_lossy(&output.stderr);
    if !told.contains(unreadable) {
        return Err(format!("{names:?}: nothing on standard error names {unreadable}: {told:?}\n"));
    }
    if output.stdout != listings {
        let listed = String::from_utf8_lossy(&output.stdout);
        return Err(format!("{names:?}: not the listings of the files that can be read, but {listed:?}\n"));
    }
    Ok(())
}
