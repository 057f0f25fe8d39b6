//! In which tables is searched.

use std::fs;
use std::process::Command;

use crate::user::{ends, ends_quietly, finish, models, run, SB, SB_LINES};

#[test]
fn a_full_table_is_followed_by_longer_ones() {
    let said = ends(&run(&["seqlock.order"], b""), 0, "RB 17823\n");
    let lines: Vec<&str> = said.lines().collect();
    assert_eq!(lines.len(), 2, "{said}");
    assert!(lines[0].starts_with("order: seqlock.order: no witness in 420 situations (48 KiB, "), "{said}");
    assert!(lines[0].ends_with("going on with 436.5 KiB"), "{said}");
    assert!(
        lines[1].starts_with("order: seqlock.order: no witness in 3360 situations (436.5 KiB, "),
        "{said}"
    );
    ends_quietly(&run(&["-q", "seqlock.order"], b""), 0, "RB 17823\n");
    // Among several files nothing is said of what takes no time.
    let two = ["seqlock.order", "mp.order"];
    ends_quietly(&run(&two, b""), 0, "seqlock.order: RB 17823\nmp.order: RB 13\n");
}

#[test]
fn what_the_search_took_is_said_when_asked_for() {
    let said = ends(&run(&["-v", "-q", "seqlock.order"], b""), 0, "RB 17823\n");
    assert!(
        said.starts_with("order: seqlock.order: 17823 situations in a table of 3 MiB and an index of "),
        "{said}"
    );
    // The printing program has an index of its own.
    let said = ends(&run(&["-v", "mp.order"], b""), 0, "RB 13\n");
    assert!(said.starts_with("order: mp.order: 13 situations in a table of 48 KiB, "), "{said}");
    let said = ends(&run(&["-v", "-"], b"PR"), 1, "NO 1\n");
    assert_eq!(said.lines().count(), 1, "{said}");
}

#[test]
fn one_table_is_one_table() {
    for size in ["49152", "49_152", "48K"] {
        let said = ends(&run(&["--table", size, "seqlock.order"], b""), 11, "FU 420\n");
        assert!(said.starts_with("order: seqlock.order: undecided: no witness in 420 situations"), "{said}");
        assert!(said.contains("(--table 192K)") && said.lines().count() == 1, "{said}");
    }
    ends_quietly(&run(&["--table=10M", "seqlock.order"], b""), 0, "RB 17823\n");
    ends_quietly(&run(&["--table", "455", "-"], SB), 10, SB_LINES);
    ends(&run(&["--table", "454", "-"], SB), 11, "FU 6\n");
    let said = ends(&run(&["--table", "1", "-"], SB), 11, "FU 0\n");
    assert!(said.contains("more than a table of 1 byte holds"), "{said}");
    ends(&run(&["--table", "0", "-"], SB), 11, "FU 0\n");
    ends(&run(&["--table", "0", "-"], b"PR"), 1, "NO 1\n");
}

#[test]
fn the_trace_has_room_for_any_run() {
    // The printing program decides it in its own table too, and in the same way.
    let stored = fs::read_to_string(models().join("reports/long-run.txt")).unwrap();
    assert_eq!(stored.lines().count(), 706);
    // 711 places of two threads and two locations, 65 bytes each.
    ends_quietly(&run(&["--table", "46215", "long-run.order"], b""), 10, &stored);
    ends(&run(&["--table", "46214", "long-run.order"], b""), 11, "FU 710\n");
    ends_quietly(&run(&["long-run.order"], b""), 10, &stored);
}

#[test]
fn an_index_makes_it_fast() {
    // Four threads of 15 lines that read one location, which only makes them go on: 16 to the power of four situations.
    let thread = format!("thread\n{}", "r0 := x\n".repeat(15));
    let text = format!("values 2\nlocations x\n{}", thread.repeat(4));
    // A place of four threads and one location has 62 bytes.
    ends_quietly(&run(&["--table", "4063232", "-"], text.as_bytes()), 0, "RB 65536\n");
    ends(&run(&["--table", "4063231", "-"], text.as_bytes()), 11, "FU 65535\n");
}

#[test]
fn a_table_that_can_not_be_had_is_a_message() {
    for size in ["99999999999999", "9000000G", "18446744073709551615"] {
        let said = ends(&run(&["--table", size, "mp.order"], b""), 1, "");
        assert!(said.starts_with("order: mp.order: a table of "), "{said}");
        assert!(said.contains("memory"), "{said}");
    }
}

#[test]
fn memory_that_the_system_refuses_is_a_message_too() {
    let mut shell = Command::new("sh");
    let line = "ulimit -v 200000; exec \"$0\" --table 300M mp.order";
    shell.args(["-c", line, env!("CARGO_BIN_EXE_order")]).current_dir(models());
    let said = ends(&finish(&mut shell, b""), 1, "");
    assert_eq!(said, "order: mp.order: no memory for a table of 300 MiB and its index of 73.8 MiB\n");
}
