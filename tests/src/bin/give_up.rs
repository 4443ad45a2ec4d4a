//! Prints how long it is until a sender gives up, at each k and speed. Built with `linked`, it
//! counts the library's periods too.

use order_line_tests::calls::Reference;
use order_line_tests::give_up::{from_opening, in_mid_session, on_a_busy_machine, seconds};
use order_line_tests::reference::block::LENGTHS;
use order_line_tests::reference::loop_time::SPEEDS;

fn main() {
    println!("Until the sender gives up: block periods, and seconds at each speed in bit/s.");
    println!("At \"none\" the loop table has no entry.");
    println!("\nEvery reading is 1 from opening on:\n");
    print_table(|k| from_opening(&Reference, k));
    println!("\nEvery reading is 1 from some block in mid-session on:\n");
    print_table(|k| in_mid_session(&Reference, k));
    println!("\nThe machine is never ready; from its first wait, at item 0, on:\n");
    print_table(|k| on_a_busy_machine(&Reference, k, 0).from_wait);
    println!("\nThe machine takes item 0 and is never ready again; from its first wait, at item 1, on:\n");
    print_table(|k| on_a_busy_machine(&Reference, k, 1).from_wait);
    #[cfg(feature = "linked")]
    count_library();
}

fn print_table(periods: impl Fn(usize) -> usize) {
    let speeds = SPEEDS.map(|speed| speed.to_string());
    println!("| k | periods | {} |", speeds.join(" | "));
    println!("|---|---|{}", "---|".repeat(SPEEDS.len()));
    for k in LENGTHS {
        let periods = periods(k);
        let cells = SPEEDS.map(|speed| match seconds(periods, k, speed) {
            Some(seconds) => format!("{seconds:.1}"),
            None => String::from("none"),
        });
        println!("| {k} | {periods} | {} |", cells.join(" | "));
    }
}

#[cfg(feature = "linked")]
fn count_library() {
    use order_line_tests::give_up::ITEMS;
    use order_line_tests::link::Library;
    for k in LENGTHS {
        assert_eq!(from_opening(&Library, k), from_opening(&Reference, k));
        assert_eq!(in_mid_session(&Library, k), in_mid_session(&Reference, k));
        for taken in 0..=ITEMS {
            let periods = on_a_busy_machine(&Library, k, taken);
            assert_eq!(periods, on_a_busy_machine(&Reference, k, taken));
        }
    }
    println!("\nThe library takes as many periods.");
}
