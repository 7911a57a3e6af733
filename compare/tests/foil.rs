//! The program `foil` beside the independent implementation: its whole text, for the track that the
//! archive draws. `rt run` in crates/foil builds it.

use compare::archive;
use compare::directions::{letters, squares};
use compare::random::Random;
use compare::{bound, every_pair, Order};
use std::io::Write;
use std::process::{Command, Stdio};

const FOIL: &str = concat!(env!("CARGO_MANIFEST_DIR"), "/../crates/foil/out/foil");

/// What `foil` prints for an order.
fn foil(order: &Order) -> String {
    let mut child = Command::new(FOIL)
        .stdin(Stdio::piped())
        .stdout(Stdio::piped())
        .spawn()
        .expect("crates/foil/out/foil, which `rt run` in crates/foil builds");
    let Order { width, height, pitch, entry, exit } = order;
    let line = format!("{width} {height} {} {} {} {} {pitch}\n", entry.0, entry.1, exit.0, exit.1);
    child.stdin.take().unwrap().write_all(line.as_bytes()).unwrap();
    let output = child.wait_with_output().unwrap();
    assert!(output.status.success(), "{order:?}: {}", output.status);
    String::from_utf8(output.stdout).unwrap()
}

/// What it must print: class and count by the twin, letters and squares of the archive's track.
fn expected(order: &Order) -> String {
    match bound(order) {
        Err(refusal) => format!("refused {}\n", refusal as u32),
        Ok(found) => {
            let mut list = vec![0; 2 * found.count as usize];
            assert_eq!(archive::draw(order, &mut list).count, found.count, "{order:?}");
            let (class, cells) = (found.class, found.count);
            let (steps, squares, letters) = (cells - 1, squares(&list), letters(&list));
            format!("class cells steps squares\n{class} {cells} {steps} {squares}\n{letters}\n")
        }
    }
}

fn prints_as_expected(order: &Order) {
    assert_eq!(foil(order), expected(order), "{order:?}");
}

#[test]
fn squares_by_hand() {
    // One cell; two; straight; one corner; R-4's four cells; two corners, a straight cell and a corner.
    assert_eq!(squares(&[1, 1]), 100);
    assert_eq!(squares(&[1, 1, 2, 1]), 200);
    assert_eq!(squares(&[2, 1, 3, 1, 4, 1]), 300);
    assert_eq!(squares(&[1, 1, 2, 1, 2, 2]), 256);
    assert_eq!(squares(&[1, 1, 1, 2, 2, 2, 2, 1]), 312);
    assert_eq!(squares(&[3, 2, 3, 1, 2, 1, 2, 2, 2, 3, 1, 3]), 468);
}

/// The text for equal terminals is always this one, told without the twin.
#[test]
fn spots() {
    let panels = [(1, 1, (1, 1)), (5, 1, (3, 1)), (2, 6, (1, 4)), (3, 3, (2, 2)), (128, 128, (128, 128))];
    for (width, height, cell) in panels {
        let order = Order::new(width, height, 4_000, cell, cell);
        assert_eq!(foil(&order), "class cells steps squares\n6 1 0 100\n\n", "{order:?}");
        prints_as_expected(&order);
    }
}

#[test]
fn every_pair_up_to_four_by_four() {
    every_pair(4, 4_000).for_each(|order| prints_as_expected(&order));
}

#[test]
fn random_orders() {
    let mut random = Random::new(0x5EED_0008);
    for largest in [5, 16, 128].repeat(100) {
        let (width, height) = (random.within(1, largest), random.within(1, largest));
        let pitch = random.within(1_000, 10_000);
        prints_as_expected(&random.order(width, height, pitch));
    }
}

#[test]
fn the_largest_panel() {
    for exit in [(128, 128), (1, 128), (2, 1), (64, 77), (1, 1)] {
        prints_as_expected(&Order::new(128, 128, 4_000, (1, 1), exit));
    }
}
