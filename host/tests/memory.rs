//! How much memory the wrapper touches. It is one test in a program of its own, since the greatest use so far counts for
//! the whole process.
#![cfg(target_os = "linux")]

use std::fs;

use livukoe::{Connectivity, Plate, Record, RecordForm, Refusal, MAX_PIXELS};

/// The most memory that this process has had, in MiB.
fn most_mebibytes() -> usize {
    let status = fs::read_to_string("/proc/self/status").expect("the status");
    let line = status.lines().find(|line| line.starts_with("VmHWM:"));
    let words = line.expect("the most memory").split_whitespace();
    let kibibytes = words
        .rev()
        .nth(1)
        .and_then(|word| word.parse::<usize>().ok());
    kibibytes.expect("a number") / 1024
}

#[test]
fn what_is_touched() {
    // 4096 x 4096 pixels in a few bytes: refused without their work space, which is 512 MiB
    for (bytes, refusal) in [
        (&[128, 32, 128, 32, 4, 1, 7][..], Refusal::FieldUnended),
        (&[128, 32, 128, 32, 4, 1, 7, 0, 0], Refusal::FieldRange),
        (&[128, 32, 128, 32, 4, 1, 7, 128, 0], Refusal::FieldForm),
        (
            &[0, 2, 255, 1, 128, 32, 128, 32, 4, 1, 7],
            Refusal::FieldUnended,
        ),
    ] {
        let record = Record::from_bytes(bytes.to_vec());
        assert_eq!(record.plate(), Err(refusal));
        assert_eq!(record.cut(1), Err(refusal));
        assert_eq!(record.sizes(), Err(refusal));
        for form in RecordForm::ALL {
            assert_eq!(record.to_form(form), Err(refusal));
        }
    }
    // and no grey for 4096 x 4096 pixels: refused without the space of their file
    let none = Plate::new(4096, 4096, 255, Vec::new());
    assert_eq!(none.to_pgm(), Err(Refusal::PlateLength));
    assert!(most_mebibytes() < 40, "{} MiB", most_mebibytes());

    // the file of a plate of 32 MiB has a byte a pixel, 16 MiB
    let plate = Plate::new(4096, 4096, 255, vec![9; MAX_PIXELS]);
    let file = plate.to_pgm().expect("a file");
    assert_eq!(file.len(), file.capacity());
    assert!(most_mebibytes() < 60, "{} MiB", most_mebibytes());
    drop(file);

    // the node list of a flat plate has one node: the plate is 32 MiB, its work space 512
    let nodes = plate.nodes(Connectivity::Four).expect("nodes");
    assert_eq!((nodes.len(), nodes.capacity()), (1, 1));
    assert!(most_mebibytes() < 600, "{} MiB", most_mebibytes());
}
