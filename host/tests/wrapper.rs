//! The safe wrapper: its answers, and refusals as errors in words.

mod common;

use common::{Chance, Seen};
use livukoe::{
    ink_percentage, lent, Connectivity, Joint, Plate, Record, RecordForm, Refusal, Side, WorkSpace,
};

fn small() -> Plate {
    Plate::new(
        4,
        3,
        255,
        vec![10, 10, 10, 10, 10, 50, 30, 10, 10, 10, 10, 90],
    )
}

#[test]
fn refusals_in_words() {
    let refusal = small().clean(Side::Light, Connectivity::Four, 13);
    let refusal = refusal.unwrap_err();
    assert_eq!(refusal, Refusal::Limit);
    assert_eq!(refusal.number(), 4);
    let words = "refused 4: the limit is 0 or above the number of pixels";
    assert_eq!(refusal.to_string(), words);
}

#[test]
fn plates_that_are_none() {
    for (plate, refusal) in [
        (Plate::new(0, 0, 255, vec![]), Refusal::Grid),
        (Plate::new(32_769, 1, 0, vec![0; 32_769]), Refusal::Grid),
        (Plate::new(65_536, 65_536, 255, vec![]), Refusal::Grid),
        (Plate::new(u32::MAX, u32::MAX, 255, vec![]), Refusal::Grid),
        (Plate::new(4096, 4096, 255, vec![]), Refusal::PlateLength),
        (Plate::new(2, 2, 0, vec![0; 3]), Refusal::Greatest),
        (Plate::new(2, 2, 65_536, vec![0; 4]), Refusal::Greatest),
        (Plate::new(2, 2, 255, vec![256; 3]), Refusal::PlateLength),
        (Plate::new(2, 2, 255, vec![0; 5]), Refusal::PlateLength),
        (Plate::new(2, 1, 7, vec![0, 8]), Refusal::Grey),
    ] {
        assert_eq!(plate.to_pgm(), Err(refusal));
        let mut file = Vec::new();
        let error = plate.write_pgm(&mut file).expect_err("no file");
        assert_eq!(error.kind(), std::io::ErrorKind::InvalidInput);
        let held = error.into_inner().expect("what it holds");
        assert_eq!(held.downcast_ref(), Some(&refusal));
        assert_eq!(file, []);
        for connectivity in Connectivity::ALL {
            for side in Side::ALL {
                assert_eq!(plate.clean(side, connectivity, 1), Err(refusal));
            }
            assert_eq!(plate.regional_maxima(connectivity), Err(refusal));
            assert_eq!(plate.nodes(connectivity), Err(refusal));
            assert_eq!(plate.record(connectivity), Err(refusal));
        }
    }
}

#[test]
fn both_sides() {
    let light = small().clean(Side::Light, Connectivity::Four, 2);
    let wanted = vec![10, 10, 10, 10, 10, 30, 30, 10, 10, 10, 10, 90];
    assert_eq!(light, Ok(Plate::new(4, 3, 255, wanted)));
    let dark = small().clean(Side::Dark, Connectivity::Four, 10);
    assert_eq!(dark, Ok(small()), "every dark patch reaches the trim edge");
    let hole = Plate::new(3, 3, 255, vec![90, 80, 90, 90, 10, 90, 90, 90, 90]);
    let dark = hole.clean(Side::Dark, Connectivity::Four, 2);
    let wanted = vec![90, 80, 90, 90, 80, 90, 90, 90, 90];
    assert_eq!(dark, Ok(Plate::new(3, 3, 255, wanted)));
}

#[test]
fn nodes_by_number() {
    let nodes = small().nodes(Connectivity::Four).expect("nodes");
    assert_eq!(nodes.len(), 4);
    let levels: Vec<u32> = nodes.iter().map(|node| node.level).collect();
    assert_eq!(levels, [10, 30, 50, 90]);
    let node = nodes[2];
    assert_eq!((node.parent, node.area, node.anchor), (1, 1, 5));
}

#[test]
fn records_that_are_none() {
    let record = small().record(Connectivity::Eight).expect("a record");
    assert_eq!(record.plate(), Ok(small()));
    assert_eq!(record.cut(0), Err(Refusal::Limit));
    let mut bytes = record.bytes().to_vec();
    bytes.push(0);
    let longer = Record::from_bytes(bytes);
    assert_eq!(longer.plate(), Err(Refusal::RecordLong));
    assert_eq!(longer.cut(1), Err(Refusal::RecordLong));
    assert_eq!(longer.sizes(), Err(Refusal::RecordLong));
    assert_eq!(
        Record::from_bytes(vec![]).plate(),
        Err(Refusal::FieldUnended)
    );
}

/// The record of the small plate by each kind: pixel 11 is the lower right of pixel 6, which it touches with 6 and 8.
#[test]
fn records_of_each_kind() {
    let apart = ([1, 20, 2, 1, 20, 1, 3, 80, 1], "1 1 20\n2 1 40\nheld 80\n");
    let touching = ([1, 20, 3, 1, 20, 1, 2, 60, 1], "1 1 20\nheld 120\n");
    for (number, (nodes, list)) in [(4, apart), (6, touching), (8, touching)] {
        let connectivity = Connectivity::try_from(u32::from(number)).expect("a connectivity");
        let record = small().record(connectivity).expect("a record");
        let (head, own) = (
            [4, 3, number, 4, 10, 12],
            [0, 0, 0, 0, 0, 2, 1, 0, 0, 0, 0, 3],
        );
        let old = [&head[..], &nodes, &own].concat();
        assert_eq!(record.bytes(), [&[0, 2, 255, 1], &old[..]].concat());
        assert_forms(&record, Some(&Record::from_bytes(old)));
        assert_eq!(record.plate(), Ok(small()));
        for limit in 1..=12 {
            let clean = small().clean(Side::Light, connectivity, limit);
            assert_eq!(record.cut(limit), clean);
        }
        let sizes = record.sizes().expect("a size list").to_string();
        assert_eq!(sizes, format!("size 4 3 {number} 4\n{list}rest 10 96\n"));
    }
}

/// One call gives what the operations give one after another, refusals included.
#[test]
fn record_cut_and_sizes_at_once() {
    let mut chance = Chance::new(15);
    for _ in 0..2_000 {
        let job = chance.job(9);
        let limit = chance.limit(job.pixels());
        let Some(connectivity) = Connectivity::from_number(job.connectivity) else {
            continue;
        };
        let plate = job.owned();
        let apart = || {
            let record = plate.record(connectivity)?;
            let (cut, sizes) = (record.cut(limit)?, record.sizes()?);
            Ok(Joint { record, cut, sizes })
        };
        assert_eq!(plate.record_cut_sizes(connectivity, limit), apart());
    }
}

#[test]
fn ink() {
    for (grey, greatest, ink) in [
        (0, 255, 100),
        (255, 255, 0),
        (10, 255, 96),
        (1, 200, 100), // 99.5
        (1, 2, 50),
        (32_767, 65_535, 50),
        (65_535, 65_535, 0),
    ] {
        assert_eq!(ink_percentage(grey, greatest), Ok(ink));
    }
    for greatest in [0, 65_536, u32::MAX] {
        assert_eq!(ink_percentage(1, greatest), Err(Refusal::Greatest));
    }
    assert_eq!(ink_percentage(1_001, 1_000), Err(Refusal::Grey));
}

/// The conversions of a new record, there and back, where it has an old form, and where it has none.
fn assert_forms(new: &Record, old: Option<&Record>) {
    assert_eq!(new.to_form(RecordForm::New), Ok(new.clone()));
    let converted = new.to_form(RecordForm::Old);
    assert_eq!(converted, old.cloned().ok_or(Refusal::NoOldForm));
    if let Some(old) = old {
        assert_eq!(old.to_form(RecordForm::Old), Ok(old.clone()));
        assert_eq!(old.to_form(RecordForm::New), Ok(new.clone()));
    }
}

/// A record of each greatest grey is converted there and back, and both forms have one plate, one cut and one size list.
#[test]
fn forms_of_records() {
    let mut chance = Chance::new(25);
    for _ in 0..5_000 {
        let job = chance.plate(7);
        let limit = chance.limit(job.pixels());
        let connectivity = job.connectivity.try_into().expect("a connectivity");
        let new = job.owned().record(connectivity).expect("a record");
        let old = match job.greatest {
            255 => Some(Record::from_bytes(new.bytes()[4..].to_vec())),
            _ => None,
        };
        assert_forms(&new, old.as_ref());
        assert_eq!(new.plate(), Ok(job.owned()));
        assert_eq!(
            new.head().map(|head| (head.form, head.greatest)),
            Ok((RecordForm::New, job.greatest))
        );
        if let Some(old) = old {
            assert_eq!(old.plate(), new.plate());
            assert_eq!(old.cut(limit), new.cut(limit));
            assert_eq!(old.sizes(), new.sizes());
            assert_eq!(old.head().map(|head| head.form), Ok(RecordForm::Old));
        }
    }
}

#[test]
fn forms_by_name() {
    for (form, name) in [(RecordForm::Old, "old"), (RecordForm::New, "new")] {
        assert_eq!((form.name(), form.to_string().as_str()), (name, name));
        assert_eq!(RecordForm::from_name(name), Some(form));
    }
    for name in ["", "Old", "new ", "1"] {
        assert_eq!(RecordForm::from_name(name), None);
    }
}

/// The plate file is what the second program writes, refusals included, and is read as the plate.
#[test]
fn plate_files() {
    let mut chance = Chance::new(26);
    for _ in 0..40_000 {
        let job = chance.job(9);
        let mut bytes = job.file_by_reference();
        let refusal = job.write_by_reference(&mut bytes).refusal;
        let wanted = match refusal {
            0 => Ok(bytes),
            number => Err(Refusal::try_from(number).expect("a refusal")),
        };
        let file = job.owned().to_pgm();
        assert_eq!(file, wanted, "{job:?}");
        if let Ok(file) = file {
            assert_eq!(file.capacity(), file.len());
            assert_eq!(Plate::from_pgm(&file), Ok(job.owned()));
            let mut written = b"ahead".to_vec();
            job.owned().write_pgm(&mut written).expect("a file");
            assert_eq!(written, [b"ahead", &file[..]].concat());
        }
    }
}

/// An error of writing is handed on as it is.
#[test]
fn a_plate_file_without_room() {
    let mut room = [0; 10];
    let error = small().write_pgm(&mut room[..]).expect_err("no room");
    assert_eq!(error.kind(), std::io::ErrorKind::WriteZero);
    assert_eq!(&room, b"P5\n4 3\n255");
}

/// The text of a size list is what the second program prints, refusals included.
#[test]
fn the_text_of_sizelist() {
    let mut chance = Chance::new(14);
    for _ in 0..20_000 {
        let mut file = chance.plate(9).file();
        if chance.one_in(4) {
            chance.damage(&mut file);
        }
        let list = Plate::from_pgm(&file)
            .and_then(|plate| plate.record(Connectivity::Four))
            .and_then(|record| record.sizes());
        let text = match list {
            Ok(list) => list.to_string(),
            Err(refusal) => format!("refused {}\n", refusal.number()),
        };
        assert_eq!(text, reference::sizelist_text(&file));
    }
}

/// Buffers are handed out as they are.
#[test]
fn greys_and_bytes_without_a_copy() {
    let plate = small();
    let start = plate.greys().as_ptr();
    let greys = plate.into_greys();
    assert_eq!(greys.as_ptr(), start);
    let record = small().record(Connectivity::Four).expect("a record");
    let start = record.bytes().as_ptr();
    let bytes = record.into_bytes();
    assert_eq!(bytes.as_ptr(), start);
}

#[test]
fn sides_by_number_and_name() {
    for (side, number, name) in [(Side::Light, 1, "light"), (Side::Dark, 2, "dark")] {
        assert_eq!((side.number(), side.name()), (number, name));
        assert_eq!(number.try_into(), Ok(side));
        assert_eq!(side.to_string(), name);
        assert_eq!(name.parse(), Ok(side));
        assert_eq!(number.to_string().parse(), Ok(side));
    }
    for number in [0, 3, 26, u32::MAX] {
        assert_eq!(Side::try_from(number), Err(Refusal::Side));
    }
    for text in ["", "0", "3", "01", "+1", "1 ", "Light", "dark ", "open"] {
        assert_eq!(text.parse::<Side>(), Err(Refusal::Side));
    }
}

#[test]
fn connectivities_and_refusals_by_number() {
    for (connectivity, number) in Connectivity::ALL.into_iter().zip([4, 6, 8]) {
        assert_eq!(connectivity.number(), number);
        assert_eq!(number.try_into(), Ok(connectivity));
        assert_eq!(connectivity.to_string().parse(), Ok(connectivity));
    }
    for number in [0, 1, 5, 7, 9, u32::MAX] {
        assert_eq!(Connectivity::try_from(number), Err(Refusal::Connectivity));
    }
    for text in ["", "4 ", "+4", "04", "06", "four", "12"] {
        assert_eq!(text.parse::<Connectivity>(), Err(Refusal::Connectivity));
    }
    for refusal in (0..100).filter_map(|number| Refusal::try_from(number).ok()) {
        assert_eq!(refusal.number().try_into(), Ok(refusal));
        assert_eq!(refusal.number().to_string().parse(), Ok(refusal));
    }
    for text in ["", "0", "13", "four"] {
        let unknown = text.parse::<Refusal>().unwrap_err();
        let words = format!("no refusal has the number {text:?}");
        assert_eq!(unknown.to_string(), words);
    }
}

/// What every operation answers in a work space.
fn answers(work: &mut WorkSpace, plate: &Plate, connectivity: Connectivity, limit: u32) -> String {
    let record = work.record(plate, connectivity);
    let joint = work.record_cut_sizes(plate, connectivity, limit);
    let of_record = record.clone().map(|record| {
        let (plate, cut) = (work.plate(&record), work.cut(&record, limit));
        let forms = RecordForm::ALL.map(|form| work.to_form(&record, form));
        (plate, cut, forms, work.sizes(&record))
    });
    let clean = Side::ALL.map(|side| work.clean(plate, side, connectivity, limit));
    format!(
        "{clean:?} {:?} {:?} {record:?} {of_record:?} {joint:?}",
        work.regional_maxima(plate, connectivity),
        work.nodes(plate, connectivity),
    )
}

/// A work space that has served other plates answers as a fresh one does.
#[test]
fn a_shared_work_space() {
    let mut chance = Chance::new(16);
    let mut shared = WorkSpace::new();
    assert_eq!(shared.pixels(), 0);
    let mut greatest = 0;
    for _ in 0..2_000 {
        let job = chance.job(9);
        let limit = chance.limit(job.pixels());
        let Ok(connectivity) = job.connectivity.try_into() else {
            continue;
        };
        let plate = job.owned();
        let fresh = &mut WorkSpace::for_pixels(plate.greys().len());
        assert_eq!(
            answers(&mut shared, &plate, connectivity, limit),
            answers(fresh, &plate, connectivity, limit)
        );
        greatest = greatest.max(plate.greys().len());
    }
    assert_eq!(shared.pixels(), greatest);
}

/// A plate of more greys than any plate has is refused as a smaller one is.
#[test]
fn too_many_greys() {
    let plate = Plate::new(1, 1, 255, vec![0; livukoe::MAX_PIXELS + 1]);
    let mut work = WorkSpace::new();
    let refusal = Err(Refusal::PlateLength);
    let clean = work.clean(&plate, Side::Light, Connectivity::Four, 1);
    assert_eq!(clean, refusal);
    assert_eq!(work.pixels(), livukoe::MAX_PIXELS);
    assert_eq!(plate.to_pgm(), Err(Refusal::PlateLength));
}

#[test]
fn heads_of_records() {
    for connectivity in Connectivity::ALL {
        let record = small().record(connectivity).expect("a record");
        let head = record.head().expect("its head");
        assert_eq!((head.width, head.height, head.nodes), (4, 3, 4));
        assert_eq!(head.connectivity, connectivity);
    }
    for (bytes, refusal) in [
        (&[][..], Refusal::FieldUnended),
        (&[4, 3, 4], Refusal::FieldUnended),
        (&[132, 0], Refusal::FieldForm),
        (&[0], Refusal::FieldUnended),
        (&[0, 3], Refusal::FieldRange),
        (&[128, 0], Refusal::FieldForm),
        (&[0, 2, 0], Refusal::FieldRange),
        (&[0, 2, 128, 128, 4], Refusal::FieldRange), // 65536
        (&[0, 2, 255, 1, 0], Refusal::FieldRange),
        (&[128, 128, 2, 129, 4], Refusal::FieldRange), // 32768 x 513
        (&[4, 3, 5], Refusal::FieldRange),
        (&[4, 3, 7], Refusal::FieldRange),
        (&[4, 3, 4, 13], Refusal::FieldRange),
    ] {
        let record = Record::from_bytes(bytes.to_vec());
        assert_eq!(record.head(), Err(refusal));
    }
}

/// Where a record is damaged.
#[test]
fn faults_of_records() {
    for (bytes, words) in [
        (
            &[][..],
            "byte 0: the width is not ended; the record has 0 bytes",
        ),
        (&[4, 0], "byte 1: the height is 0; 1 to 32768"),
        (&[0, 3], "byte 1: the second field is 3; 2 in the new form"),
        (&[0, 2, 0], "byte 2: the greatest grey is 0; 1 to 65535"),
        (&[0, 2, 255, 1, 0], "byte 4: the width is 0; 1 to 32768"),
        (
            &[0, 2, 100, 1, 1, 4, 1, 101],
            "byte 7: the root's level is 101; 0 to 100",
        ),
        (
            &[0, 2, 100, 2, 1, 4, 2, 95, 2, 1, 6],
            "byte 10: the rise of node 1 is 6; 1 to 5",
        ),
        (
            &[4, 132, 0],
            "byte 1: the height is not in its shortest form, or is above 4294967295",
        ),
        (&[4, 3, 5], "byte 2: the connectivity is 5; 4, 6 or 8"),
        (
            &[2, 1, 4, 2, 250, 1, 2, 1, 6],
            "byte 8: the rise of node 1 is 6; 1 to 5",
        ),
        (
            &[1, 1, 4, 1, 7, 1, 1],
            "byte 6: the own node of pixel 0 is 1; 0 to 0",
        ),
    ] {
        let fault = Record::from_bytes(bytes.to_vec()).fault();
        assert_eq!(fault.expect("a fault").to_string(), words);
    }
    let longer = Record::from_bytes(vec![1, 1, 4, 1, 7, 1, 0, 9, 9]);
    assert_eq!((longer.fault(), longer.left_over()), (None, 2));
}

/// The walk over the fields finds what the proved reader refuses with 20, 21 and 22, and nothing else.
#[test]
fn faults_are_those_of_the_proved_reader() {
    let mut chance = Chance::new(17);
    let mut seen = Seen::default();
    let (mut out, mut work) = (vec![0; 1 << 12], vec![0; 8 << 12]);
    for _ in 0..100_000 {
        let mut bytes = record_by_chance(&mut chance);
        chance.damage(&mut bytes);
        let record = Record::from_bytes(bytes);
        if record.head().is_ok_and(|head| head.pixels() > out.len()) {
            continue; // the buffers here are small
        }
        let proved = lent::read_record(record.bytes(), &mut out, &mut work).refusal;
        seen.note(proved);
        let fault = record.fault().map_or(0, |fault| fault.refusal.number());
        let wanted = if (20..23).contains(&proved) {
            proved
        } else {
            0
        };
        assert_eq!(fault, wanted, "{:?}", record.bytes());
        assert_eq!(record.left_over() > 0, proved == 23, "{:?}", record.bytes());
        let answer = record.plate().map_or_else(Refusal::number, |_| 0);
        assert_eq!(answer, proved, "{:?}", record.bytes());
    }
    seen.assert_all(&[0, 20, 21, 22, 23, 24]);
}

/// The record of a small plate by chance, in either form.
fn record_by_chance(chance: &mut Chance) -> Vec<u8> {
    let plate = chance.plate(6);
    let connectivity = plate.connectivity.try_into().expect("a connectivity");
    let record = plate.owned().record(connectivity).expect("a record");
    let old = record.to_form(RecordForm::Old);
    match chance.one_in(2) {
        true => old.unwrap_or(record).into_bytes(),
        false => record.into_bytes(),
    }
}
