//! Streams of records, and the records near a small one.

use second::compare::difference;
use second::make::make;
use second::nearby::{driven, whole};
use second::sheet::sheet;
use second::stream::{agree, stream, texts};
use second::what::What;

#[test]
fn a_stream_gives_each_record_its_text() {
    let bytes = stream("prefix", 197, 0, &[]).unwrap();
    for what in What::ALL {
        let text = texts(what, &bytes).unwrap();
        assert_eq!(text.matches("\n\n").count(), 197);
        assert!(agree(what, &text, "prefix", 197, 0, &[]).unwrap().is_ok());
    }
    assert!(texts(What::Sheet, &bytes).unwrap().starts_with("refused 15 field 1\n\n"));
    assert!(texts(What::Trace, &bytes).unwrap().starts_with("refused 15 field 1\n\n"));
    assert!(texts(What::Fields, &bytes).unwrap().starts_with("1 0 refused 15\n\n"));
    let desk = "refused 15 field 1\n1 0 refused 15\n\n";
    assert!(texts(What::Desk, &bytes).unwrap().starts_with(desk));
}

#[test]
fn a_stream_that_ends_inside_a_record_has_no_texts() {
    let bytes = stream("prefix", 2, 100, &[]).unwrap();
    assert_eq!(texts(What::Sheet, &bytes[..bytes.len() - 1]), None);
    assert_eq!(texts(What::Desk, &bytes[..3]), None);
}

#[test]
fn another_text_is_found_and_its_seed_named() {
    for (what, is, other) in [
        (What::Sheet, "refused 15 field 2", "refused 15 field 3"),
        (What::Trace, "refused 15 field 2", "refused 15 field 3"),
        (What::Fields, "2 7 refused 15", "2 8 refused 15"),
        (What::Desk, "2 7 refused 15", "2 8 refused 15"),
    ] {
        let text = texts(what, &stream("prefix", 9, 0, &[]).unwrap()).unwrap();
        let changed = text.replacen(is, other, 1);
        let said = agree(what, &changed, "prefix", 9, 0, &[]).unwrap().unwrap_err();
        assert!(said.starts_with("prefix seed 7 differs in line "), "{said}");
        assert!(said.contains(&format!("ours \"{is}\\n\", theirs \"{other}\\n\"")), "{said}");
        assert!(said.contains(&format!("\nour {}:\n", what.word())), "{said}");
        let more = format!("{text}\n");
        assert!(agree(what, &more, "prefix", 9, 0, &[]).unwrap().is_err());
        let less = &text[..text.len() - 1];
        let said = agree(what, less, "prefix", 9, 0, &[]).unwrap().unwrap_err();
        assert!(said.starts_with("prefix seed 8 differs in line "), "{said}");
    }
}

/// Of texts of millions of lines only those about the difference are shown.
#[test]
fn a_difference_in_long_texts() {
    let ours: String = (0..9000).map(|at| format!("{at}\n")).collect();
    let theirs = ours.replacen("4000\n", "x\n", 1);
    let said = difference(What::Fields, &ours, &theirs);
    assert!(
        said.starts_with("in line 4001: ours \"4000\\n\", theirs \"x\\n\"\nour fields:\n3500\n")
    );
    assert_eq!(said.lines().count(), 1 + 1 + 1000 + 1 + 1000);
    let cut = difference(What::Fields, "1\n2\n", "1\n2");
    assert!(cut.starts_with("in line 2: ours \"2\\n\", theirs \"2\"\n"));
    assert!(
        difference(What::Fields, "1\n", "").starts_with("in line 1: ours \"1\\n\", theirs \"\"\n")
    );
}

#[test]
fn the_whole_record_is_told_and_every_change_changes_a_byte() {
    let record = whole();
    let told = "run LTESTVEH000000001\nend none 5\ncycles 0\noutside 2\npassed 1\ndrawn 5880000\nrefused 10\n";
    assert_eq!(sheet(&record), told);
    assert_eq!(make("prefix", record.len() as u64, &[]).unwrap(), record);
    assert_eq!(record.len(), 196);
    for seed in [0, 254, 255, 195 * 255 + 254] {
        let changed = make("change", seed, &[]).unwrap();
        assert_eq!((changed.len(), differ(&record, &changed)), (196, 1), "seed {seed}");
    }
}

fn differ(one: &[u8], other: &[u8]) -> usize {
    one.iter().zip(other).filter(|(a, b)| a != b).count()
}

/// E begins at sample 161 with 150. It is below 70 from its 42nd sample on, so
/// the 80th of these is its 121st: 161 + 120 are counted. E's first sample
/// closes cycle 4: d_4 = 39 × 200 + 250 and q_4 = 715,527, the others have
/// 720,000. In units of 1,440,000 the energies are 40 each and E = 281:
/// W = (2 × 80 × 720,000 + 201 × 1,435,527) / (2 × 281).
#[test]
fn the_driven_record_is_told_and_its_stretches_are_changed() {
    let record = driven();
    let told = "run LTESTVEH000000001\nend stop 281\ncycles 4\noutside 0\npassed 0\n\
                drawn 404640000\nweighted 718400\nrange 39\nac 384615\n";
    assert_eq!(sheet(&record), told);
    let changed = |byte: u64, by: u64| make("change", (196 + byte) * 255 + by - 1, &[]).unwrap();
    for byte in 0..6 {
        for by in [1, 255] {
            assert_eq!(differ(&record, &changed(byte, by)), 1);
        }
    }
    assert_eq!(sheet(&changed(3, 255)), "refused 19 field 5\n");
    assert!(sheet(&changed(3, 1)).contains("end stop 281\ncycles 4\n"));
    assert!(sheet(&changed(4, 1)).contains("end none 317\ncycles 4\n"));
    assert!(sheet(&changed(5, 2)).contains("end stop 280\ncycles 4\n"));
}
