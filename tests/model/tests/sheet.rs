//! What the program `sheet` printed through the reader, held against the model.

use model::store::{format, insert, length, read};

#[test]
fn records_of_list_0() {
    let mut words = vec![0; 52];
    assert_eq!(format(&mut words, 2, 6, 3), 0);
    for (position, record) in [(0, [1, 3120, 3050]), (1, [3, 2760, 2800]), (1, [2, 2870, 2910])] {
        insert(&mut words, 0, position, 2, &record, 65_535);
    }
    let mut text = String::new();
    for position in 0..length(&words, 0).expect("a sound store") {
        let record = read(&words, 0, position).expect("a record");
        text += &record.iter().map(|word| format!(" {word}")).collect::<String>();
        text += "\n";
    }
    assert_eq!(text, include_str!("../../../crates/sheet/stdout"));
}
