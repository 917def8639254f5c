//! Document 02, "Item 8. The table from its rule." Its numbers are those of document 01, section "Cosines", in 128 bits.

use crate::cosines::table_cosine;

/// "The numbers printed are T(0) to T(256), in order."
pub fn table() -> Vec<i64> {
    (0..=256).map(table_cosine).collect()
}

/// "a program prints it, one number a line"
pub fn table_text() -> Vec<u8> {
    let mut text = String::new();
    for number in table() {
        text += &format!("{number}\n");
    }
    text.into_bytes()
}
