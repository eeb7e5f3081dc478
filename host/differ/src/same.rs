//! Comparing answers, and saying in words what differs.

use gandhrumil::Answer;

/// The library's answer against the reference's refusal and value.
pub fn same_answer(library: Answer, reference: (u128, u128)) -> Result<(), String> {
    let Answer { refusal, value } = library;
    if (u128::from(refusal), u128::from(value)) == reference {
        return Ok(());
    }
    let (right_refusal, right_value) = reference;
    Err(format!(
        "the library answers refusal {refusal} and {value}, right is refusal {right_refusal} and {right_value}"
    ))
}

/// Two digits for each byte, sixteen bytes to a line as a floor has its records.
pub fn hex(bytes: &[u8]) -> String {
    let digits = |record: &[u8]| -> String { record.iter().map(|b| format!("{b:02x}")).collect() };
    let records: Vec<String> = bytes.chunks(16).map(digits).collect();
    records.join("\n")
}
