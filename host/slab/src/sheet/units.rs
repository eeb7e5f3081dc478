//! Moments in kN·m to two places, never rounded down.

pub fn kn_m_of_n_cm(moment: u32) -> String {
    hundredths(moment.div_ceil(1_000))
}

pub fn kn_m_of_n_m(moment: u32) -> String {
    hundredths(moment.div_ceil(10))
}

fn hundredths(number: u32) -> String {
    format!("{}.{:02}", number / 100, number % 100)
}
