// Moments in kN·m to two places, never rounded down: what is read on site must not be less than what was worked out.

/** @param {number} hundredths of a kN·m */
function twoPlaces(hundredths) {
    return `${Math.floor(hundredths / 100)}.${String(hundredths % 100).padStart(2, '0')}`;
}

/** @param {number} nCm a whole number of N·cm, as the table has its sections */
export function kNm(nCm) {
    return twoPlaces(Math.ceil(nCm / 1000));
}

/** @param {number} nM a whole number of N·m, as the table has its static moments */
export function kNmOfNm(nM) {
    return twoPlaces(Math.ceil(nM / 10));
}
