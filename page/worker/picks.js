// How often the next pick is which record, right after a restart, if all random words are as
// likely.
//
// A pick takes one of the two tables, each as likely if both have records, and then searches in
// rounds. A round begins at a slot of the table and goes on in its bucket to the next record; from
// a bucket without one it begins again. The record is taken by its chance, which is 1 without
// failed tries and falls by a third with each, to the eighth; each refusal raises all chances by a
// fifth.
const ONE = 1n << 30n, TOP = 1n << 60n;

// The chance of a record with so many failed tries, of 2^30.
function chanceOf(tries) {
  const power = BigInt(Math.min(tries, 8));
  return ONE * 33n ** power / 50n ** power;
}

// How many slots of its bucket a round may begin at so that it comes to each record.
function startsOf(view, first, end) {
  const starts = new Float64Array(view.tries.length);
  for (let bucket = first; bucket < end; bucket += 64) {
    const used = [];
    for (let slot = 0; slot < 64; slot++)
      if (view.slots[bucket + slot] >= 0) used.push(slot);
    used.forEach((slot, i) => {
      starts[view.slots[bucket + slot]] += (slot - used.at(i - 1) + 64) % 64 || 64;
    });
  }
  return starts;
}

// The part of 1 by which a record of a chance is taken, when chances are raised by a factor.
function acceptedAt(chance, factor) {
  const part = (chance * factor + ONE - 1n) / ONE;
  return part < ONE ? Number(part) / Number(ONE) : 1;
}

// By number of tries, the part of the searches that end at a record, for each of its starts; null
// if the table is empty.
function weightsOf(starts, tries) {
  const sums = Array(9).fill(0), weights = Array(9).fill(0);
  const chances = sums.map((_, power) => chanceOf(power));
  starts.forEach((count, r) => { sums[Math.min(tries[r], 8)] += count; });
  const total = sums.reduce((a, b) => a + b, 0);
  let factor = ONE, left = total ? 1 : 0;
  while (left > 0) {
    let refused = 0;
    for (let power = 0; power < 9; power++) {
      const accepted = acceptedAt(chances[power], factor);
      weights[power] += left * accepted / total;
      refused += sums[power] * (1 - accepted);
    }
    left *= refused / total;
    factor = factor + factor / 5n < TOP ? factor + factor / 5n : TOP;
  }
  return total ? weights : null;
}

// The share of the picks that each record has.
function sharesOf(view) {
  const { tries } = view;
  const shares = new Float64Array(tries.length), parts = [];
  for (const [first, end] of [[0, NEW_SLOTS], [NEW_SLOTS, CELLS]]) {
    const starts = startsOf(view, first, end), weights = weightsOf(starts, tries);
    if (weights) parts.push({ starts, weights });
  }
  for (const { starts, weights } of parts)
    for (let r = 0; r < shares.length; r++)
      shares[r] += starts[r] * weights[Math.min(tries[r], 8)] / parts.length;
  return shares;
}
