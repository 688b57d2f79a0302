// Amounts as people write them: 25,000,000, 25 000 000, 25m or 2.5bn.

const FORM = /^(\d+|\d{1,3}(?:([ ,'_\u00a0\u202f])\d{3})(?:\2\d{3})*)(?:\.(\d+))?\s*(k|m|mn|b|bn)?$/;
const ZEROS = { k: 3, m: 6, mn: 6, b: 9, bn: 9 };

/** The whole number that a text is, as digits, or null if it is none. */
export function amountOf(text) {
  const found = FORM.exec(text.trim().toLowerCase());
  if (!found) return null;
  const [, whole, , part = "", unit] = found;
  const zeros = unit ? ZEROS[unit] : 0;
  if (part.length > zeros) return null;
  return String(BigInt(whole.replace(/\D/g, "") + part + "0".repeat(zeros - part.length)));
}
