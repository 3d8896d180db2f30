// The header of a key block in words: the tables of ANSI X9.143 (TR-31).

const USAGES = {
  B0: "base derivation key (BDK)", B1: "initial key (IPEK)", B2: "base key variant key",
  B3: "key derivation key (not ANSI X9.24)", C0: "card verification key",
  D0: "symmetric key for data encryption", D1: "asymmetric key for data encryption",
  D2: "data encryption key for a decimalization table", D3: "data encryption key for sensitive data",
  E0: "EMV issuer master key: application cryptograms",
  E1: "EMV issuer master key: secure messaging, confidentiality",
  E2: "EMV issuer master key: secure messaging, integrity",
  E3: "EMV issuer master key: data authentication code",
  E4: "EMV issuer master key: dynamic numbers", E5: "EMV issuer master key: card personalization",
  E6: "EMV issuer master key: other", E7: "EMV asymmetric key pair for PIN encryption",
  I0: "initialization vector", K0: "key encryption or wrapping",
  K1: "key block protection key (KBPK)", K2: "TR-34 asymmetric key",
  K3: "asymmetric key for key agreement or wrapping", K4: "key block protection key of ISO 20038",
  M0: "MAC: ISO 16609 algorithm 1 (TDES)", M1: "MAC: ISO 9797-1 algorithm 1",
  M2: "MAC: ISO 9797-1 algorithm 2", M3: "MAC: ISO 9797-1 algorithm 3 (retail MAC)",
  M4: "MAC: ISO 9797-1 algorithm 4", M5: "MAC: ISO 9797-1:1999 algorithm 5",
  M6: "MAC: ISO 9797-1:2011 algorithm 5 (CMAC)", M7: "HMAC", M8: "MAC: ISO 9797-1:2011 algorithm 6",
  P0: "PIN encryption", P1: "PIN generation", S0: "asymmetric key pair for digital signature",
  S1: "asymmetric key pair of a certificate authority", S2: "asymmetric key pair, not ANSI X9.24",
  V0: "PIN verification, other algorithm", V1: "PIN verification, IBM 3624",
  V2: "PIN verification, Visa PVV", V3: "PIN verification, ANSI X9.132 algorithm 1",
  V4: "PIN verification, ANSI X9.132 algorithm 2", V5: "PIN verification, ANSI X9.132 algorithm 3",
};
const ALGORITHMS = {
  A: "AES", D: "single DES", E: "elliptic curve", H: "HMAC", R: "RSA", S: "DSA", T: "TDES",
};
const MODES = {
  B: "both encipher and decipher, or wrap and unwrap", C: "both generate and verify",
  D: "decipher or unwrap only", E: "encipher or wrap only", G: "generate only",
  N: "no special restrictions", S: "signature only", T: "both sign and decipher", V: "verify only",
  X: "to derive other keys", Y: "to create key variants",
};
const EXPORTABILITIES = {
  E: "exportable under a trusted key", N: "not exportable",
  S: "sensitive: exportable under a key that may not be trusted",
};
const OPTIONAL = {
  AL: "life of an asymmetric key", BI: "identifier of the base derivation key", CT: "certificate",
  DA: "derivations that are allowed", HM: "hash algorithm of HMAC",
  IK: "initial key identifier of AES DUKPT", KC: "check value of the wrapped key",
  KP: "check value of the key block protection key", KS: "key serial number",
  KV: "version of the values", LB: "label", PB: "padding", TC: "time of creation",
  TS: "time stamp", WP: "wrapping pedigree",
};

const inTable = (table) => (text) =>
  table[text] ?? (/^\d/.test(text) ? "for proprietary use (numeric)" : "no value of the standard");

function versionWords(text) {
  if (text === "00") return "key versions are not used";
  return text.startsWith("c") ? `component ${text[1]} of a key` : `version ${text} of the key`;
}

function countWords(text) {
  if (!/^\d\d$/.test(text)) return "no decimal number of optional blocks";
  const count = Number(text);
  return `${count || "no"} optional block${count === 1 ? "" : "s"}`;
}

// Of usages by their fronts the modes that they have: to encipher, to make MACs, to derive.
const MODES_OF = [
  { usages: /^(D[023]|K[014]|P0)$/, modes: "BDEN", words: "enciphers" },
  { usages: /^(C0|M\d|V\d)$/, modes: "CGNV", words: "makes or verifies values" },
  { usages: /^B[01]$/, modes: "NX", words: "derives keys" },
];

/** What is doubtful about the header of a block to be made for a TDES key: sentences. */
export function doubtsOf({ usage, algorithm, mode, exportability }) {
  const named = [["usage", usage, USAGES], ["algorithm", algorithm, ALGORITHMS],
    ["mode", mode, MODES], ["exportability", exportability, EXPORTABILITIES]];
  const doubts = named.filter(([, text, table]) => !(text in table))
    .map(([name, text]) => `The ${name} ${text} is none of the standard.`);
  const use = MODES_OF.find((it) => it.usages.test(usage));
  if (use && mode in MODES && !use.modes.includes(mode)) {
    doubts.push(`A key of usage ${usage} ${use.words}, which mode ${mode} does not allow.`);
  }
  if (algorithm in ALGORITHMS && algorithm !== "T") {
    doubts.push(`The key is wrapped as one of TDES, and algorithm ${algorithm} is ${ALGORITHMS[algorithm]}.`);
  }
  return doubts;
}

/** What the text of each header field means. A value that the standard lacks is said to be so. */
export const WORDS = {
  usage: inTable(USAGES),
  algorithm: inTable(ALGORITHMS),
  mode: inTable(MODES),
  "key-version": versionWords,
  exportability: inTable(EXPORTABILITIES),
  count: countWords,
  optional: (id) => `optional block ${id}: ${OPTIONAL[id] ?? "no id of the standard"}`,
};
