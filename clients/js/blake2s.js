/** BLAKE2s (RFC 7693) and HMAC (RFC 2104) over it, for signed references: browsers have neither of their own. */

const BLOCK = 64;
const MOST_DIGEST = 32;
const START = Uint32Array.of(
  0x6a09e667, 0xbb67ae85, 0x3c6ef372, 0xa54ff53a, 0x510e527f, 0x9b05688c, 0x1f83d9ab, 0x5be0cd19,
);
/** Which words of a block each of the ten rounds mixes, in order. */
const ROUNDS = [
  "0123456789abcdef", "ea489fd61c02b753", "b8c052fdae367194", "7931dcbe265a40f8", "905724afe1bc683d",
  "2c6a0b834d75fe19", "c51fed4a0763928b", "db7ec13950f4862a", "6fe9b308c2d714a5", "a2847615fb9e3cd0",
].map((row) => Array.from(row, (it) => parseInt(it, 16)));
/** The columns of the state, and its diagonals. */
const MIXED = [
  [0, 4, 8, 12], [1, 5, 9, 13], [2, 6, 10, 14], [3, 7, 11, 15],
  [0, 5, 10, 15], [1, 6, 11, 12], [2, 7, 8, 13], [3, 4, 9, 14],
];

const turned = (word, by) => (word >>> by) | (word << (32 - by));

/** @param {Uint32Array} v @param {number[]} places @param {number} one @param {number} other */
function mix(v, [a, b, c, d], one, other) {
  v[a] = v[a] + v[b] + one;
  v[d] = turned(v[d] ^ v[a], 16);
  v[c] = v[c] + v[d];
  v[b] = turned(v[b] ^ v[c], 12);
  v[a] = v[a] + v[b] + other;
  v[d] = turned(v[d] ^ v[a], 8);
  v[c] = v[c] + v[d];
  v[b] = turned(v[b] ^ v[c], 7);
}

/** @param {Uint32Array} state @param {Uint8Array} block @param {number} count @param {boolean} last */
function compress(state, block, count, last) {
  const view = new DataView(block.buffer, block.byteOffset, BLOCK);
  const words = Uint32Array.from({ length: 16 }, (_, n) => view.getUint32(4 * n, true));
  const v = new Uint32Array(16);
  v.set(state);
  v.set(START, 8);
  v[12] ^= count;
  v[13] ^= Math.floor(count / 2 ** 32);
  if (last) v[14] = ~v[14];
  for (const round of ROUNDS) {
    MIXED.forEach((places, n) => mix(v, places, words[round[2 * n]], words[round[2 * n + 1]]));
  }
  state.forEach((word, n) => (state[n] = word ^ v[n] ^ v[n + 8]));
}

/**
 * The digest of a message.
 * @param {Uint8Array} message @param {Uint8Array} [key] at most 32 bytes @param {number} [size] of the digest, 1 to 32
 */
export function blake2s(message, key = new Uint8Array(0), size = MOST_DIGEST) {
  const head = key.length > 0 ? BLOCK : 0;
  const all = new Uint8Array(Math.max(BLOCK, Math.ceil((head + message.length) / BLOCK) * BLOCK));
  all.set(key);
  all.set(message, head);
  const state = Uint32Array.from(START);
  state[0] ^= 0x01010000 ^ (key.length << 8) ^ size;
  for (let at = 0; at < all.length; at += BLOCK) {
    const last = at + BLOCK >= all.length;
    compress(state, all.subarray(at, at + BLOCK), last ? head + message.length : at + BLOCK, last);
  }
  const digest = new DataView(new ArrayBuffer(MOST_DIGEST));
  state.forEach((word, n) => digest.setUint32(4 * n, word, true));
  return new Uint8Array(digest.buffer, 0, size);
}

/** The code of a message under a key. @param {Uint8Array} key @param {Uint8Array} message */
export function hmac(key, message) {
  const padded = new Uint8Array(BLOCK);
  padded.set(key.length > BLOCK ? blake2s(key) : key);
  const hashed = (mask, body) => {
    const all = new Uint8Array(BLOCK + body.length);
    all.set(padded.map((it) => it ^ mask));
    all.set(body, BLOCK);
    return blake2s(all);
  };
  return hashed(0x5c, hashed(0x36, message));
}
