// Names of numbers that are registered: tags, and the labels of COSE and CWT.

/** Tags (IANA, CBOR Tags): those of RFC 8949, section 3.4, and others that are in use. */
const TAGS = new Map([
    [0, 'date and time as text'], [1, 'seconds since 1970'], [2, 'unsigned bignum'], [3, 'negative bignum'],
    [4, 'decimal fraction'], [5, 'bigfloat'], [16, 'COSE_Encrypt0'], [17, 'COSE_Mac0'], [18, 'COSE_Sign1'],
    [21, 'base64url expected'], [22, 'base64 expected'], [23, 'base16 expected'], [24, 'encoded CBOR item'],
    [25, 'reference to a string'], [28, 'shared value'], [29, 'reference to a shared value'], [30, 'rational number'],
    [32, 'URI'], [33, 'base64url text'], [34, 'base64 text'], [35, 'regular expression'], [36, 'MIME message'], [37, 'UUID'],
    [38, 'text with its language'], [40, 'multi-dimensional array'], [41, 'homogeneous array'], [42, 'content identifier (IPLD)'],
    [52, 'IPv4 address'], [54, 'IPv6 address'], [61, 'CBOR Web Token (CWT)'], [63, 'encoded CBOR sequence'],
    [96, 'COSE_Encrypt'], [97, 'COSE_Mac'], [98, 'COSE_Sign'], [100, 'days since 1970'], [103, 'geographic coordinates'],
    [110, 'relative object identifier'], [111, 'object identifier'], [256, 'namespace of string references'], [257, 'binary MIME message'],
    [258, 'set'], [259, 'map'], [260, 'network address'], [261, 'network address prefix'], [1001, 'time'], [1002, 'duration'],
    [1003, 'period'], [1004, 'date as text'], [55799, 'self-described CBOR'], [55800, 'self-described CBOR sequence'],
]);

const TYPED_ARRAYS = new Map([
    [64, '8-bit unsigned integers'], [65, '16-bit unsigned integers, big-endian'], [66, '32-bit unsigned integers, big-endian'],
    [67, '64-bit unsigned integers, big-endian'], [68, '8-bit unsigned integers, clamped'], [69, '16-bit unsigned integers, little-endian'],
    [70, '32-bit unsigned integers, little-endian'], [71, '64-bit unsigned integers, little-endian'], [72, '8-bit signed integers'],
    [73, '16-bit signed integers, big-endian'], [74, '32-bit signed integers, big-endian'], [75, '64-bit signed integers, big-endian'],
    [77, '16-bit signed integers, little-endian'], [78, '32-bit signed integers, little-endian'], [79, '64-bit signed integers, little-endian'],
    [80, '16-bit floats, big-endian'], [81, '32-bit floats, big-endian'], [82, '64-bit floats, big-endian'], [83, '128-bit floats, big-endian'],
    [84, '16-bit floats, little-endian'], [85, '32-bit floats, little-endian'], [86, '64-bit floats, little-endian'],
    [87, '128-bit floats, little-endian'],
]);

/** The name of a tag, or undefined. */
export function tagName(number) {
    const array = TYPED_ARRAYS.get(Number(number));
    return array ? `typed array of ${array}` : TAGS.get(Number(number));
}

/** Claims of a CWT (RFC 8392, section 3.1, and later documents). */
const CLAIMS = new Map([
    [1, 'iss, issuer'], [2, 'sub, subject'], [3, 'aud, audience'], [4, 'exp, expiration time'], [5, 'nbf, not before'],
    [6, 'iat, issued at'], [7, 'cti, CWT ID'], [8, 'cnf, confirmation'], [9, 'scope'], [10, 'nonce'], [38, 'ace_profile'], [39, 'cnonce'],
].map(([label, name]) => [label, `${name} (CWT)`]));

/** Header parameters of COSE (RFC 9052, section 3.1; RFC 9360). */
const HEADERS = new Map([
    [1, 'alg'], [2, 'crit'], [3, 'content type'], [4, 'kid'], [5, 'IV'], [6, 'Partial IV'], [10, 'kid context'],
    [11, 'Countersignature version 2'], [12, 'Countersignature0 version 2'], [15, 'CWT Claims'], [16, 'typ'], [32, 'x5bag'], [33, 'x5chain'], [34, 'x5t'], [35, 'x5u'],
]);

/** Parameters of a COSE_Key (RFC 9052, section 7.1; RFC 9053, section 7.1). */
const KEYS = new Map([
    [1, 'kty'], [2, 'kid'], [3, 'alg'], [4, 'key_ops'], [5, 'Base IV'], [-1, 'crv, or k'], [-2, 'x'], [-3, 'y'], [-4, 'd'],
]);

/** Algorithms of COSE (RFC 9053). */
const ALGORITHMS = new Map([
    [-7, 'ES256'], [-35, 'ES384'], [-36, 'ES512'], [-8, 'EdDSA'], [-37, 'PS256'], [-38, 'PS384'], [-39, 'PS512'], [-257, 'RS256'],
    [1, 'A128GCM'], [2, 'A192GCM'], [3, 'A256GCM'], [4, 'HMAC 256/64'], [5, 'HMAC 256/256'], [6, 'HMAC 384/384'], [7, 'HMAC 512/512'],
    [10, 'AES-CCM-16-64-128'], [11, 'AES-CCM-16-64-256'], [24, 'ChaCha20/Poly1305'], [-6, 'direct'], [-3, 'A128KW'], [-5, 'A256KW'],
    [-25, 'ECDH-ES + HKDF-256'], [-29, 'ECDH-ES + A128KW'],
]);

// What is known of an item: in a message, `parts` are its members, each a map or a byte string that holds one.
const claims = { labels: CLAIMS };
const headers = { labels: HEADERS, values: new Map([[1, ALGORITHMS]]), inner: new Map([[15, claims]]) };
const keys = { labels: KEYS, values: new Map([[3, ALGORITHMS]]) };
const signed = { parts: [headers, headers, claims] };
const encrypted = { parts: [headers, headers] };
claims.inner = new Map([[8, { labels: new Map([[1, 'COSE_Key'], [2, 'Encrypted_COSE_Key'], [3, 'kid']]), inner: new Map([[1, keys]]) }]]);

const MESSAGES = new Map([[16, encrypted], [17, signed], [18, signed], [96, encrypted], [97, signed], [98, signed]]);

/** What may be said to be known of an input: the settings name it. */
export const KNOWN = Object.freeze({ auto: undefined, claims, headers, keys });

/** What is known of the content of a tag, of a member of an array, and of the value of a key. */
export const knownContent = (known, tag) => MESSAGES.get(tag) ?? known;
export const knownMember = (known, index) => known?.parts?.[index];
export const knownValue = (known, key) => known?.inner?.get(key);

/** The name of a number that is a key of a map, and of a number that is the value of a key; undefined if it has no name. */
export const keyName = (known, key) => known?.labels?.get(key);
export const valueName = (known, key, value) => known?.values?.get(key)?.get(value);

/** All names, each by its index; that of none is 0. */
export const NAMES = [
    undefined, ...new Set([CLAIMS, HEADERS, KEYS, ALGORITHMS, claims.inner.get(8).labels].flatMap(names => [...names.values()])),
];
