// Vectors of the standards, on the library alone. See tests/library/library.

#include "library.h"

// The bytes that hexadecimal digits spell: how many.
static size_t spelt(uint8_t *bytes, const char *digits) {
    size_t count = strlen(digits) / 2;
    for (size_t i = 0; i < count; i++) {
        unsigned byte;
        sscanf(digits + 2 * i, "%2x", &byte);
        bytes[i] = byte;
    }
    return count;
}

static void spells(const char *what, size_t length, const uint8_t *got, const char *digits) {
    uint8_t want[200];
    size_t count = spelt(want, digits);
    same(what, length, got, want, count);
}

// ---- BLAKE2: RFC 7693

// Appendix E: digests of many lengths with and without a key, and the digest of them all.
#define SELF_TEST(function, lengths, inputs)                                                           \
    static void function##_self_test(const char *digits) {                                             \
        static const size_t digest_lengths[] = lengths, input_lengths[] = inputs;                      \
        sums_##function##_state all = {0};                                                             \
        uint8_t input[1024], key[64], digest[64] = {0};                                                \
        status(#function "_init", sums_##function##_init(&all, 32, NULL, 0), SUMS_OK);                 \
        for (int i = 0; i < 4; i++)                                                                    \
            for (int j = 0; j < 6; j++) {                                                              \
                size_t count = digest_lengths[i], length = input_lengths[j];                           \
                sequence(input, length, length);                                                       \
                status(#function, sums_##function(digest, count, input, length, NULL, 0), SUMS_OK);    \
                status("update", sums_##function##_update(&all, digest, count), SUMS_OK);              \
                sequence(key, count, count);                                                           \
                status(#function, sums_##function(digest, count, input, length, key, count), SUMS_OK); \
                status("update", sums_##function##_update(&all, digest, count), SUMS_OK);              \
            }                                                                                          \
        status("finish", sums_##function##_finish(&all, digest, 32), SUMS_OK);                         \
        spells(#function ", the self-test", 0, digest, digits);                                        \
    }
#define LIST(...) {__VA_ARGS__}

static void sequence(uint8_t *bytes, size_t count, uint32_t seed) {
    uint32_t a = 0xdead4bad * seed, b = 1;
    for (size_t i = 0; i < count; i++) {
        uint32_t t = a + b;
        a = b;
        b = t;
        bytes[i] = t >> 24;
    }
}

SELF_TEST(blake2b, LIST(20, 32, 48, 64), LIST(0, 3, 128, 129, 255, 1024))
SELF_TEST(blake2s, LIST(16, 20, 28, 32), LIST(0, 3, 64, 65, 255, 1024))

static void blake2(void) {
    uint8_t digest[64] = {0}, salt[16], personal[16];
    const uint8_t *abc = (const uint8_t *)"abc";
    status("blake2b", sums_blake2b(digest, 64, abc, 3, NULL, 0), SUMS_OK);
    spells("blake2b", 3, digest,
           "ba80a53f981c4d0d6a2797b69f12f6e94c212f14685ac4b74b12bb6fdbffa2d1"
           "7d87c5392aab792dc252d5de4533cc9518d38aa8dbf1925ab92386edd4009923");
    status("blake2s", sums_blake2s(digest, 32, abc, 3, NULL, 0), SUMS_OK);
    spells("blake2s", 3, digest, "508c5e8c327c14e2e1a72ba34eeb452f37458b209ed63a294d999b4c86675982");
    blake2b_self_test("c23a7800d98123bd10f506c61e29da5603d763b8bbad2e737f5e765a7bccd475");
    blake2s_self_test("6a411f08ce25adcdfb02aba641451cec53c598b24f4fc787fbdc88797f4c1dfe");
    // salted ones by Python's hashlib
    for (int i = 0; i < 16; i++) salt[i] = i, personal[i] = 0x80 + i;
    status("blake2b_salted", sums_blake2b_salted(digest, 32, abc, 3, (const uint8_t *)"key", 3, salt, personal), 0);
    spells("blake2b, salted", 3, digest, "60f4543dcbbc77cd5813e25e45a09b2519c405b32bc4ebdccd2a84f7bd2b53d6");
    status("blake2s_salted", sums_blake2s_salted(digest, 16, abc, 3, NULL, 0, salt, personal), SUMS_OK);
    spells("blake2s, salted", 3, digest, "afe0843e96b6012841b67f74ffdaf962");
}

// ---- SHA-2: the examples of FIPS 180-4

// The digest of a message in pieces of 61 bytes.
#define PIECES(function)                                                                                    \
    static void function##_in_pieces(uint8_t *digest, const uint8_t *message, size_t length) {              \
        sums_##function##_state state = {0};                                                                \
        sums_##function##_init(&state);                                                                     \
        for (size_t at = 0; at < length; at += 61)                                                          \
            status(#function "_update",                                                                     \
                   sums_##function##_update(&state, message + at, length - at < 61 ? length - at : 61), SUMS_OK); \
        status(#function "_finish", sums_##function##_finish(&state, digest), SUMS_OK);                     \
    }

PIECES(sha256)
PIECES(sha512)

static const struct {
    const char *text;
    size_t times;
    const char *sha256, *sha512;
} sha2_vectors[] = {
    {"", 1,
     "e3b0c44298fc1c149afbf4c8996fb92427ae41e4649b934ca495991b7852b855",
     "cf83e1357eefb8bdf1542850d66d8007d620e4050b5715dc83f4a921d36ce9ce"
     "47d0d13c5d85f2b0ff8318d2877eec2f63b931bd47417a81a538327af927da3e"},
    {"abc", 1,
     "ba7816bf8f01cfea414140de5dae2223b00361a396177a9cb410ff61f20015ad",
     "ddaf35a193617abacc417349ae20413112e6fa4e89a97ea20a9eeee64b55d39a"
     "2192992a274fc1a836ba3c23a3feebbd454d4423643ce80e2a9ac94fa54ca49f"},
    {"abcdbcdecdefdefgefghfghighijhijkijkljklmklmnlmnomnopnopq", 1,
     "248d6a61d20638b8e5c026930c3e6039a33ce45964ff2167f6ecedd419db06c1",
     "204a8fc6dda82f0a0ced7beb8e08a41657c16ef468b228a8279be331a703c335"
     "96fd15c13b1b07f9aa1d3bea57789ca031ad85c7a71dd70354ec631238ca3445"},
    {"abcdefghbcdefghicdefghijdefghijkefghijklfghijklmghijklmn"
     "hijklmnoijklmnopjklmnopqklmnopqrlmnopqrsmnopqrstnopqrstu", 1,
     "cf5b16a778af8380036ce59e7b0492370b249b11e8f07a51afac45037afee9d1",
     "8e959b75dae313da8cf4f72814fc143f8f7779c6eb9f7fa17299aeadb6889018"
     "501d289e4900f7e4331b99dec4b5433ac7d329eeb6dd26545e96e55b874be909"},
    {"aaaaaaaaaaaaaaaaaaaaaaaaaaaaaaaaaaaaaaaaaaaaaaaaaaaaaaaaaaaaaaaaaaaaaaaaaaaaaaaaaaaaaaaaaaaaaaaaaaaa", 10000,
     "cdc76e5c9914fb9281a1c7e284d73e67f1809a48a497200e046d39ccc7112cd0",
     "e718483d0ce769644e2e42c7bc15b4638e1f98b13b2044285632a803afa973eb"
     "de0ff244877ea60a4cb0432ce577c31beb009c5c2c49aa2e4eadb217ad8cc09b"},
};

static void sha2(void) {
    static uint8_t message[1000000];
    for (size_t i = 0; i < sizeof sha2_vectors / sizeof *sha2_vectors; i++) {
        const uint8_t *text = (const uint8_t *)sha2_vectors[i].text;
        size_t length = strlen(sha2_vectors[i].text), times = sha2_vectors[i].times;
        uint8_t digest[64] = {0};
        for (size_t k = 0; k < times; k++) memcpy(message + k * length, text, length);
        sums_sha256(digest, message, times * length);
        spells("sha256", times * length, digest, sha2_vectors[i].sha256);
        sums_sha512(digest, message, times * length);
        spells("sha512", times * length, digest, sha2_vectors[i].sha512);
        sha256_in_pieces(digest, message, times * length);
        spells("sha256 in pieces", times * length, digest, sha2_vectors[i].sha256);
        sha512_in_pieces(digest, message, times * length);
        spells("sha512 in pieces", times * length, digest, sha2_vectors[i].sha512);
    }
}

// ---- HMAC: RFC 4231

static const struct {
    uint8_t first;
    int step;
    size_t key_len;
    const char *text, *sha256, *sha512;
} hmac_vectors[] = {
    {0x0b, 0, 20, "Hi There",
     "b0344c61d8db38535ca8afceaf0bf12b881dc200c9833da726e9376c2e32cff7",
     "87aa7cdea5ef619d4ff0b4241a1d6cb02379f4e2ce4ec2787ad0b30545e17cde"
     "daa833b7d6b8a702038b274eaea3f4e4be9d914eeb61f1702e696c203a126854"},
    {'J', 'J', 4, "what do ya want for nothing?", // the key Jefe
     "5bdcc146bf60754e6a042426089575c75a003f089d2739839dec58b964ec3843",
     "164b7a7bfcf819e2e395fbe73b56e0a387bd64222e831fd610270cd7ea250554"
     "9758bf75c05a994a6d034f65f8f0e6fdcaeab1a34d4a6b4b636e070a38bce737"},
    {0xaa, 0, 20,
     "\xdd\xdd\xdd\xdd\xdd\xdd\xdd\xdd\xdd\xdd\xdd\xdd\xdd\xdd\xdd\xdd\xdd\xdd\xdd\xdd\xdd\xdd\xdd\xdd\xdd"
     "\xdd\xdd\xdd\xdd\xdd\xdd\xdd\xdd\xdd\xdd\xdd\xdd\xdd\xdd\xdd\xdd\xdd\xdd\xdd\xdd\xdd\xdd\xdd\xdd\xdd",
     "773ea91e36800e46854db8ebd09181a72959098b3ef8c122d9635514ced565fe",
     "fa73b0089d56a284efb0f0756c890be9b1b5dbdd8ee81a3655f83e33b2279d39"
     "bf3e848279a722c806b485a47e67c807b946a337bee8942674278859e13292fb"},
    {0x01, 1, 25,
     "\xcd\xcd\xcd\xcd\xcd\xcd\xcd\xcd\xcd\xcd\xcd\xcd\xcd\xcd\xcd\xcd\xcd\xcd\xcd\xcd\xcd\xcd\xcd\xcd\xcd"
     "\xcd\xcd\xcd\xcd\xcd\xcd\xcd\xcd\xcd\xcd\xcd\xcd\xcd\xcd\xcd\xcd\xcd\xcd\xcd\xcd\xcd\xcd\xcd\xcd\xcd",
     "82558a389a443c0ea4cc819899f2083a85f0faa3e578f8077a2e3ff46729665b",
     "b0ba465637458c6990e5a8c5f61d4af7e576d97ff94b872de76f8050361ee3db"
     "a91ca5c11aa25eb4d679275cc5788063a5f19741120c4f2de2adebeb10a298dd"},
    {0xaa, 0, 131, "Test Using Larger Than Block-Size Key - Hash Key First",
     "60e431591ee0b67f0d8a26aacbf5b77f8e0bc6213728c5140546040f0ee37f54",
     "80b24263c7c1a3ebb71493c1dd7be8b49b46d1f41b4aeec1121b013783f8f352"
     "6b56d037e05f2598bd0fd2215d6a1e5295e64f73f63f0aec8b915a985d786598"},
    {0xaa, 0, 131,
     "This is a test using a larger than block-size key and a larger than block-size data. "
     "The key needs to be hashed before being used by the HMAC algorithm.",
     "9b09ffa71b942fcb27635fbcd5b0e944bfdc63644f0713938a7f51535c3a35e2",
     "e37b6a775dc87dbaa4dfa9f96e5e3ffddebd71f8867289865df5a32d20cdc944"
     "b6022cac3c4982b10d5eeb55c3e4de15134676fb6de0446065c97440fa8c6a58"},
};

// The tag of a text in two pieces.
#define HMAC_PIECES(function, count)                                                                         \
    static void function##_in_pieces(uint8_t *tag, const uint8_t *text, size_t length, const uint8_t *key,   \
                                     size_t key_len) {                                                       \
        sums_##function##_state state = {0};                                                                 \
        status(#function "_init", sums_##function##_init(&state, key, key_len), SUMS_OK);                    \
        status(#function "_update", sums_##function##_update(&state, text, 3), SUMS_OK);                     \
        status(#function "_update", sums_##function##_update(&state, text + 3, length - 3), SUMS_OK);        \
        status(#function "_finish", sums_##function##_finish(&state, tag, count), SUMS_OK);                  \
    }

HMAC_PIECES(hmac_sha256, 32)
HMAC_PIECES(hmac_sha512, 64)

static void hmac(void) {
    for (size_t i = 0; i < sizeof hmac_vectors / sizeof *hmac_vectors; i++) {
        uint8_t key[131], tag[64] = {0};
        size_t key_len = hmac_vectors[i].key_len, length = strlen(hmac_vectors[i].text);
        const uint8_t *text = (const uint8_t *)hmac_vectors[i].text;
        for (size_t k = 0; k < key_len; k++) key[k] = hmac_vectors[i].first + hmac_vectors[i].step * k;
        if (hmac_vectors[i].step == 'J') memcpy(key, "Jefe", 4);
        status("hmac_sha256", sums_hmac_sha256(tag, 32, text, length, key, key_len), SUMS_OK);
        spells("hmac_sha256", length, tag, hmac_vectors[i].sha256);
        status("hmac_sha512", sums_hmac_sha512(tag, 64, text, length, key, key_len), SUMS_OK);
        spells("hmac_sha512", length, tag, hmac_vectors[i].sha512);
        hmac_sha256_in_pieces(tag, text, length, key, key_len);
        spells("hmac_sha256 in pieces", length, tag, hmac_vectors[i].sha256);
        hmac_sha512_in_pieces(tag, text, length, key, key_len);
        spells("hmac_sha512 in pieces", length, tag, hmac_vectors[i].sha512);
    }
    // case 5, whose tag is shortened to 128 bits
    uint8_t key[20], tag[32] = {0}, rest[16] = {0};
    memset(key, 0x0c, sizeof key);
    status("hmac_sha256", sums_hmac_sha256(tag, 16, (const uint8_t *)"Test With Truncation", 20, key, 20), SUMS_OK);
    spells("hmac_sha256, half a tag", 20, tag, "a3b6167473100ee06e0c796c2955552b");
    same("hmac_sha256, behind half a tag", 20, tag + 16, rest, 16);
}

// ---- HKDF: RFC 5869, A.1 to A.3

static void hkdf_case(const char *material, const char *salt, const char *info, const char *prk, const char *okm) {
    uint8_t m[100], s[100], i[100], key[100] = {0}, out[100] = {0};
    size_t material_len = spelt(m, material), salt_len = spelt(s, salt), info_len = spelt(i, info);
    size_t length = strlen(okm) / 2;
    status("hkdf_extract", sums_hkdf_extract_sha256(key, m, material_len, s, salt_len), SUMS_OK);
    spells("hkdf_extract_sha256", material_len, key, prk);
    status("hkdf_expand", sums_hkdf_expand_sha256(out, length, key, 32, i, info_len), SUMS_OK);
    spells("hkdf_expand_sha256", material_len, out, okm);
    memset(out, 0, sizeof out);
    status("hkdf", sums_hkdf_sha256(out, length, m, material_len, s, salt_len, i, info_len), SUMS_OK);
    spells("hkdf_sha256", material_len, out, okm);
}

static void hkdf(void) {
    hkdf_case("0b0b0b0b0b0b0b0b0b0b0b0b0b0b0b0b0b0b0b0b0b0b", "000102030405060708090a0b0c", "f0f1f2f3f4f5f6f7f8f9",
              "077709362c2e32df0ddc3f0dc47bba6390b6c73bb50f9c3122ec844ad7c2b3e5",
              "3cb25f25faacd57a90434f64d0362f2a2d2d0a90cf1a5a4c5db02d56ecc4c5bf34007208d5b887185865");
    hkdf_case("000102030405060708090a0b0c0d0e0f101112131415161718191a1b1c1d1e1f202122232425262728292a2b2c2d2e2f"
              "303132333435363738393a3b3c3d3e3f404142434445464748494a4b4c4d4e4f",
              "606162636465666768696a6b6c6d6e6f707172737475767778797a7b7c7d7e7f808182838485868788898a8b8c8d8e8f"
              "909192939495969798999a9b9c9d9e9fa0a1a2a3a4a5a6a7a8a9aaabacadaeaf",
              "b0b1b2b3b4b5b6b7b8b9babbbcbdbebfc0c1c2c3c4c5c6c7c8c9cacbcccdcecfd0d1d2d3d4d5d6d7d8d9dadbdcdddedf"
              "e0e1e2e3e4e5e6e7e8e9eaebecedeeeff0f1f2f3f4f5f6f7f8f9fafbfcfdfeff",
              "06a6b88c5853361a06104c9ceb35b45cef760014904671014a193f40c15fc244",
              "b11e398dc80327a1c8e7f78c596a49344f012eda2d4efad8a050cc4c19afa97c59045a99cac7827271cb41c65e590e09"
              "da3275600c2f09b8367793a9aca3db71cc30c58179ec3e87c14c01d5c1f3434f1d87");
    hkdf_case("0b0b0b0b0b0b0b0b0b0b0b0b0b0b0b0b0b0b0b0b0b0b", "", "",
              "19ef24a32c717b167f33a91d6f648bdf96596776afdb6377ac434c1c293ccb04",
              "8da4e775a563c18f715f802a063c5a31b8a11f5c5ee1879ec3454e5f3c738d2d9d201395faa4b61a96c8");
}

// ---- BLAKE3: the inputs of its official vectors, the first 32 bytes of each output as b3sum 1.2.0 prints them

static const struct {
    size_t length;
    const char *hash, *keyed, *derived;
} blake3_vectors[] = {
    {0,
     "af1349b9f5f9a1a6a0404dea36dcc9499bcb25c9adc112b7cc9a93cae41f3262",
     "92b2b75604ed3c761f9d6f62392c8a9227ad0ea3f09573e783f1498a4ed60d26",
     "2cc39783c223154fea8dfb7c1b1660f2ac2dcbd1c1de8277b0b0dd39b7e50d7d"},
    {1,
     "2d3adedff11b61f14c886e35afa036736dcd87a74d27b5c1510225d0f592e213",
     "6d7878dfff2f485635d39013278ae14f1454b8c0a3a2d34bc1ab38228a80c95b",
     "b3e2e340a117a499c6cf2398a19ee0d29cca2bb7404c73063382693bf66cb06c"},
    {2,
     "7b7015bb92cf0b318037702a6cdd81dee41224f734684c2c122cd6359cb1ee63",
     "5392ddae0e0a69d5f40160462cbd9bd889375082ff224ac9c758802b7a6fd20a",
     "1f166565a7df0098ee65922d7fea425fb18b9943f19d6161e2d17939356168e6"},
    {3,
     "e1be4d7a8ab5560aa4199eea339849ba8e293d55ca0a81006726d184519e647f",
     "39e67b76b5a007d4921969779fe666da67b5213b096084ab674742f0d5ec62b9",
     "440aba35cb006b61fc17c0529255de438efc06a8c9ebf3f2ddac3b5a86705797"},
    {4,
     "f30f5ab28fe047904037f77b6da4fea1e27241c5d132638d8bedce9d40494f32",
     "7671dde590c95d5ac9616651ff5aa0a27bee5913a348e053b8aa9108917fe070",
     "f46085c8190d69022369ce1a18880e9b369c135eb93f3c63550d3e7630e91060"},
    {5,
     "b40b44dfd97e7a84a996a91af8b85188c66c126940ba7aad2e7ae6b385402aa2",
     "73ac69eecf286894d8102018a6fc729f4b1f4247d3703f69bdc6a5fe3e0c8461",
     "1f24eda69dbcb752847ec3ebb5dd42836d86e58500c7c98d906ecd82ed9ae47f"},
    {6,
     "06c4e8ffb6872fad96f9aaca5eee1553eb62aed0ad7198cef42e87f6a616c844",
     "82d3199d0013035682cc7f2a399d4c212544376a839aa863a0f4c91220ca7a6d",
     "be96b30b37919fe4379dfbe752ae77b4f7e2ab92f7ff27435f76f2f065f6a5f4"},
    {7,
     "3f8770f387faad08faa9d8414e9f449ac68e6ff0417f673f602a646a891419fe",
     "af0a7ec382aedc0cfd626e49e7628bc7a353a4cb108855541a5651bf64fbb28a",
     "dc3b6485f9d94935329442916b0d059685ba815a1fa2a14107217453a7fc9f0e"},
    {8,
     "2351207d04fc16ade43ccab08600939c7c1fa70a5c0aaca76063d04c3228eaeb",
     "be2f5495c61cba1bb348a34948c004045e3bd4dae8f0fe82bf44d0da245a0600",
     "2b166978cef14d9d438046c720519d8b1cad707e199746f1562d0c87fbd32940"},
    {63,
     "e9bc37a594daad83be9470df7f7b3798297c3d834ce80ba85d6e207627b7db7b",
     "bb1eb5d4afa793c1ebdd9fb08def6c36d10096986ae0cfe148cd101170ce37ae",
     "b6451e30b953c206e34644c6803724e9d2725e0893039cfc49584f991f451af3"},
    {64,
     "4eed7141ea4a5cd4b788606bd23f46e212af9cacebacdc7d1f4c6dc7f2511b98",
     "ba8ced36f327700d213f120b1a207a3b8c04330528586f414d09f2f7d9ccb7e6",
     "a5c4a7053fa86b64746d4bb688d06ad1f02a18fce9afd3e818fefaa7126bf73e"},
    {65,
     "de1e5fa0be70df6d2be8fffd0e99ceaa8eb6e8c93a63f2d8d1c30ecb6b263dee",
     "c0a4edefa2d2accb9277c371ac12fcdbb52988a86edc54f0716e1591b4326e72",
     "51fd05c3c1cfbc8ed67d139ad76f5cf8236cd2acd26627a30c104dfd9d3ff8a8"},
    {127,
     "d81293fda863f008c09e92fc382a81f5a0b4a1251cba1634016a0f86a6bd640d",
     "c64200ae7dfaf35577ac5a9521c47863fb71514a3bcad18819218b818de85818",
     "c91c090ceee3a3ac81902da31838012625bbcd73fcb92e7d7e56f78deba4f0c3"},
    {128,
     "f17e570564b26578c33bb7f44643f539624b05df1a76c81f30acd548c44b45ef",
     "b04fe15577457267ff3b6f3c947d93be581e7e3a4b018679125eaf86f6a628ec",
     "81720f34452f58a0120a58b6b4608384b5c51d11f39ce97161a0c0e442ca0225"},
    {129,
     "683aaae9f3c5ba37eaaf072aed0f9e30bac0865137bae68b1fde4ca2aebdcb12",
     "d4a64dae6cdccbac1e5287f54f17c5f985105457c1a2ec1878ebd4b57e20d38f",
     "938d2d4435be30eafdbb2b7031f7857c98b04881227391dc40db3c7b21f41fc1"},
    {1023,
     "10108970eeda3eb932baac1428c7a2163b0e924c9a9e25b35bba72b28f70bd11",
     "c951ecdf03288d0fcc96ee3413563d8a6d3589547f2c2fb36d9786470f1b9d6e",
     "74a16c1c3d44368a86e1ca6df64be6a2f64cce8f09220787450722d85725dea5"},
    {1024,
     "42214739f095a406f3fc83deb889744ac00df831c10daa55189b5d121c855af7",
     "75c46f6f3d9eb4f55ecaaee480db732e6c2105546f1e675003687c31719c7ba4",
     "7356cd7720d5b66b6d0697eb3177d9f8d73a4a5c5e968896eb6a689684302706"},
    {1025,
     "d00278ae47eb27b34faecf67b4fe263f82d5412916c1ffd97c8cb7fb814b8444",
     "357dc55de0c7e382c900fd6e320acc04146be01db6a8ce7210b7189bd664ea69",
     "effaa245f065fbf82ac186839a249707c3bddf6d3fdda22d1b95a3c970379bcb"},
    {2048,
     "e776b6028c7cd22a4d0ba182a8bf62205d2ef576467e838ed6f2529b85fba24a",
     "879cf1fa2ea0e79126cb1063617a05b6ad9d0b696d0d757cf053439f60a99dd1",
     "7b2945cb4fef70885cc5d78a87bf6f6207dd901ff239201351ffac04e1088a23"},
    {2049,
     "5f4d72f40d7a5f82b15ca2b2e44b1de3c2ef86c426c95c1af0b6879522563030",
     "9f29700902f7c86e514ddc4df1e3049f258b2472b6dd5267f61bf13983b78dd5",
     "2ea477c5515cc3dd606512ee72bb3e0e758cfae7232826f35fb98ca1bcbdf273"},
    {3072,
     "b98cb0ff3623be03326b373de6b9095218513e64f1ee2edd2525c7ad1e5cffd2",
     "044a0e7b172a312dc02a4c9a818c036ffa2776368d7f528268d2e6b5df191770",
     "050df97f8c2ead654d9bb3ab8c9178edcd902a32f8495949feadcc1e0480c46b"},
    {3073,
     "7124b49501012f81cc7f11ca069ec9226cecb8a2c850cfe644e327d22d3e1cd3",
     "68dede9bef00ba89e43f31a6825f4cf433389fedae75c04ee9f0cf16a427c95a",
     "72613c9ec9ff7e40f8f5c173784c532ad852e827dba2bf85b2ab4b76f7079081"},
    {4096,
     "015094013f57a5277b59d8475c0501042c0b642e531b0a1c8f58d2163229e969",
     "befc660aea2f1718884cd8deb9902811d332f4fc4a38cf7c7300d597a081bfc0",
     "1e0d7f3db8c414c97c6307cbda6cd27ac3b030949da8e23be1a1a924ad2f25b9"},
    {4097,
     "9b4052b38f1c5fc8b1f9ff7ac7b27cd242487b3d890d15c96a1c25b8aa0fb995",
     "00df940cd36bb9fa7cbbc3556744e0dbc8191401afe70520ba292ee3ca80abbc",
     "aca51029626b55fda7117b42a7c211f8c6e9ba4fe5b7a8ca922f34299500ead8"},
    {5120,
     "9cadc15fed8b5d854562b26a9536d9707cadeda9b143978f319ab34230535833",
     "2c493e48e9b9bf31e0553a22b23503c0a3388f035cece68eb438d22fa1943e20",
     "7a7acac8a02adcf3038d74cdd1d34527de8a0fcc0ee3399d1262397ce5817f60"},
    {5121,
     "628bd2cb2004694adaab7bbd778a25df25c47b9d4155a55f8fbd79f2fe154cff",
     "6ccf1c34753e7a044db80798ecd0782a8f76f33563accaddbfbb2e0ea4b2d024",
     "b07f01e518e702f7ccb44a267e9e112d403a7b3f4883a47ffbed4b48339b3c34"},
    {6144,
     "3e2e5b74e048f3add6d21faab3f83aa44d3b2278afb83b80b3c35164ebeca205",
     "3d6b6d21281d0ade5b2b016ae4034c5dec10ca7e475f90f76eac7138e9bc8f1d",
     "2a95beae63ddce523762355cf4b9c1d8f131465780a391286a5d01abb5683a15"},
    {6145,
     "f1323a8631446cc50536a9f705ee5cb619424d46887f3c376c695b70e0f0507f",
     "9ac301e9e39e45e3250a7e3b3df701aa0fb6889fbd80eeecf28dbc6300fbc539",
     "379bcc61d0051dd489f686c13de00d5b14c505245103dc040d9e4dd1facab8e5"},
    {7168,
     "61da957ec2499a95d6b8023e2b0e604ec7f6b50e80a9678b89d2628e99ada77a",
     "b42835e40e9d4a7f42ad8cc04f85a963a76e18198377ed84adddeaecacc6f3fc",
     "11c37a112765370c94a51415d0d651190c288566e295d505defdad895dae2237"},
    {7169,
     "a003fc7a51754a9b3c7fae0367ab3d782dccf28855a03d435f8cfe74605e7817",
     "ed9b1a922c046fdb3d423ae34e143b05ca1bf28b710432857bf738bcedbfa511",
     "554b0a5efea9ef183f2f9b931b7497995d9eb26f5c5c6dad2b97d62fc5ac31d9"},
    {8192,
     "aae792484c8efe4f19e2ca7d371d8c467ffb10748d8a5a1ae579948f718a2a63",
     "dc9637c8845a770b4cbf76b8daec0eebf7dc2eac11498517f08d44c8fc00d58a",
     "ad01d7ae4ad059b0d33baa3c01319dcf8088094d0359e5fd45d6aeaa8b2d0c3d"},
    {8193,
     "bab6c09cb8ce8cf459261398d2e7aef35700bf488116ceb94a36d0f5f1b7bc3b",
     "954a2a75420c8d6547e3ba5b98d963e6fa6491addc8c023189cc519821b4a1f5",
     "af1e0346e389b17c23200270a64aa4e1ead98c61695d917de7d5b00491c9b0f1"},
    {16384,
     "f875d6646de28985646f34ee13be9a576fd515f76b5b0a26bb324735041ddde4",
     "9e9fc4eb7cf081ea7c47d1807790ed211bfec56aa25bb7037784c13c4b707b0d",
     "160e18b5878cd0df1c3af85eb25a0db5344d43a6fbd7a8ef4ed98d0714c3f7e1"},
    {31744,
     "62b6960e1a44bcc1eb1a611a8d6235b6b4b78f32e7abc4fb4c6cdcce94895c47",
     "efa53b389ab67c593dba624d898d0f7353ab99e4ac9d42302ee64cbf9939a419",
     "39772aef80e0ebe60596361e45b061e8f417429d529171b6764468c22928e28e"},
    {102400,
     "bc3e3d41a1146b069abffad3c0d44860cf664390afce4d9661f7902e7943e085",
     "1c35d1a5811083fd7119f5d5d1ba027b4d01c0c6c49fb6ff2cf75393ea5db4a7",
     "4652cff7a3f385a6103b5c260fc1593e13c778dbe608efb092fe7ee69df6e9c6"},
};

// SHA-256 of the first 131 bytes of all those outputs, in their order
static const char *blake3_all = "8f89c4586f2e359633b1c488eeb7a70c8c772a140d02a8082942a7b21d2e9eaf";

static void blake3(void) {
    static const char *context = "BLAKE3 2019-12-27 16:29:52 test vectors context";
    const uint8_t *key = (const uint8_t *)"whats the Elvish word for friend", *label = (const uint8_t *)context;
    enum { COUNT = sizeof blake3_vectors / sizeof *blake3_vectors };
    static uint8_t input[102400], all[COUNT][3][131];
    uint8_t digest[32] = {0};
    for (size_t i = 0; i < sizeof input; i++) input[i] = i % 251;
    for (size_t i = 0; i < COUNT; i++) {
        size_t length = blake3_vectors[i].length;
        uint8_t *hash = all[i][0], *keyed = all[i][1], *derived = all[i][2];
        status("blake3", sums_blake3(hash, 131, 0, input, length), SUMS_OK);
        spells("blake3", length, hash, blake3_vectors[i].hash);
        sums_blake3_hash(digest, input, length);
        same("blake3_hash", length, digest, hash, 32);
        status("blake3_keyed", sums_blake3_keyed(keyed, 131, 0, input, length, key), SUMS_OK);
        spells("blake3_keyed", length, keyed, blake3_vectors[i].keyed);
        status("blake3_derive", sums_blake3_derive(derived, 131, 0, input, length, label, strlen(context)), SUMS_OK);
        spells("blake3_derive", length, derived, blake3_vectors[i].derived);
    }
    sums_sha256(digest, all[0][0], sizeof all);
    spells("blake3, 131 bytes of each output", 0, digest, blake3_all);
}

int main(void) {
    blake2();
    sha2();
    hmac();
    hkdf();
    blake3();
    return ends("vectors");
}
