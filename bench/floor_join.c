// What a join server can't do without, as a floor for `lwdesk answer` on JoinReq lines: one thread, OpenSSL's AES, no
// JSON library, no check of a member. It reads lines in exactly the form in which bench/answer writes them, checks each
// MIC, gives each device its JoinNonces, and writes the same JoinAns byte for byte, with the three keys wrapped for
// network 000014. Device i has the DevEUI 70b3d57ed0001000 + i and eight times the two bytes of i as NwkKey.
// With a file's name it keeps each line and its answer there before it answers, by the six calls of a journal's append.
// Build: cc -O2 floor_join.c -lcrypto
#define OPENSSL_SUPPRESS_DEPRECATED
#include <fcntl.h>
#include <openssl/aes.h>
#include <stdint.h>
#include <stdio.h>
#include <stdlib.h>
#include <string.h>
#include <unistd.h>

#define DEVICES 4097

static int last_nonce[DEVICES];
static uint32_t join_nonce[DEVICES];
static uint8_t nwk_key[DEVICES][16];

static void encrypt(const AES_KEY *key, const uint8_t *in, uint8_t *out) { AES_encrypt(in, out, key); }

static void doubled(uint8_t *block) {
    int carry = block[0] >> 7;
    for (int i = 0; i < 15; i++) block[i] = block[i] << 1 | block[i + 1] >> 7;
    block[15] = block[15] << 1 ^ (carry ? 0x87 : 0);
}

// AES-CMAC of at least one byte.
static void cmac(const AES_KEY *key, const uint8_t *text, int len, uint8_t *out) {
    uint8_t sub[16] = {0}, chain[16] = {0}, last[16] = {0};
    int blocks = (len + 15) / 16, rest = len - 16 * (blocks - 1);
    encrypt(key, sub, sub);
    doubled(sub);
    for (int b = 0; b < blocks - 1; b++) {
        for (int i = 0; i < 16; i++) chain[i] ^= text[16 * b + i];
        encrypt(key, chain, chain);
    }
    memcpy(last, text + 16 * (blocks - 1), rest);
    if (rest < 16) last[rest] = 0x80, doubled(sub);
    for (int i = 0; i < 16; i++) chain[i] ^= last[i] ^ sub[i];
    encrypt(key, chain, out);
}

// RFC 3394 for a key of 16 bytes.
static void wrap(const AES_KEY *kek, const uint8_t *key, uint8_t *out) {
    uint8_t block[16], half[2][8];
    memset(block, 0xA6, 8);
    memcpy(half, key, 16);
    for (int t = 1; t <= 12; t++) {
        uint8_t *r = half[(t - 1) % 2];
        memcpy(block + 8, r, 8);
        encrypt(kek, block, block);
        block[7] ^= t;
        memcpy(r, block + 8, 8);
    }
    memcpy(out, block, 8);
    memcpy(out + 8, half, 16);
}

static int digit(int c) { return c <= '9' ? c - '0' : (c | 32) - 'a' + 10; }

static void unhex(const char *text, uint8_t *out, int room) {
    for (int n = 0; text[0] != '"' && n < room; text += 2) out[n++] = digit(text[0]) << 4 | digit(text[1]);
}

static const char *member(const char *line, const char *name) {
    const char *at = strstr(line, name);
    return at ? at + strlen(name) : "";
}

static char *put_hex(char *out, const uint8_t *bytes, int len) {
    static const char digits[] = "0123456789abcdef";
    for (int i = 0; i < len; i++) *out++ = digits[bytes[i] >> 4], *out++ = digits[bytes[i] & 15];
    return out;
}

static char *put(char *out, const char *text) {
    size_t len = strlen(text);
    memcpy(out, text, len);
    return out + len;
}

// The answer to the line, or NULL where the join is refused.
static char *answer(const AES_KEY *kek, const char *line, char *out) {
    uint8_t frame[64] = {0}, addr[4] = {0}, settings[1] = {0}, mac[16], key[3][16], wrapped[24];
    unhex(member(line, "\"PHYPayload\":\""), frame, 64);
    unhex(member(line, "\"DevAddr\":\""), addr, 4);
    unhex(member(line, "\"DLSettings\":\""), settings, 1);
    int delay = atoi(member(line, "\"RxDelay\":"));
    unsigned transaction = strtoul(member(line, "\"TransactionID\":"), 0, 10);
    int dev = (frame[9] | frame[10] << 8) - 0x1000, nonce = frame[17] | frame[18] << 8;
    if (dev < 0 || dev >= DEVICES) return NULL;
    AES_KEY nwk, js_int, undo;
    AES_set_encrypt_key(nwk_key[dev], 128, &nwk);
    cmac(&nwk, frame, 19, mac);
    if (memcmp(mac, frame + 19, 4) || nonce <= last_nonce[dev]) return NULL;
    last_nonce[dev] = nonce;
    uint32_t j = ++join_nonce[dev];
    uint8_t block[16] = {6}, little[3] = {j, j >> 8, j >> 16}, big[3] = {j >> 16, j >> 8, j};
    memcpy(block + 1, frame + 9, 8);
    encrypt(&nwk, block, block);
    AES_set_encrypt_key(block, 128, &js_int);
    uint8_t seed[16] = {0};
    memcpy(seed + 1, little, 3), memcpy(seed + 4, frame + 1, 8), memcpy(seed + 12, frame + 17, 2);
    for (int i = 0; i < 3; i++) seed[0] = "\1\3\4"[i], encrypt(&nwk, seed, key[i]);
    uint8_t accept[17] = {0x20, little[0], little[1], little[2], 0x14, 0, 0, addr[3], addr[2], addr[1], addr[0], settings[0], delay};
    uint8_t text[24] = {0xFF};
    memcpy(text + 1, frame + 1, 8), memcpy(text + 9, frame + 17, 2), memcpy(text + 11, accept, 13);
    cmac(&js_int, text, 24, mac);
    memcpy(accept + 13, mac, 4);
    AES_set_decrypt_key(nwk_key[dev], 128, &undo);
    AES_decrypt(accept + 1, accept + 1, &undo);
    static const char *const names[] = {"{\"FNwkSIntKey\"", ",\"SNwkSIntKey\"", ",\"NwkSEncKey\""};
    uint8_t eui[8];
    for (int i = 0; i < 8; i++) eui[i] = frame[16 - i];
#define KEY(i) \
    wrap(kek, key[i], wrapped), out = put(put(out, names[i]), ":{\"AESKey\":\""), out = put(put_hex(out, wrapped, 24), "\",\"KEKLabel\":\"net-14\"}")
    KEY(0);
    out = put(out, ",\"Lifetime\":31536000,\"MessageType\":\"JoinAns\"");
    KEY(2);
    out = put_hex(put(out, ",\"PHYPayload\":\""), accept, 17);
    out = put(out, "\",\"ProtocolVersion\":\"1.1\",\"ReceiverID\":\"000014\",\"Result\":{\"Description\":\"\",\"ResultCode\":\"Success\"}");
    KEY(1);
    out = put_hex(put(out, ",\"SenderID\":\"70b3d57ed0000001\",\"SessionKeyID\":\""), eui, 8);
    return out + sprintf(put_hex(out, big, 3), "\",\"TransactionID\":%u}\n", transaction) + 6;
}

static void put_at(int file, const void *bytes, size_t count, off_t at) {
    if (pwrite(file, bytes, count, at) != (ssize_t)count) exit(1);
}

static void sync_of(int file) {
    if (fdatasync(file)) exit(1);
}

// A record behind the gate at `end`: the line and its answer, to which the end moves.
static void keep(int file, off_t *end, const char *line, size_t length, const char *out, size_t count) {
    static char record[8192];
    static const uint8_t whole = 1, shut = 0;
    uint8_t field[4];
    uint32_t size = length + count;
    if (size > sizeof record) exit(1);
    for (int i = 0; i < 4; i++) field[i] = size >> (24 - 8 * i);
    memcpy(record, line, length);
    memcpy(record + length, out, count);
    put_at(file, field, 4, *end + 1);
    put_at(file, record, size, *end + 5);
    put_at(file, &shut, 1, *end + 5 + size);
    sync_of(file);
    put_at(file, &whole, 1, *end);
    sync_of(file);
    *end += 5 + size;
}

int main(int argc, char **argv) {
    static const uint8_t kek_bytes[16] = {0, 1, 2, 3, 4, 5, 6, 7, 8, 9, 10, 11, 12, 13, 14, 15};
    AES_KEY kek;
    AES_set_encrypt_key(kek_bytes, 128, &kek);
    for (int i = 0; i < DEVICES; i++) {
        last_nonce[i] = -1;
        for (int k = 0; k < 16; k++) nwk_key[i][k] = k % 2 ? i : i >> 8;
    }
    int journal = argc > 1 ? open(argv[1], O_RDWR | O_CREAT | O_TRUNC, 0600) : -1;
    off_t last = 16;
    if (argc > 1) put_at(journal, "LWDESK-JOURNAL-1", 17, 0);
    char *line = NULL, out[2048];
    size_t room = 0;
    ssize_t length;
    while ((length = getline(&line, &room, stdin)) > 0) {
        char *end = answer(&kek, line, out);
        if (end && argc > 1) keep(journal, &last, line, length, out, end - out);
        if (end) fwrite(out, 1, end - out, stdout);
        else puts("refused");
    }
    return 0;
}
