// Times the calls of crates/aes_cmac, linked as a static library, and OpenSSL's: bench/aes builds and runs this.
// The argument says how OpenSSL's lines are named. Each line is WHOSE CALL and the nanoseconds a call of the best of
// some slices of time.
#include <openssl/core_names.h>
#include <openssl/evp.h>
#include <openssl/params.h>
#include <stdint.h>
#include <stdio.h>
#include <stdlib.h>
#include <string.h>
#include <time.h>

void aes_bench_encrypt(const uint8_t *key, uint8_t *block, uint64_t times);
void aes_bench_decrypt(const uint8_t *key, uint8_t *block, uint64_t times);
void aes_bench_new(uint8_t *block, uint64_t times);
void aes_bench_cmac_16(const uint8_t *key, uint8_t *text, uint64_t times);
void aes_bench_cmac_4096(const uint8_t *key, uint8_t *text, uint64_t times);

static const uint8_t key[16] = {0x2b, 0x7e, 0x15, 0x16, 0x28, 0xae, 0xd2, 0xa6,
                                0xab, 0xf7, 0x15, 0x88, 0x09, 0xcf, 0x4f, 0x3c};
static EVP_CIPHER_CTX *encryption, *decryption, *renewed;
static EVP_MAC_CTX *cmac;

static void must(int done) {
    if (done != 1) fputs("a call failed\n", stderr), exit(1);
}

static void ours_encrypt(uint8_t *text, uint64_t times) { aes_bench_encrypt(key, text, times); }
static void ours_decrypt(uint8_t *text, uint64_t times) { aes_bench_decrypt(key, text, times); }
static void ours_new(uint8_t *text, uint64_t times) { aes_bench_new(text, times); }
static void ours_cmac_16(uint8_t *text, uint64_t times) { aes_bench_cmac_16(key, text, times); }
static void ours_cmac_4096(uint8_t *text, uint64_t times) { aes_bench_cmac_4096(key, text, times); }

static void their_encrypt(uint8_t *text, uint64_t times) {
    for (int n; times > 0; times--) must(EVP_EncryptUpdate(encryption, text, &n, text, 16));
}

static void their_decrypt(uint8_t *text, uint64_t times) {
    for (int n; times > 0; times--) must(EVP_DecryptUpdate(decryption, text, &n, text, 16));
}

static void their_new(uint8_t *text, uint64_t times) {
    for (int n; times > 0; times--) {
        must(EVP_EncryptInit_ex(renewed, NULL, NULL, text, NULL));
        must(EVP_EncryptUpdate(renewed, text, &n, text, 16));
    }
}

static void their_cmac(uint8_t *text, size_t len, uint64_t times) {
    for (size_t n; times > 0; times--) {
        must(EVP_MAC_init(cmac, NULL, 0, NULL));
        must(EVP_MAC_update(cmac, text, len));
        must(EVP_MAC_final(cmac, text, &n, 16));
    }
}

static void their_cmac_16(uint8_t *text, uint64_t times) { their_cmac(text, 16, times); }
static void their_cmac_4096(uint8_t *text, uint64_t times) { their_cmac(text, 4096, times); }

static void set_up(void) {
    must((encryption = EVP_CIPHER_CTX_new()) != NULL);
    must((decryption = EVP_CIPHER_CTX_new()) != NULL);
    must((renewed = EVP_CIPHER_CTX_new()) != NULL);
    must(EVP_EncryptInit_ex(encryption, EVP_aes_128_ecb(), NULL, key, NULL));
    must(EVP_DecryptInit_ex(decryption, EVP_aes_128_ecb(), NULL, key, NULL));
    must(EVP_EncryptInit_ex(renewed, EVP_aes_128_ecb(), NULL, key, NULL));
    EVP_CIPHER_CTX_set_padding(encryption, 0);
    EVP_CIPHER_CTX_set_padding(decryption, 0);
    EVP_CIPHER_CTX_set_padding(renewed, 0);
    EVP_MAC *mac = EVP_MAC_fetch(NULL, "CMAC", NULL);
    must((cmac = EVP_MAC_CTX_new(mac)) != NULL);
    char name[] = "AES-128-CBC";
    OSSL_PARAM params[] = {OSSL_PARAM_construct_utf8_string(OSSL_MAC_PARAM_CIPHER, name, 0), OSSL_PARAM_construct_end()};
    must(EVP_MAC_init(cmac, key, sizeof key, params));
}

static double seconds(void) {
    struct timespec now;
    clock_gettime(CLOCK_MONOTONIC, &now);
    return now.tv_sec + now.tv_nsec / 1e9;
}

int main(int argc, char **argv) {
    typedef void call(uint8_t *text, uint64_t times);
    struct { const char *name; call *run[2]; uint64_t times; double best[2]; } calls[] = {
        {"encrypt", {ours_encrypt, their_encrypt}, 4096, {1e9, 1e9}},
        {"decrypt", {ours_decrypt, their_decrypt}, 4096, {1e9, 1e9}},
        {"new", {ours_new, their_new}, 2048, {1e9, 1e9}},
        {"cmac_16", {ours_cmac_16, their_cmac_16}, 2048, {1e9, 1e9}},
        {"cmac_4096", {ours_cmac_4096, their_cmac_4096}, 16, {1e9, 1e9}},
    };
    int count = sizeof calls / sizeof calls[0];
    set_up();
    // What is timed is the same: from one text both come to one result.
    for (int i = 0; i < count; i++) {
        uint8_t ours[4096] = {0}, theirs[4096] = {0};
        calls[i].run[0](ours, 5);
        calls[i].run[1](theirs, 5);
        must(memcmp(ours, theirs, sizeof ours) == 0);
    }
    for (double end = seconds() + 3; seconds() < end;)
        for (int i = 0; i < count; i++)
            for (int k = 0; k < 2; k++) {
                uint8_t text[4096] = {0};
                double start = seconds();
                calls[i].run[k](text, calls[i].times);
                double each = (seconds() - start) / calls[i].times * 1e9;
                if (each < calls[i].best[k]) calls[i].best[k] = each;
            }
    for (int i = 0; i < count; i++) {
        printf("aes_cmac %s %.1f\n", calls[i].name, calls[i].best[0]);
        printf("%s %s %.1f\n", argc > 1 ? argv[1] : "openssl", calls[i].name, calls[i].best[1]);
    }
    return 0;
}
