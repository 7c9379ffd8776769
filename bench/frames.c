// Times the calls of crates/data_frames, linked as a static library: bench/frames builds and runs this.
#include <stdint.h>
#include <stdio.h>
#include <string.h>
#include <time.h>

void frames_bench_cmac(const uint8_t *key, const uint8_t *text, size_t len, uint8_t *mac, uint64_t times);
void frames_bench_schedule(uint8_t *key, uint64_t times);
void frames_bench_encrypt(uint8_t *key, uint64_t times);
void frames_bench_send(const uint8_t *f, const uint8_t *s, const uint8_t *payload, size_t len, uint8_t channel, uint8_t *frame,
                       size_t frame_len);
void frames_bench_check(const uint8_t *f, const uint8_t *s, const uint8_t *frame, size_t len, uint64_t *sum, uint64_t times);

static const uint8_t f[16] = {1}, s[16] = {2};
static uint8_t scratch[16], payload[242], text[512];
static uint8_t wrong_f[255], wrong_s[255], first[255], last[255];
static size_t length;
static uint64_t sum;

static double seconds(void) {
    struct timespec now;
    clock_gettime(CLOCK_MONOTONIC, &now);
    return now.tv_sec + now.tv_nsec / 1e9;
}

static void cmac(uint64_t times) { frames_bench_cmac(f, text, length - 4 + 16, scratch, times); }
static void schedule(uint64_t times) { frames_bench_schedule(scratch, times); }
static void encrypt(uint64_t times) { frames_bench_encrypt(scratch, times); }
static void refused_f(uint64_t times) { frames_bench_check(f, s, wrong_f, length, &sum, times); }
static void refused_s(uint64_t times) { frames_bench_check(f, s, wrong_s, length, &sum, times); }
static void channel_0(uint64_t times) { frames_bench_check(f, s, first, length, &sum, times); }
static void channel_7(uint64_t times) { frames_bench_check(f, s, last, length, &sum, times); }

// What is timed are the cases that are meant.
static int is_meant(const uint8_t *frame, uint64_t want) {
    sum = 0;
    frames_bench_check(f, s, frame, length, &sum, 1);
    return sum == want;
}

static int time_of(size_t payload_len) {
    struct { const char *name; void (*run)(uint64_t); double best; } all[] = {
        {"cmac", cmac, 1e9},           {"schedule", schedule, 1e9},   {"encrypt", encrypt, 1e9},     {"wrong F half", refused_f, 1e9},
        {"wrong S half", refused_s, 1e9}, {"on channel 0", channel_0, 1e9}, {"on channel 7", channel_7, 1e9},
    };
    int count = sizeof all / sizeof all[0];
    length = payload_len + 13;
    frames_bench_send(f, s, payload, payload_len, 0, first, length);
    frames_bench_send(f, s, payload, payload_len, 7, last, length);
    memcpy(wrong_f, first, length), wrong_f[length - 1] ^= 1;
    memcpy(wrong_s, first, length), wrong_s[length - 3] ^= 1;
    if (!is_meant(first, 0) || !is_meant(last, 7) || !is_meant(wrong_f, 100) || !is_meant(wrong_s, 100)) return 0;
    for (double end = seconds() + 3; seconds() < end;)
        for (int i = 0; i < count; i++) {
            double start = seconds();
            all[i].run(512);
            double each = (seconds() - start) / 512 * 1e9;
            if (each < all[i].best) all[i].best = each;
        }
    double mac = all[0].best, keys = all[1].best - all[2].best;
    printf("an uplink of %zu bytes: a CMAC of its length %.0f ns, a key schedule %.0f ns\n", length, mac, keys);
    for (int i = 3; i < count; i++) {
        double schedules = i == 3 ? keys : 2 * keys;
        printf("    %-14s %8.2f CMACs   (with its key schedules %.2f)\n", all[i].name, (all[i].best - schedules) / mac, all[i].best / mac);
    }
    return 1;
}

int main(void) { return time_of(19) && time_of(115) && time_of(242) ? 0 : 1; }
