/* The C door as a hub's engineer uses it: every function of the header is called. Prints the number of facts that held; the first that does not ends it. */
#include <pthread.h>
#include <stdio.h>
#include <stdlib.h>
#include <string.h>

#include "fallowcart.h"

static int held;

#define HOLDS(fact) \
    do { \
        if (!(fact)) { \
            fprintf(stderr, "%s:%d: does not hold: %s\n", __FILE__, __LINE__, #fact); \
            exit(1); \
        } \
        held++; \
    } while (0)

#define MEMORY(state) (state).numbers, FALLOWCART_VAD_NUMBERS, (state).floats, FALLOWCART_VAD_FLOATS

static float bits_as_float(uint64_t bits) {
    uint32_t word = (uint32_t)bits;
    float value;
    memcpy(&value, &word, sizeof value);
    return value;
}

static uint32_t float_as_bits(float value) {
    uint32_t word;
    memcpy(&word, &value, sizeof word);
    return word;
}

/* The settings of document 01's runs A and B: 8 kHz, frames of 10 ms. */
static uint64_t open_run(struct fallowcart_vad *vad, float release_ratio) {
    float window[80];
    for (int i = 0; i < 80; i++) window[i] = 1.0f;
    return fallowcart_vad_open(8000, 10000000, 0.0f, false, 0.0f, 4.0f, release_ratio, 0.0f, 0.0f, 0.0009765625f, 1, 5000000, 1, 0, window, 80, 0.5f,
                               vad->numbers, FALLOWCART_VAD_NUMBERS, vad->floats, FALLOWCART_VAD_FLOATS);
}

/* The run's sound; before each call the state is stored, and brought back into other memory. Answers the rows of the flush. */
static uint64_t play(struct fallowcart_vad *first, struct fallowcart_row *row) {
    static const float levels[6] = {0.015625f, 0.015625f, 1.0f, 1.0f, 0.015625f, 0.015625f};
    static struct fallowcart_vad second;
    struct fallowcart_vad *vad = first;
    unsigned char stored[sizeof *vad];
    uint64_t rows[2 * FALLOWCART_ROW_FIELDS];
    float block[80];
    for (int call = 0; call < 7; call++) {
        memcpy(stored, vad, sizeof stored);
        memset(vad, 0xff, sizeof *vad);
        vad = vad == first ? &second : first;
        memcpy(vad, stored, sizeof stored);
        for (size_t i = 0; i < 2 * FALLOWCART_ROW_FIELDS; i++) rows[i] = 77;
        if (call == 6) break;
        for (int i = 0; i < 80; i++) block[i] = levels[call];
        HOLDS(fallowcart_vad_detect(MEMORY(*vad), block, 80, rows, 2 * FALLOWCART_ROW_FIELDS) == 0);
        HOLDS(vad->numbers[FALLOWCART_VAD_ROWS] == 0 && rows[0] == 77);
        HOLDS(vad->numbers[FALLOWCART_VAD_PROCESSED_SAMPLES] == 80u * (unsigned)(call + 1));
    }
    /* No room for the row: refused, and nothing is written. */
    uint64_t answer = fallowcart_vad_flush(MEMORY(*vad), rows, FALLOWCART_ROW_FIELDS - 1);
    HOLDS(fallowcart_refusal(answer) == FALLOWCART_REFUSED_ROWS && fallowcart_carried(answer) == 1);
    HOLDS(memcmp(stored, vad, sizeof stored) == 0 && rows[0] == 77);
    HOLDS(fallowcart_vad_flush(MEMORY(*vad), rows, 2 * FALLOWCART_ROW_FIELDS) == 0);
    HOLDS(rows[FALLOWCART_ROW_FIELDS] == 77);
    memcpy(row, rows, sizeof *row);
    if (vad != first) memcpy(first, vad, sizeof *vad);
    return vad->numbers[FALLOWCART_VAD_ROWS];
}

static void detector(void) {
    static struct fallowcart_vad vad;
    struct fallowcart_row row;

    /* Nothing between the numbers and the floats, and the padding of at most one float after them. */
    HOLDS(sizeof vad - (8 * FALLOWCART_VAD_NUMBERS + 4 * FALLOWCART_VAD_FLOATS) <= 4);
    HOLDS(sizeof row == 8 * FALLOWCART_ROW_FIELDS);

    /* Zeros are no state. */
    HOLDS(fallowcart_vad_undecided_from(MEMORY(vad)) == FALLOWCART_REFUSED_STATE);
    HOLDS(fallowcart_vad_reset(MEMORY(vad), 0) == FALLOWCART_REFUSED_STATE);

    HOLDS(open_run(&vad, 2.0f) == 0);
    HOLDS(play(&vad, &row) == 1);
    HOLDS(row.start_sample == 120 && row.end_sample == 280);
    HOLDS(row.start_time == 15000000 && row.end_time == 35000000);
    HOLDS(row.score_total == 1024 && row.loud_frames == 1 && row.mean_energy == 1065353216);

    HOLDS(fallowcart_vad_undecided_from(MEMORY(vad)) == (uint64_t)440 << 8);
    HOLDS(fallowcart_vad_analyzed_until(MEMORY(vad)) == (uint64_t)480 << 8);
    HOLDS(fallowcart_vad_active_segment_start_sample(MEMORY(vad)) == 0);
    HOLDS(fallowcart_vad_rows_reported(MEMORY(vad)) == (uint64_t)1 << 8);
    HOLDS(fallowcart_vad_talk_samples(MEMORY(vad)) == (uint64_t)160 << 8);
    uint64_t floor = fallowcart_vad_noise_floor(MEMORY(vad));
    HOLDS(fallowcart_refusal(floor) == 0 && fallowcart_carried(floor) == float_as_bits(vad.floats[FALLOWCART_VAD_FLOAT_NOISE_FLOOR]));

    HOLDS(fallowcart_vad_reset(MEMORY(vad), 42) == 0);
    HOLDS(vad.numbers[FALLOWCART_VAD_STREAM_START_TIME] == 42 && vad.numbers[FALLOWCART_VAD_ROWS_REPORTED] == 0 &&
          vad.floats[FALLOWCART_VAD_FLOAT_WINDOW + 79] == 1.0f && vad.floats[FALLOWCART_VAD_FLOAT_WINDOW + 80] == 0.0f);
    HOLDS(fallowcart_vad_reset(MEMORY(vad), (uint64_t)1 << 63) == FALLOWCART_REFUSED_LIMITS);
    HOLDS(vad.numbers[FALLOWCART_VAD_STREAM_START_TIME] == 42);

    HOLDS(open_run(&vad, 1.5f) == 0);
    HOLDS(play(&vad, &row) == 1);
    HOLDS(row.start_sample == 120 && row.end_sample == 360);
    HOLDS(row.start_time == 15000000 && row.end_time == 45000000);
    HOLDS(row.score_total == 1325 && row.loud_frames == 2 && row.mean_energy == 1065353216);

    /* A block's refusals. */
    float block[FALLOWCART_LONGEST_BLOCK + 1] = {0};
    uint64_t rows[1];
    HOLDS(fallowcart_vad_detect(MEMORY(vad), block, FALLOWCART_LONGEST_BLOCK + 1, rows, 0) == FALLOWCART_REFUSED_BLOCK);
    block[3] = 65537.0f;
    HOLDS(fallowcart_vad_detect(MEMORY(vad), block, FALLOWCART_LONGEST_BLOCK, rows, 0) == (FALLOWCART_REFUSED_SAMPLE | 3 << 8));

    /* Short memory, a flag that is none, another layout, a refused opening. */
    HOLDS(fallowcart_vad_flush(vad.numbers, FALLOWCART_VAD_NUMBERS - 1, vad.floats, FALLOWCART_VAD_FLOATS, rows, 0) == FALLOWCART_REFUSED_STATE);
    HOLDS(fallowcart_vad_flush(vad.numbers, FALLOWCART_VAD_NUMBERS, vad.floats, FALLOWCART_VAD_FLOATS - 1, rows, 0) == FALLOWCART_REFUSED_STATE);
    vad.numbers[FALLOWCART_VAD_WARMING] = 2;
    HOLDS(fallowcart_vad_flush(MEMORY(vad), rows, 0) == FALLOWCART_REFUSED_STATE);
    HOLDS(open_run(&vad, 2.0f) == 0 && vad.numbers[FALLOWCART_VAD_LAYOUT] == FALLOWCART_VAD_LAYOUT_NAME);
    vad.numbers[FALLOWCART_VAD_LAYOUT]++;
    HOLDS(fallowcart_vad_flush(MEMORY(vad), rows, 0) == FALLOWCART_REFUSED_STATE);
    HOLDS(open_run(&vad, 0.5f) == FALLOWCART_REFUSED_RELEASE_RATIO);
    static const struct fallowcart_vad left = {.numbers = {[FALLOWCART_VAD_LAYOUT] = FALLOWCART_VAD_LAYOUT_NAME}};
    HOLDS(memcmp(&vad, &left, sizeof left) == 0);
}

static void settings(void) {
    HOLDS(fallowcart_settings_refusal(16000, 20000000, 0.5f, true, 0.97f, 2.5f, 1.3f, 0.0005f, 0.85f, 0.0001f, 20, 50000000, 3, 0) == 0);
    HOLDS(fallowcart_settings_refusal(16000, 20000000, 0.5f, true, 0.97f, 1.2f, 1.3f, 0.0005f, 0.85f, 0.0001f, 20, 50000000, 3, 0) == FALLOWCART_REFUSED_ACTIVATION_RATIO);
    HOLDS(fallowcart_frame_length(16000, 20000000) == 320);
    HOLDS(fallowcart_hop_length(320, 0.5f) == 160);
    HOLDS(fallowcart_warmup_frames(160, 16000) == 30);
    HOLDS(fallowcart_padding_samples(50000000, 16000) == 800);
    HOLDS(fallowcart_time_of_sample(5, 16000, 16000) == 1000000005);
}

static void filter(void) {
    uint32_t state[FALLOWCART_FILTER_WORDS] = {0};
    float samples[4] = {0.25f, -0.25f, 0.5f, 0.0f}, output[4] = {9.0f, 9.0f, 9.0f, 9.0f};
    static const float pass[10] = {1.0f, 0.0f, 0.0f, 0.0f, 0.0f, 1.0f, 0.0f, 0.0f, 0.0f, 0.0f};

    HOLDS(fallowcart_filter_bias(state, FALLOWCART_FILTER_WORDS) == FALLOWCART_REFUSED_FILTER_STATE);
    HOLDS(fallowcart_filter_open(80.0f, 16000, 0.5f, true, true, true, pass, 10, state, FALLOWCART_FILTER_WORDS) == 0);
    HOLDS(fallowcart_filter_process(state, FALLOWCART_FILTER_WORDS, samples, 3, true, false, output, 4) == 0);
    HOLDS(output[0] == 0.25f && output[1] == -0.25f && output[2] == 0.5f && output[3] == 9.0f);
    /* A block without a context moves the bias half way to its mean. */
    HOLDS(fallowcart_filter_process(state, FALLOWCART_FILTER_WORDS, samples, 4, false, false, output, 4) == 0);
    HOLDS(bits_as_float(fallowcart_carried(fallowcart_filter_bias(state, FALLOWCART_FILTER_WORDS))) == 0.0625f);
    HOLDS(fallowcart_filter_process(state, FALLOWCART_FILTER_WORDS, samples, 4, false, false, output, 3) == FALLOWCART_REFUSED_FILTER_OUTPUT);
    HOLDS(fallowcart_filter_reset(state, FALLOWCART_FILTER_WORDS) == 0);
    HOLDS(fallowcart_filter_bias(state, FALLOWCART_FILTER_WORDS) == 0);
    HOLDS(fallowcart_filter_open(80.0f, 16000, 0.5f, true, true, true, pass, 9, state, FALLOWCART_FILTER_WORDS) == FALLOWCART_REFUSED_FILTER_COEFFICIENT);
}

static void arithmetic(void) {
    HOLDS(bits_as_float(fallowcart_fused_bits(float_as_bits(2.0f), float_as_bits(3.0f), float_as_bits(0.5f))) == 6.5f);
    HOLDS(fallowcart_fused_bits(float_as_bits(3e38f), float_as_bits(2.0f), 0) == (uint64_t)1 << 32);
    HOLDS(fallowcart_root_bits(float_as_bits(2.0f)) == 0x3FB504F3);
    HOLDS(fallowcart_score_bits(float_as_bits(10.0f)) == 1024);
    HOLDS(fallowcart_nearest(16777217) == 16777216.0f);
    HOLDS(fallowcart_round_f32(2.5f) == 3);
    HOLDS(fallowcart_round_f64(-1.0) == 0);
    HOLDS(fallowcart_ceil_f64(29.000001) == 30);
}

static void *all(void *nothing) {
    detector();
    settings();
    filter();
    arithmetic();
    return nothing;
}

/* In a thread with the stack that the header asks for. */
int main(void) {
    pthread_attr_t attributes;
    pthread_t thread;
    HOLDS(pthread_attr_init(&attributes) == 0);
    HOLDS(pthread_attr_setstacksize(&attributes, 256 * 1024) == 0);
    HOLDS(pthread_create(&thread, &attributes, all, NULL) == 0);
    HOLDS(pthread_join(thread, NULL) == 0);
    printf("%d facts held\n", held);
    return 0;
}
