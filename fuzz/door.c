/*
 * A fuzzer's target: bytes become calls on the C door. Every lent slice ends at a page that may not be touched, so that reading or writing past it ends the
 * program. A refused call must leave its memory as it was, and as long as nothing damaged the state, demand 3's sentences must hold.
 */
#define _GNU_SOURCE
#include <stdio.h>
#include <stdlib.h>
#include <string.h>
#include <sys/mman.h>
#include <unistd.h>

#include "fallowcart.h"

#define MUST(fact) \
    do { \
        if (!(fact)) { \
            fprintf(stderr, "%s:%d: does not hold: %s\n", __FILE__, __LINE__, #fact); \
            abort(); \
        } \
    } while (0)

/* ---- the input's bytes, zeros past its end */

static const uint8_t *at, *end;

static uint8_t byte(void) { return at < end ? *at++ : 0; }

static uint64_t bytes(int n) {
    uint64_t word = 0;
    while (n-- > 0) word = word << 8 | byte();
    return word;
}

static float raw_float(void) {
    uint32_t bits = (uint32_t)bytes(4);
    float value;
    memcpy(&value, &bits, sizeof value);
    return value;
}

/* ---- memory that ends at a guard page */

static void *guarded(size_t size) {
    size_t page = (size_t)sysconf(_SC_PAGESIZE), pages = (size + page - 1) / page * page;
    char *base = mmap(NULL, pages + page, PROT_READ | PROT_WRITE, MAP_PRIVATE | MAP_ANONYMOUS, -1, 0);
    MUST(base != MAP_FAILED && mprotect(base + pages, page, PROT_NONE) == 0);
    return base + pages - size;
}

enum { NUMBERS = FALLOWCART_VAD_NUMBERS, FLOATS = FALLOWCART_VAD_FLOATS, WORDS = FALLOWCART_FILTER_WORDS, LONGEST = FALLOWCART_LONGEST_BLOCK + 1, FRAME = FALLOWCART_LONGEST_FRAME + 1, ROOM = 10 * FALLOWCART_ROW_FIELDS };

static uint64_t *numbers, *rows;
static float *floats, *samples, *output, *window;
static uint32_t *words;

static void lend(void) {
    if (numbers) return;
    numbers = guarded(8 * NUMBERS);
    floats = guarded(4 * FLOATS);
    rows = guarded(8 * ROOM);
    samples = guarded(4 * LONGEST);
    output = guarded(4 * LONGEST);
    window = guarded(4 * FRAME);
    words = guarded(4 * WORDS);
}

/* ---- demand 3, since an accepted opening that nothing damaged */

static struct {
    bool sound;
    uint64_t undecided, end, rows, talk;
} run;

static uint64_t read_value(uint64_t answer) {
    MUST(fallowcart_refusal(answer) == 0);
    return fallowcart_carried(answer);
}

static void seen(uint64_t reported) {
    if (!run.sound) return;
    for (uint64_t i = 0; i < reported; i++) {
        struct fallowcart_row row;
        memcpy(&row, rows + i * FALLOWCART_ROW_FIELDS, sizeof row);
        MUST(run.end <= row.start_sample && run.undecided <= row.start_sample && row.start_sample < row.end_sample);
        MUST(row.end_sample <= numbers[FALLOWCART_VAD_PROCESSED_SAMPLES]);
        MUST(row.score_total <= 1024 * row.loud_frames && 0 < row.loud_frames);
        run.end = row.end_sample;
        run.rows++;
        run.talk += row.end_sample - row.start_sample;
    }
    uint64_t undecided = read_value(fallowcart_vad_undecided_from(numbers, NUMBERS, floats, FLOATS));
    uint64_t open = read_value(fallowcart_vad_active_segment_start_sample(numbers, NUMBERS, floats, FLOATS));
    MUST(run.undecided <= undecided);
    run.undecided = undecided;
    MUST(read_value(fallowcart_vad_rows_reported(numbers, NUMBERS, floats, FLOATS)) == run.rows);
    MUST(read_value(fallowcart_vad_talk_samples(numbers, NUMBERS, floats, FLOATS)) == run.talk);
    uint64_t trails = numbers[FALLOWCART_VAD_PROCESSED_SAMPLES] - undecided;
    MUST(numbers[FALLOWCART_VAD_WARMING] || open || trails < numbers[FALLOWCART_VAD_FRAME_LENGTH] + numbers[FALLOWCART_VAD_PADDING_SAMPLES]);
}

static void begin(bool accepted) {
    memset(&run, 0, sizeof run);
    run.sound = accepted;
    seen(0);
}

/* ---- calls */

static void open_detector(void) {
    static const uint32_t rates[4] = {8000, 16000, 44100, 48000};
    static const float overlaps[4] = {0.0f, 0.5f, 0.75f, 0.9f}, ratios[4] = {1.0f, 1.3f, 2.5f, 4.0f};
    uint8_t kind = byte();
    uint32_t rate = rates[kind & 3];
    uint64_t duration = (1 + bytes(1)) * 1000000 / 4, hangover = byte() & 15, padding = bytes(1) * 1000000, least = byte() & 7;
    float overlap = overlaps[kind >> 2 & 3], release = ratios[kind >> 4 & 3], activation = release * (1.0f + (float)(kind >> 6));
    float emphasis = 0.97f, gate = 0.0f, smoothing = 0.85f, least_energy = 0.0001f, rise = 0.998f;
    uint64_t start = bytes(1);
    uint8_t wild = byte();
    if (wild == 255) rate = (uint32_t)bytes(4);
    if (wild == 254) duration = bytes(8);
    if (wild == 253) overlap = raw_float();
    if (wild == 252) emphasis = raw_float();
    if (wild == 251) activation = raw_float();
    if (wild == 250) release = raw_float();
    if (wild == 249) gate = raw_float();
    if (wild == 248) smoothing = raw_float();
    if (wild == 247) least_energy = raw_float();
    if (wild == 246) rise = raw_float();
    if (wild == 245) start = bytes(8);
    size_t frame = (size_t)fallowcart_frame_length(rate, duration);
    if (wild == 244) frame++;
    if (frame > FRAME) frame = FRAME;
    for (size_t i = 0; i < frame; i++) window[FRAME - frame + i] = (float)(i & 7) / 8.0f;
    if (wild == 243 && frame) window[FRAME - frame] = raw_float();
    uint64_t answer = fallowcart_vad_open(rate, duration, overlap, wild & 1, emphasis, activation, release, gate, smoothing, least_energy, hangover, padding,
                                          least, start, window + FRAME - frame, frame, rise, numbers, NUMBERS, floats, FLOATS);
    if (answer != 0) {
        MUST(answer <= FALLOWCART_REFUSED_WINDOW);
        MUST(numbers[FALLOWCART_VAD_LAYOUT] == FALLOWCART_VAD_LAYOUT_NAME);
        for (int i = FALLOWCART_VAD_LAYOUT + 1; i < NUMBERS; i++) MUST(numbers[i] == 0);
        for (int i = 0; i < FLOATS; i++) MUST(floats[i] == 0.0f);
        MUST(fallowcart_vad_flush(numbers, NUMBERS, floats, FLOATS, rows, 0) == FALLOWCART_REFUSED_STATE);
    }
    begin(answer == 0);
}

static size_t block(void) {
    size_t n = bytes(2) % (LONGEST + 1);
    uint8_t kind = byte();
    float level = 1.0f / (float)(1u << (byte() & 31));
    uint32_t noise = kind;
    for (size_t i = 0; i < n; i++) {
        noise = noise * 1664525u + 1013904223u;
        samples[LONGEST - n + i] = kind & 1 ? level * ((float)(noise >> 8) / 8388608.0f - 1.0f) : i & 1 ? level : -level;
    }
    if (n && (kind & 0xf0) == 0xf0) samples[LONGEST - n + kind % n] = raw_float();
    return n;
}

static void call(bool finish) {
    static uint64_t kept_numbers[NUMBERS], kept_rows[ROOM];
    static float kept_floats[FLOATS];
    size_t n = finish ? 0 : block(), room = byte() % (ROOM + 1);
    uint64_t *lent = rows + ROOM - room;
    memcpy(kept_numbers, numbers, sizeof kept_numbers);
    memcpy(kept_floats, floats, sizeof kept_floats);
    memcpy(kept_rows, rows, sizeof kept_rows);
    uint64_t answer = finish ? fallowcart_vad_flush(numbers, NUMBERS, floats, FLOATS, lent, room)
                             : fallowcart_vad_detect(numbers, NUMBERS, floats, FLOATS, samples + LONGEST - n, n, lent, room);
    unsigned number = fallowcart_refusal(answer);
    MUST(number == 0 || (FALLOWCART_REFUSED_BLOCK <= number && number <= FALLOWCART_REFUSED_STATE));
    MUST(!run.sound || number != FALLOWCART_REFUSED_STATE);
    MUST(number == FALLOWCART_REFUSED_STATE || kept_numbers[FALLOWCART_VAD_LAYOUT] == FALLOWCART_VAD_LAYOUT_NAME);
    if (number) {
        MUST(memcmp(kept_numbers, numbers, sizeof kept_numbers) == 0 && memcmp(kept_floats, floats, sizeof kept_floats) == 0);
        MUST(memcmp(kept_rows, rows, sizeof kept_rows) == 0);
        seen(0);
        return;
    }
    MUST(numbers[FALLOWCART_VAD_ROWS] * FALLOWCART_ROW_FIELDS <= room && numbers[FALLOWCART_VAD_FRAMES] == numbers[FALLOWCART_VAD_LOUD] + numbers[FALLOWCART_VAD_QUIET]);
    memmove(rows, lent, 8 * room);
    seen(numbers[FALLOWCART_VAD_ROWS]);
}

static void filter(void) {
    static uint32_t kept[WORDS];
    static const float pass[10] = {0.9f, -1.8f, 0.9f, -1.7f, 0.8f, 0.9f, -1.8f, 0.9f, -1.7f, 0.8f};
    float coefficients[10];
    uint8_t op = byte();
    memcpy(coefficients, pass, sizeof pass);
    if (op & 1) coefficients[op >> 1 & 7] = raw_float();
    if ((op & 6) == 0)
        fallowcart_filter_open(op & 8 ? raw_float() : 80.0f, 16000, 0.95f, op >> 4 & 1, op >> 5 & 1, op >> 6 & 1, coefficients, 10, words, WORDS);
    if ((op & 6) == 2) words[byte() % WORDS] = (uint32_t)bytes(4);
    memcpy(kept, words, sizeof kept);
    size_t n = block();
    uint64_t answer = fallowcart_filter_process(words, WORDS, samples + LONGEST - n, n, op >> 3 & 1, op >> 4 & 1, output + LONGEST - n, n);
    if (answer) MUST(memcmp(kept, words, sizeof kept) == 0);
    if (fallowcart_filter_bias(words, WORDS) == FALLOWCART_REFUSED_FILTER_STATE) {
        MUST(answer == FALLOWCART_REFUSED_FILTER_STATE);
        MUST(fallowcart_filter_reset(words, WORDS) == FALLOWCART_REFUSED_FILTER_STATE);
    }
}

int LLVMFuzzerTestOneInput(const uint8_t *data, size_t size);

int LLVMFuzzerTestOneInput(const uint8_t *data, size_t size) {
    lend();
    at = data;
    end = data + size;
    memset(words, 0, 4 * WORDS);
    open_detector();
    for (int n = 0; at < end && n < 100; n++) {
        switch (byte() & 15) {
        case 0: open_detector(); break;
        case 1: call(true); break;
        case 2:
            if (fallowcart_vad_reset(numbers, NUMBERS, floats, FLOATS, bytes(8)) == 0) begin(run.sound);
            break;
        case 3:
            numbers[byte() % NUMBERS] ^= (uint64_t)1 << (byte() & 63);
            run.sound = false;
            break;
        case 4:
            numbers[byte() % NUMBERS] = bytes(8);
            run.sound = false;
            break;
        case 5:
            floats[bytes(2) % FLOATS] = raw_float();
            run.sound = false;
            break;
        case 6: {
            size_t short_numbers = byte() % NUMBERS, short_floats = bytes(2) % FLOATS;
            MUST(fallowcart_vad_flush(numbers + NUMBERS - short_numbers, short_numbers, floats, FLOATS, rows, ROOM) == FALLOWCART_REFUSED_STATE);
            MUST(fallowcart_vad_noise_floor(numbers, NUMBERS, floats + FLOATS - short_floats, short_floats) == FALLOWCART_REFUSED_STATE);
            break;
        }
        case 7:
        case 8: filter(); break;
        default: call(false);
        }
    }
    return 0;
}
