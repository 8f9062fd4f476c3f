/*
 * Fallowcart: a voice detector and a high-pass filter for long recordings, proved in Rattle. The library is crates/fallowcart/out/libfallowcart.a, for x86-64; of
 * other libraries it needs memcpy and memset alone.
 *
 * - Every function answers every input: any number, any length, any content of the memory that it is lent. It allocates nothing, keeps nothing
 *   between calls, and may be called from any thread. A pointer must be good for its length, aligned as C aligns its type and, with a length of 0 too,
 *   not null; memory lent to one call must not overlap; a bool is 0 or 1.
 * - A state lives in memory of the caller's, as numbers that are documented below. It may be stored, moved and gone on with after a restart, on a
 *   machine of the same byte order. A state that is malformed is refused, and a refused call writes nothing. The exceptions: a refused opening leaves an
 *   all-zero state, and refusal 26 leaves results in the output.
 * - Samples are f32, and full scale is 1: the usual settings below assume it. Positions are counted in samples from the stream's start, times are in
 *   nanoseconds. An energy is a root mean square, of a frame's samples after pre-emphasis and windowing.
 * - A call's arrays stand on the stack: give the thread that calls 256 KiB of it.
 *
 * A hub hears a block so:
 *
 *     static struct fallowcart_vad vad;
 *     uint64_t rows[8 * FALLOWCART_ROW_FIELDS];
 *     uint64_t answer = fallowcart_vad_detect(vad.numbers, FALLOWCART_VAD_NUMBERS, vad.floats, FALLOWCART_VAD_FLOATS, samples, length,
 *                                             rows, 8 * FALLOWCART_ROW_FIELDS);
 *     if (fallowcart_refusal(answer) != 0)
 *         complain(fallowcart_refusal(answer), fallowcart_carried(answer));
 *     else
 *         for (uint64_t i = 0; i < vad.numbers[FALLOWCART_VAD_ROWS]; i++) {
 *             struct fallowcart_row row;
 *             memcpy(&row, rows + i * FALLOWCART_ROW_FIELDS, sizeof row);
 *             cut(row.start_sample, row.end_sample);
 *         }
 */
#ifndef FALLOWCART_H
#define FALLOWCART_H

#include <stdbool.h>
#include <stddef.h>
#include <stdint.h>

#ifdef __cplusplus
extern "C" {
#endif

/* ---- answers */

/* An answer is one word: the refusal's number, 0 for none, in its low byte, and above it what the answer carries. */
static inline unsigned fallowcart_refusal(uint64_t answer) { return (unsigned)(answer & 0xff); }
static inline uint64_t fallowcart_carried(uint64_t answer) { return answer >> 8; }

/*
 * The refusals, which docs/REFUSALS.md lists too. 19 and 27 are given too where the memory is too short for a state. 24 is asked of the stages in use, where
 * b0 and b2 are in [0, 1], b1 in [-2, 0], a1 in [-2, 2] and a2 in [-1, 1]. After 26 the output holds the results before the place, and zeros from there to
 * the block's length; the filter's state is as it was.
 */
enum {
    FALLOWCART_REFUSED_RATE = 1, /* the sample rate is not from 8,000 to 48,000 Hz */
    FALLOWCART_REFUSED_FRAME_DURATION = 2, /* the frame duration is not from 1 ns to 1 s */
    FALLOWCART_REFUSED_FRAME_OVERLAP = 3, /* the frame overlap is not in [0, 1) */
    FALLOWCART_REFUSED_PRE_EMPHASIS = 4, /* the pre-emphasis is not in [0, 1) */
    FALLOWCART_REFUSED_RELEASE_RATIO = 5, /* the release ratio is NaN, or is below 1 */
    FALLOWCART_REFUSED_ACTIVATION_RATIO = 6, /* the activation ratio is not finite, or is below the release ratio */
    FALLOWCART_REFUSED_MIN_SPEECH_ENERGY = 7, /* the least energy of speech is not finite, or is negative */
    FALLOWCART_REFUSED_NOISE_SMOOTHING = 8, /* the smoothing of the noise floor is not in [0, 1) */
    FALLOWCART_REFUSED_ENERGY_FLOOR = 9, /* the energy floor is not finite, or is not above 0 */
    FALLOWCART_REFUSED_MIN_SPEECH_FRAMES = 10, /* the least number of speech frames is 0 */
    FALLOWCART_REFUSED_FRAME_LENGTH = 11, /* a frame has more than 2,048 samples */
    FALLOWCART_REFUSED_WARMUP = 12, /* the warm-up has more than 300 frames */
    FALLOWCART_REFUSED_LIMITS = 13, /* the padding is above 1 s, the hangover or the least number of speech frames above 10,000, or the stream starts at 2^63 ns or later */
    FALLOWCART_REFUSED_WINDOW = 14, /* the window has not a frame's length, an entry of it is not in [0, 1], or the rise weight is not in [0.5, 1] */
    FALLOWCART_REFUSED_BLOCK = 15, /* the block is longer than 1,024 samples */
    FALLOWCART_REFUSED_SAMPLE = 16, /* a sample is not finite, or its magnitude is above 65,536; carries the sample's place in the block */
    FALLOWCART_REFUSED_RECEIVED = 17, /* the stream would be longer than 2^40 samples */
    FALLOWCART_REFUSED_ROWS = 18, /* the call reports more rows than fit; carries the number of rows needed */
    FALLOWCART_REFUSED_STATE = 19, /* the detector's state is malformed */
    FALLOWCART_REFUSED_FILTER_RATE = 20, /* the sample rate is not from 8,000 to 48,000 Hz */
    FALLOWCART_REFUSED_FILTER_CUTOFF = 21, /* the high-pass cutoff is not finite, or is below 20 Hz */
    FALLOWCART_REFUSED_FILTER_HALF_RATE = 22, /* the high-pass cutoff is not below half the sample rate */
    FALLOWCART_REFUSED_FILTER_ALPHA = 23, /* the smoothing of the DC bias is not in (0, 1) */
    FALLOWCART_REFUSED_FILTER_COEFFICIENT = 24, /* a filter coefficient is NaN or outside its range */
    FALLOWCART_REFUSED_FILTER_OUTPUT = 25, /* the output is shorter than the block */
    FALLOWCART_REFUSED_FILTER_OVERFLOW = 26, /* the filter overflows; carries the sample's place in the block */
    FALLOWCART_REFUSED_FILTER_STATE = 27, /* the filter's state is malformed */
};

/* ---- the detector */

/* The most samples of a frame and of a block, and the most frames of a warm-up. */
enum { FALLOWCART_LONGEST_FRAME = 2048, FALLOWCART_LONGEST_BLOCK = 1024, FALLOWCART_LONGEST_WARMUP = 300 };

/*
 * A detector's state: 17,868 bytes, numbers and floats, and 4 of padding at the end of the struct. Zeros are no state: open one.
 *
 * Its first number is the name of the layout. Every change of the layout changes it, so that a state that another one stored is refused by 19 and never misread.
 */
#define FALLOWCART_VAD_LAYOUT_NAME UINT64_C(0x46414C4C4F570001)

/*
 * Its numbers, by their places. Durations and times are in nanoseconds, a flag is 0 or 1. Where no segment is open, the library writes zeros to what is said
 * of one, and does not look there. It never looks at what a call counted, and an opening or a reset makes that 0.
 */
enum {
    FALLOWCART_VAD_LAYOUT, /* the name of the layout */
    FALLOWCART_VAD_FRAMES, /* what the latest call that was not refused counted: the frames that it judged */
    FALLOWCART_VAD_LOUD,
    FALLOWCART_VAD_QUIET,
    FALLOWCART_VAD_ROWS, /* the rows that it reported */
    FALLOWCART_VAD_SAMPLE_RATE,
    FALLOWCART_VAD_FRAME_DURATION,
    FALLOWCART_VAD_HAS_PRE_EMPHASIS, /* a flag */
    FALLOWCART_VAD_HANGOVER_FRAMES,
    FALLOWCART_VAD_SPEECH_PADDING,
    FALLOWCART_VAD_MIN_SPEECH_FRAMES,
    FALLOWCART_VAD_STREAM_START_TIME,
    FALLOWCART_VAD_FRAME_LENGTH, /* samples of a frame */
    FALLOWCART_VAD_HOP_LENGTH, /* samples from one frame's start to the next one's */
    FALLOWCART_VAD_WARMUP_FRAMES,
    FALLOWCART_VAD_PADDING_SAMPLES,
    FALLOWCART_VAD_CARRY_LEN,
    FALLOWCART_VAD_CARRY_START,
    FALLOWCART_VAD_PROCESSED_SAMPLES, /* samples received */
    FALLOWCART_VAD_WARMING, /* a flag */
    FALLOWCART_VAD_HELD, /* frames that the warm-up holds */
    FALLOWCART_VAD_LAST_SEGMENT_END,
    FALLOWCART_VAD_ROWS_REPORTED,
    FALLOWCART_VAD_TALK_SAMPLES,
    FALLOWCART_VAD_IS_OPEN, /* a flag; what follows is of the open segment */
    FALLOWCART_VAD_START_SAMPLE,
    FALLOWCART_VAD_LAST_END_SAMPLE, /* the end of its last loud frame */
    FALLOWCART_VAD_SCORE_TOTAL,
    FALLOWCART_VAD_LOUD_FRAMES,
    FALLOWCART_VAD_SILENCE_RUN, /* quiet frames since its last loud one */
    FALLOWCART_VAD_NUMBERS /* how many there are */
};

/* Its floats, by their places. Past the used part of an array the library writes zeros and looks at nothing. */
enum {
    FALLOWCART_VAD_FLOAT_WINDOW = 0, /* a frame long */
    FALLOWCART_VAD_FLOAT_CARRY = FALLOWCART_VAD_FLOAT_WINDOW + FALLOWCART_LONGEST_FRAME, /* pre-emphasized values that no complete frame has used up */
    FALLOWCART_VAD_FLOAT_WARMUP = FALLOWCART_VAD_FLOAT_CARRY + FALLOWCART_LONGEST_FRAME, /* the energies of the frames that the warm-up holds */
    FALLOWCART_VAD_FLOAT_SINGLES = FALLOWCART_VAD_FLOAT_WARMUP + FALLOWCART_LONGEST_WARMUP, /* where the arrays end: each float from here on stands alone */
    FALLOWCART_VAD_FLOAT_FRAME_OVERLAP = FALLOWCART_VAD_FLOAT_SINGLES,
    FALLOWCART_VAD_FLOAT_PRE_EMPHASIS,
    FALLOWCART_VAD_FLOAT_ACTIVATION_RATIO,
    FALLOWCART_VAD_FLOAT_RELEASE_RATIO,
    FALLOWCART_VAD_FLOAT_MIN_SPEECH_ENERGY,
    FALLOWCART_VAD_FLOAT_NOISE_SMOOTHING,
    FALLOWCART_VAD_FLOAT_ENERGY_FLOOR,
    FALLOWCART_VAD_FLOAT_SPEECH_FLOOR_RISE, /* the rise weight */
    FALLOWCART_VAD_FLOAT_PRE_EMPHASIS_PREV, /* the last sample */
    FALLOWCART_VAD_FLOAT_NOISE_FLOOR,
    FALLOWCART_VAD_FLOAT_ENERGY_SUM, /* 0 where no segment is open */
    FALLOWCART_VAD_FLOATS /* how many there are */
};

struct fallowcart_vad {
    uint64_t numbers[FALLOWCART_VAD_NUMBERS];
    float floats[FALLOWCART_VAD_FLOATS];
};

/* A row. Its confidence, from 0 to 1, is score_total / (1024 * loud_frames). */
struct fallowcart_row {
    uint64_t start_sample;
    uint64_t end_sample;
    uint64_t start_time;
    uint64_t end_time;
    uint64_t score_total;
    uint64_t loud_frames;
    uint64_t mean_energy; /* the f32's bits */
};
enum { FALLOWCART_ROW_FIELDS = sizeof(struct fallowcart_row) / sizeof(uint64_t) };

/*
 * The settings, and what is usual:
 *   sample_rate         16000       samples a second
 *   frame_duration      20000000    of a frame
 *   frame_overlap       0.5         of neighbouring frames
 *   has_pre_emphasis    true
 *   pre_emphasis        0.97        the a of y[n] = x[n] - a * x[n-1]
 *   activation_ratio    2.5         times the noise floor that begin a segment
 *   release_ratio       1.3         times the noise floor that go on with it
 *   min_speech_energy   0.0005      frames of less are never speech
 *   noise_smoothing     0.85        of the noise floor in silence
 *   energy_floor        0.0001      the noise floor's least value
 *   hangover_frames     20          quiet frames that a segment lives through
 *   speech_padding      50000000    added at both ends of a segment
 *   min_speech_frames   3           least loud frames of a segment that is reported
 *   stream_start_time   0           when the first sample is
 *
 * Opens a detector: 19 where the memory is too short, which is then left as it is; else 0, or the first of refusals 1 to 14, which leaves an all-zero
 * state: the layout's name and zeros behind it. The window is a Hann window a frame long, 0.5 - 0.5 * cos(2 * pi * n / (length - 1)), and the rise weight
 * exp(-hop / (5 * rate)), both worked out by the caller; fallowcart_frame_length and fallowcart_hop_length give the lengths.
 */
uint64_t fallowcart_vad_open(
    uint32_t sample_rate,
    uint64_t frame_duration,
    float frame_overlap,
    bool has_pre_emphasis,
    float pre_emphasis,
    float activation_ratio,
    float release_ratio,
    float min_speech_energy,
    float noise_smoothing,
    float energy_floor,
    uint64_t hangover_frames,
    uint64_t speech_padding,
    uint64_t min_speech_frames,
    uint64_t stream_start_time,
    const float *window, size_t window_len,
    float speech_floor_rise,
    uint64_t *numbers, size_t numbers_len,
    float *floats, size_t floats_len);

/*
 * Hears the next block of the stream: refusals 19, 15, 16, 17, 18. Rows, of FALLOWCART_ROW_FIELDS numbers each, fill the lent numbers from their
 * start; what stands past them stays. After 18 call again with room for the rows that it carries.
 */
uint64_t fallowcart_vad_detect(
    uint64_t *numbers, size_t numbers_len,
    float *floats, size_t floats_len,
    const float *samples, size_t samples_len,
    uint64_t *rows, size_t rows_len);

/* Judges what still waits for a full frame and closes the open segment: refusals 19, 18. The stream may go on after it. */
uint64_t fallowcart_vad_flush(
    uint64_t *numbers, size_t numbers_len,
    float *floats, size_t floats_len,
    uint64_t *rows, size_t rows_len);

/* Forgets all that was heard, the noise floor included, and starts a new stream: refusals 19, 13. */
uint64_t fallowcart_vad_reset(
    uint64_t *numbers, size_t numbers_len,
    float *floats, size_t floats_len,
    uint64_t stream_start_time);

/* Readings: refusal 19, or the value carried. */

/* The first sample whose judgement can still change. From an opening to the next reset it never goes back, and rows of later calls do not start before it. */
uint64_t fallowcart_vad_undecided_from(const uint64_t *numbers, size_t numbers_len, const float *floats, size_t floats_len);
/* Where the next frame starts: the sound before it has been used up. */
uint64_t fallowcart_vad_analyzed_until(const uint64_t *numbers, size_t numbers_len, const float *floats, size_t floats_len);
/* 0 where no segment is open, else one more than the open segment's start. */
uint64_t fallowcart_vad_active_segment_start_sample(const uint64_t *numbers, size_t numbers_len, const float *floats, size_t floats_len);
/* Rows since the opening or the latest reset. */
uint64_t fallowcart_vad_rows_reported(const uint64_t *numbers, size_t numbers_len, const float *floats, size_t floats_len);
/* The samples of those rows. */
uint64_t fallowcart_vad_talk_samples(const uint64_t *numbers, size_t numbers_len, const float *floats, size_t floats_len);
/* The bits of the noise floor. */
uint64_t fallowcart_vad_noise_floor(const uint64_t *numbers, size_t numbers_len, const float *floats, size_t floats_len);

/* ---- the detector's settings */

/* The first of refusals 1 to 13 that these settings meet, or 0. */
uint32_t fallowcart_settings_refusal(
    uint32_t sample_rate,
    uint64_t frame_duration,
    float frame_overlap,
    bool has_pre_emphasis,
    float pre_emphasis,
    float activation_ratio,
    float release_ratio,
    float min_speech_energy,
    float noise_smoothing,
    float energy_floor,
    uint64_t hangover_frames,
    uint64_t speech_padding,
    uint64_t min_speech_frames,
    uint64_t stream_start_time);

/* What follows from the settings, in samples and frames. A frame's length is 0 where refusal 1 or 2 is met. */
uint64_t fallowcart_frame_length(uint32_t sample_rate, uint64_t frame_duration);
uint64_t fallowcart_hop_length(uint64_t frame_length, float frame_overlap);
uint64_t fallowcart_warmup_frames(uint64_t hop_length, uint32_t sample_rate);
uint64_t fallowcart_padding_samples(uint64_t speech_padding, uint32_t sample_rate);

/* When a sample is; 0 outside the domain. */
uint64_t fallowcart_time_of_sample(uint64_t stream_start_time, uint32_t sample_rate, uint64_t sample);

/* ---- the filter */

/* A stage of the filter, word by word: its coefficients, then what it remembers. */
enum {
    FALLOWCART_STAGE_B0,
    FALLOWCART_STAGE_B1,
    FALLOWCART_STAGE_B2,
    FALLOWCART_STAGE_A1,
    FALLOWCART_STAGE_A2,
    FALLOWCART_STAGE_X1,
    FALLOWCART_STAGE_X2,
    FALLOWCART_STAGE_Y1,
    FALLOWCART_STAGE_Y2,
    FALLOWCART_STAGE_WORDS /* how many there are */
};

/* A filter's state, word by word; those of floats are their bits. */
enum {
    FALLOWCART_FILTER_HIGHPASS_CUTOFF_HZ,
    FALLOWCART_FILTER_SAMPLE_RATE_HZ,
    FALLOWCART_FILTER_DC_BIAS_ALPHA,
    FALLOWCART_FILTER_ENABLE_DC_REMOVAL, /* a flag */
    FALLOWCART_FILTER_ENABLE_HIGHPASS, /* a flag */
    FALLOWCART_FILTER_FOURTH_ORDER, /* a flag */
    FALLOWCART_FILTER_FIRST_STAGE,
    FALLOWCART_FILTER_SECOND_STAGE = FALLOWCART_FILTER_FIRST_STAGE + FALLOWCART_STAGE_WORDS,
    FALLOWCART_FILTER_BIAS = FALLOWCART_FILTER_SECOND_STAGE + FALLOWCART_STAGE_WORDS,
    FALLOWCART_FILTER_WORDS /* how many there are */
};

/*
 * Opens a filter: 27 where the memory is too short, which is then left as it is; else 24 where there are fewer than ten coefficients, 0, or the first of
 * refusals 20 to 24. A refusal leaves an all-zero state.
 *
 * The coefficients are ten: b0, b1, b2, a1, a2 of the first stage, then of the second, which second order never reads. For a Butterworth high-pass, with
 * w = 2 * pi * cutoff / rate and s = sin(w) / (2 * q):
 *   b0 = b2 = (1 + cos(w)) / 2 / (1 + s), b1 = -(1 + cos(w)) / (1 + s), a1 = -2 * cos(w) / (1 + s), a2 = (1 - s) / (1 + s)
 * where q is 0.70710678 for second order, and 0.5411961 and 1.306563 for the two stages of fourth. Usual are a cutoff of 80, a dc_bias_alpha of 0.95, both
 * switches on and fourth order.
 */
uint64_t fallowcart_filter_open(
    float highpass_cutoff_hz,
    uint32_t sample_rate_hz,
    float dc_bias_alpha,
    bool enable_dc_removal,
    bool enable_highpass,
    bool fourth_order,
    const float *coefficients, size_t coefficients_len,
    uint32_t *state, size_t state_len);

/* Filters a block into the output, which is other memory than the samples: refusals 27, 15, 25, 16, 26. The bias follows blocks that are silent, and those without a context. */
uint64_t fallowcart_filter_process(
    uint32_t *state, size_t state_len,
    const float *samples, size_t samples_len,
    bool has_context,
    bool is_silence,
    float *output, size_t output_len);

/* Forgets the sound, the bias included: refusal 27. */
uint64_t fallowcart_filter_reset(uint32_t *state, size_t state_len);

/* Refusal 27, or the bits of the bias carried. */
uint64_t fallowcart_filter_bias(const uint32_t *state, size_t state_len);

/* ---- arithmetic, so that tests can hold what was compiled to the processor's own */

/* Bits of a * b + c rounded once, and of the root of x; 2^32 where there is no finite number. */
uint64_t fallowcart_fused_bits(uint32_t a, uint32_t b, uint32_t c);
uint64_t fallowcart_root_bits(uint32_t x);
/* The score of the ratio with these bits, 0 to 1,024. */
uint64_t fallowcart_score_bits(uint32_t ratio);
/* The f32 nearest to a count. */
float fallowcart_nearest(uint64_t n);
/* Rounded half away from zero, and up: 0 for NaN and below 0, the largest number above 64 bits. */
uint64_t fallowcart_round_f32(float x);
uint64_t fallowcart_round_f64(double x);
uint64_t fallowcart_ceil_f64(double x);

#ifdef __cplusplus
}
#endif

#endif
