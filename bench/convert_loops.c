/* convert_loops KIND ROUNDS: the loops that convert raw audio, and those of G.711, as plain C.
 * Each round converts a million samples into memory that it takes anew. It writes what the last round made. KIND is
 * FROM:TO for two formats, or for one channel and two of S16LE, or an element of G.711. */
#include <stdint.h>
#include <stdio.h>
#include <stdlib.h>
#include <string.h>

typedef uint8_t *Out;
typedef const uint8_t *In;
typedef void Loop(Out out, In in, size_t count);

static int16_t get16(In in) { return (int16_t)(in[0] | in[1] << 8); }

static int32_t get24(In in) { return in[0] | in[1] << 8 | (int8_t)in[2] * 65536; }

static void put16(Out out, int32_t value) {
    out[0] = (uint8_t)value;
    out[1] = (uint8_t)(value >> 8);
}

static void put24(Out out, int32_t value) {
    put16(out, value);
    out[2] = (uint8_t)(value >> 16);
}

static void put32(Out out, int32_t value) {
    put16(out, value);
    put16(out + 2, value >> 16);
}

static void s16le_s24le(Out out, In in, size_t count) {
    for (size_t at = 0; at < count; at++) put24(out + 3 * at, get16(in + 2 * at) * 256);
}

static void s24le_s16le(Out out, In in, size_t count) {
    for (size_t at = 0; at < count; at++) put16(out + 2 * at, get24(in + 3 * at) >> 8);
}

static void s16le_s32le(Out out, In in, size_t count) {
    for (size_t at = 0; at < count; at++) put32(out + 4 * at, get16(in + 2 * at) * 65536);
}

static void s16be_s16le(Out out, In in, size_t count) {
    for (size_t at = 0; at < count; at++) put16(out + 2 * at, (int16_t)(in[2 * at] << 8 | in[2 * at + 1]));
}

static void u8_s16le(Out out, In in, size_t count) {
    for (size_t at = 0; at < count; at++) put16(out + 2 * at, (in[at] - 128) * 256);
}

static void mono_stereo(Out out, In in, size_t count) {
    for (size_t at = 0; at < count; at++) {
        int32_t value = get16(in + 2 * at);
        put16(out + 4 * at, value);
        put16(out + 4 * at + 2, value);
    }
}

static void stereo_mono(Out out, In in, size_t count) {
    for (size_t at = 0; at < count / 2; at++) put16(out + 2 * at, (get16(in + 4 * at) + get16(in + 4 * at + 2)) >> 1);
}

static int mulaw_enc(int value) {
    int sign = value < 0 ? 0x80 : 0;
    int magnitude = (value < 0 ? -value : value) > 32635 ? 32767 : (value < 0 ? -value : value) + 132;
    int segment = 24 - __builtin_clz(magnitude);
    return ~(sign | segment << 4 | (magnitude >> (segment + 3) & 15)) & 0xFF;
}

static int mulaw_dec(int code) {
    int magnitude = ((((~code & 15) << 3) + 132) << (~code >> 4 & 7)) - 132;
    return ~code & 0x80 ? -magnitude : magnitude;
}

static int alaw_enc(int value) {
    int sign = value < 0 ? 0 : 0x80;
    int magnitude = value < 0 ? ~value : value;
    int segment = 24 - __builtin_clz(magnitude | 128);
    return (sign | segment << 4 | (magnitude >> (segment > 1 ? segment + 3 : 4) & 15)) ^ 0x55;
}

static int alaw_dec(int code) {
    int segment = (code ^ 0x55) >> 4 & 7, place = ((code ^ 0x55) & 15) << 4;
    int magnitude = segment ? (place + 264) << (segment - 1) : place + 8;
    return (code ^ 0x55) & 0x80 ? magnitude : -magnitude;
}

static void mulawenc(Out out, In in, size_t count) {
    for (size_t at = 0; at < count; at++) out[at] = (uint8_t)mulaw_enc(get16(in + 2 * at));
}

static void mulawdec(Out out, In in, size_t count) {
    for (size_t at = 0; at < count; at++) put16(out + 2 * at, mulaw_dec(in[at]));
}

static void alawenc(Out out, In in, size_t count) {
    for (size_t at = 0; at < count; at++) out[at] = (uint8_t)alaw_enc(get16(in + 2 * at));
}

static void alawdec(Out out, In in, size_t count) {
    for (size_t at = 0; at < count; at++) put16(out + 2 * at, alaw_dec(in[at]));
}

static const struct {
    const char *kind;
    Loop *loop;
    int bytes_in, bytes_out;
} loops[] = {
    {"S16LE:S24LE", s16le_s24le, 2, 3}, {"S24LE:S16LE", s24le_s16le, 3, 2}, {"S16LE:S32LE", s16le_s32le, 2, 4},
    {"S16BE:S16LE", s16be_s16le, 2, 2}, {"U8:S16LE", u8_s16le, 1, 2},       {"mono:stereo", mono_stereo, 2, 4},
    {"stereo:mono", stereo_mono, 2, 1}, {"mulawenc", mulawenc, 2, 1},       {"mulawdec", mulawdec, 1, 2},
    {"alawenc", alawenc, 2, 1},         {"alawdec", alawdec, 1, 2},
};

static int run(Loop *loop, size_t bytes_in, size_t bytes_out, long rounds) {
    size_t samples = 1000000;
    uint32_t state = 1;
    Out in = malloc(bytes_in * samples), out = NULL;
    for (size_t at = 0; in && at < bytes_in * samples; at++) {
        state = state * 1664525 + 1013904223;
        in[at] = (uint8_t)(state >> 24);
    }
    for (long round = 0; in && round < rounds; round++) {
        free(out);
        out = malloc(bytes_out * samples);
        if (!out) return 1;
        loop(out, in, samples);
    }
    return out && fwrite(out, bytes_out, samples, stdout) == samples ? 0 : 1;
}

int main(int count, char **words) {
    for (size_t at = 0; count == 3 && at < sizeof loops / sizeof *loops; at++) {
        if (!strcmp(loops[at].kind, words[1])) return run(loops[at].loop, loops[at].bytes_in, loops[at].bytes_out, atol(words[2]));
    }
    fprintf(stderr, "convert_loops KIND ROUNDS\n");
    return 2;
}
