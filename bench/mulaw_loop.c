/* mulaw_loop IN OUT: reads a file of 16-bit samples by blocks of 4096 bytes, codes them by mu-law of G.711, and writes the codes,
 * as the line filesrc ! rawaudioparse ! audioconvert ! mulawenc ! filesink does, with the same calls of the system. */
#include <fcntl.h>
#include <stdint.h>
#include <stdio.h>
#include <string.h>
#include <unistd.h>

static uint8_t coded(int16_t sample) {
    int magnitude = sample < 0 ? -(int)sample : sample;
    int segment = 7;
    if (magnitude > 32635) magnitude = 32635;
    magnitude += 132;
    for (int mask = 0x4000; !(magnitude & mask) && segment > 0; mask >>= 1) segment--;
    return (uint8_t)~((sample < 0 ? 0x80 : 0) | segment << 4 | (magnitude >> (segment + 3) & 15));
}

int main(int count, char **words) {
    static uint8_t block[4096], codes[2048];
    off_t from = 0, to = 0;
    ssize_t got;
    if (count != 3) return 2;
    int in = open(words[1], O_RDONLY);
    int out = open(words[2], O_WRONLY | O_CREAT | O_TRUNC, 0644);
    if (in < 0 || out < 0) {
        perror("mulaw_loop");
        return 1;
    }
    while ((got = pread(in, block, sizeof block, from)) > 0) {
        ssize_t samples = got / 2;
        for (ssize_t i = 0; i < samples; i++) {
            int16_t sample;
            memcpy(&sample, block + 2 * i, 2);
            codes[i] = coded(sample);
        }
        if (pwrite(out, codes, samples, to) != samples) {
            perror("mulaw_loop");
            return 1;
        }
        from += got;
        to += samples;
    }
    return got < 0;
}
