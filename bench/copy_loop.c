/* copy_loop IN OUT BLOCK: copies a file by pread and pwrite of BLOCK bytes each.
 * It is what a copy by blocks of that size takes at least: two calls of the system for each block, and nothing else. */
#include <fcntl.h>
#include <stdio.h>
#include <stdlib.h>
#include <unistd.h>

int main(int count, char **words) {
    if (count != 4) {
        fprintf(stderr, "copy_loop IN OUT BLOCK\n");
        return 2;
    }
    size_t block = strtoul(words[3], NULL, 10);
    char *bytes = block ? malloc(block) : NULL;
    int in = open(words[1], O_RDONLY);
    int out = open(words[2], O_WRONLY | O_CREAT | O_TRUNC, 0644);
    if (!bytes || in < 0 || out < 0) {
        perror("copy_loop");
        return 1;
    }
    for (off_t at = 0;;) {
        ssize_t got = pread(in, bytes, block, at);
        if (got == 0) {
            return close(out) ? 1 : 0;
        }
        for (ssize_t done = 0; done < got;) {
            ssize_t wrote = pwrite(out, bytes + done, got - done, at + done);
            if (wrote <= 0) {
                perror("copy_loop");
                return 1;
            }
            done += wrote;
        }
        if (got < 0) {
            perror("copy_loop");
            return 1;
        }
        at += got;
    }
}
