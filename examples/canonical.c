/*
 * Writes the canonical file of a task file's task to standard output, or the refusal to standard error. Files carry one task exactly if
 * their canonical files are equal.
 *
 *   cc -O2 -Iinclude examples/canonical.c target/staticlib/libsupervisor.a -o canonical
 *   cmp <(./canonical a.bpt) <(./canonical b.bpt)
 */
#include "laurelsnap.h"

#include <stdio.h>

enum { FILE_MOST = 16384 };

int main(int argc, char **argv)
{
    /* one byte more than a task may have, so that a longer file is refused; the canonical file is never longer than the file */
    static uint8_t file[FILE_MOST + 1], out[FILE_MOST];
    if (argc != 2) {
        fprintf(stderr, "usage: canonical FILE\n");
        return 2;
    }
    FILE *in = fopen(argv[1], "rb");
    size_t length = in ? fread(file, 1, sizeof file, in) : 0;
    if (!in || ferror(in)) {
        fprintf(stderr, "%s cannot be read\n", argv[1]);
        return 2;
    }
    fclose(in);
    struct laurelsnap_answer answer = laurelsnap_write(file, length, out, sizeof out);
    if (!laurelsnap_ok(answer)) {
        fprintf(stderr, "refused %llu %llu\n", (unsigned long long)answer.number, (unsigned long long)answer.first);
        return 1;
    }
    size_t written = laurelsnap_length(answer);
    return fwrite(out, 1, written, stdout) == written && fflush(stdout) == 0 ? 0 : 2;
}
