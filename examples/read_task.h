/* The file that a program's one argument names; without one that can be read the program ends with status 2. */
#ifndef READ_TASK_H
#define READ_TASK_H

#include "laurelsnap.h"

#include <stdio.h>
#include <stdlib.h>

/* One byte more than a task may have, so that a longer file is refused as such. */
static uint8_t file[LAURELSNAP_FILE_MOST + 1];

/* Reads the file and gives its length. */
static inline size_t read_task(int argc, char **argv)
{
    if (argc != 2) {
        fprintf(stderr, "usage: %s FILE\n", argv[0]);
        exit(2);
    }
    FILE *in = fopen(argv[1], "rb");
    size_t length = in ? fread(file, 1, sizeof file, in) : 0;
    if (!in || ferror(in)) {
        perror(argv[1]);
        exit(2);
    }
    fclose(in);
    return length;
}

/* Memory that is taken when it is written to. */
static inline void *lend(size_t bytes)
{
    void *block = calloc(bytes, 1);
    if (!block) {
        perror("calloc");
        exit(2);
    }
    return block;
}

#endif
