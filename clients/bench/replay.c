/* Runs the commands of a script by calls from C, again and again: replay SCRIPT ROUNDS.
 *
 * It prints a sum of all answers, and the nanoseconds of the fastest round. Reading the script is no part of a round. */

#define _POSIX_C_SOURCE 200809L

#include <inttypes.h>
#include <stdio.h>
#include <stdlib.h>
#include <time.h>

#include "etagere.h"

enum { MOST_COMMANDS = 200000 };

/* `a` with the sides, or `l` or `r` with the number of an earlier command. */
typedef struct Command {
    char name;
    int32_t width;
    int32_t height;
    size_t of;
} Command;

static Command commands[MOST_COMMANDS];
static size_t count = 0;
/* What each `a` got, and each `l` saw; one that got nothing has zeros. */
static EtagereAllocation answers[MOST_COMMANDS];

/* The work: nothing but calls, and notes of what they answer. */
void replay(EtagereAtlas *atlas);

void replay(EtagereAtlas *atlas) {
    size_t i;
    for (i = 0; i < count; i += 1) {
        const Command *command = &commands[i];
        EtagereSize size;
        switch (command->name) {
        case 'a':
            size.width = command->width;
            size.height = command->height;
            etagere_atlas_allocate(atlas, size, &answers[i]);
            break;
        case 'l':
            etagere_atlas_get(atlas, answers[command->of].id, &answers[i].rectangle);
            break;
        default:
            etagere_atlas_deallocate(atlas, answers[command->of].id);
        }
    }
}

static int read_script(FILE *file, EtagereSize *size, EtagereOptions *options) {
    char line[128], direction;
    if (fgets(line, sizeof line, file) == NULL
        || sscanf(line, "atlas %" SCNd32 " %" SCNd32 " %" SCNd32 " %" SCNd32 " %" SCNd32 " %c", &size->width,
                  &size->height, &options->alignment.width, &options->alignment.height, &options->num_columns,
                  &direction) != 6) {
        return 0;
    }
    options->vertical_shelves = direction == 'v';
    for (; count < MOST_COMMANDS && fgets(line, sizeof line, file) != NULL; count += 1) {
        Command *command = &commands[count];
        command->name = line[0];
        if (line[0] == 'a' ? sscanf(line, "a %" SCNd32 " %" SCNd32, &command->width, &command->height) != 2
                           : sscanf(line + 1, "%zu", &command->of) != 1 || command->of >= count) {
            return 0;
        }
    }
    return 1;
}

static uint64_t sum_of_answers(void) {
    uint64_t sum = 0;
    size_t i;
    for (i = 0; i < count; i += 1) {
        const EtagereRectangle *rectangle = &answers[i].rectangle;
        sum = sum * 31 + answers[i].id;
        sum = sum * 31 + (uint64_t)rectangle->min.x;
        sum = sum * 31 + (uint64_t)rectangle->min.y;
        sum = sum * 31 + (uint64_t)rectangle->max.x;
        sum = sum * 31 + (uint64_t)rectangle->max.y;
    }
    return sum;
}

static double nanoseconds(void) {
    struct timespec now;
    clock_gettime(CLOCK_MONOTONIC, &now);
    return 1e9 * (double)now.tv_sec + (double)now.tv_nsec;
}

int main(int words_count, char **words) {
    EtagereOptions options = ETAGERE_DEFAULT_OPTIONS;
    EtagereSize size;
    FILE *file = words_count == 3 ? fopen(words[1], "r") : NULL;
    long round, rounds = words_count == 3 ? strtol(words[2], NULL, 10) : 0;
    double fastest = 0;

    if (file == NULL || !read_script(file, &size, &options)) {
        fputs("usage: replay SCRIPT ROUNDS\n", stderr);
        return 1;
    }
    fclose(file);
    for (round = 0; round < rounds; round += 1) {
        EtagereAtlas atlas = ETAGERE_NULL;
        double start, took;
        if (etagere_atlas_new(&atlas, size, &options) != ETAGERE_OK) {
            return 1;
        }
        start = nanoseconds();
        replay(&atlas);
        took = nanoseconds() - start;
        fastest = round == 0 || took < fastest ? took : fastest;
        etagere_atlas_delete(&atlas);
    }
    printf("%" PRIu64 " %.0f\n", sum_of_answers(), fastest);
    return 0;
}
