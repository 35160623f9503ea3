/* Runs a script of good lines by calls of the library, and prints the replies that the programs print for it. */

#include <inttypes.h>
#include <stdio.h>
#include <stdlib.h>
#include <string.h>

#include "etagere.h"

enum { MOST_COMMANDS = 200000, MOST_KEYS = 100000 };

/* What a command got, and whether it has that still. */
typedef struct Slot {
    uint32_t id;
    int is_live;
} Slot;

static Slot slots[MOST_COMMANDS];
static size_t commands = 0;
static uint64_t evicted[MOST_KEYS];

static int32_t number(void) {
    char *word = strtok(NULL, " \n");
    return word == NULL ? 0 : (int32_t)strtol(word, NULL, 10);
}

static uint64_t key(void) {
    char *word = strtok(NULL, " \n");
    return word == NULL ? 0 : (uint64_t)strtoull(word, NULL, 10);
}

static EtagereSize size(void) {
    EtagereSize read;
    read.width = number();
    read.height = number();
    return read;
}

static EtagereOptions options(void) {
    EtagereOptions read;
    const char *direction;
    read.alignment = size();
    read.num_columns = number();
    direction = strtok(NULL, " \n");
    read.vertical_shelves = direction != NULL && strcmp(direction, "v") == 0;
    return read;
}

/* The slot of the command that the line names, or one that has nothing. */
static Slot *slot(void) {
    static Slot nothing;
    uint64_t position = key();
    nothing.is_live = 0;
    return position < commands ? &slots[position] : &nothing;
}

static void print_rectangle(EtagereRectangle rectangle) {
    printf(" %" PRId32 " %" PRId32 " %" PRId32 " %" PRId32, rectangle.min.x, rectangle.min.y, rectangle.max.x,
           rectangle.max.y);
}

static void print_allocated(EtagereStatus status, EtagereAllocation allocation) {
    if (status == ETAGERE_OK) {
        slots[commands].id = allocation.id;
        slots[commands].is_live = 1;
        printf("placed %" PRIu32, allocation.id);
        print_rectangle(allocation.rectangle);
        putchar('\n');
    } else {
        puts(status == ETAGERE_NO_ROOM ? "refused" : "no memory");
    }
}

static void print_returned(Slot *of, EtagereStatus status) {
    of->is_live = 0;
    puts(status == ETAGERE_OK ? "returned" : "not live");
}

static void print_cleared(void) {
    size_t i;
    for (i = 0; i < commands; i += 1) {
        slots[i].is_live = 0;
    }
    puts("cleared");
}

static void print_grown(EtagereStatus status, EtagereStatus memory) {
    if (status == ETAGERE_OK) {
        puts("grown");
    } else if (status == memory) {
        puts("no memory");
    } else {
        printf("grow refused %" PRIu32 "\n", status % 100);
    }
}

static void print_found(EtagereAtlas *atlas, const Slot *of) {
    EtagereRectangle rectangle;
    uint32_t index;
    if (of->is_live && etagere_atlas_get(atlas, of->id, &rectangle) == ETAGERE_OK
        && etagere_atlas_get_index(atlas, of->id, &index) == ETAGERE_OK) {
        printf("at");
        print_rectangle(rectangle);
        printf(" %" PRIu32 "\n", index);
    } else {
        puts("not live");
    }
}

static void shelf_command(EtagereAtlas *atlas, char command) {
    EtagereAllocation allocation;
    EtagereStatus status;
    Slot *of;
    switch (command) {
    case 'a':
        status = etagere_atlas_allocate(atlas, size(), &allocation);
        print_allocated(status, allocation);
        break;
    case 'r':
        of = slot();
        print_returned(of, of->is_live ? etagere_atlas_deallocate(atlas, of->id) : ETAGERE_UNKNOWN_ID);
        break;
    case 'l':
        print_found(atlas, slot());
        break;
    case 'g':
        print_grown(etagere_atlas_grow(atlas, size()), ETAGERE_GROW_MEMORY);
        break;
    default:
        etagere_atlas_clear(atlas);
        print_cleared();
    }
}

static void bucketed_command(EtagereBucketed *atlas, char command) {
    EtagereAllocation allocation;
    EtagereStatus status;
    Slot *of;
    switch (command) {
    case 'a':
        status = etagere_bucketed_allocate(atlas, size(), &allocation);
        print_allocated(status, allocation);
        break;
    case 'r':
        of = slot();
        print_returned(of, of->is_live ? etagere_bucketed_deallocate(atlas, of->id) : ETAGERE_UNKNOWN_ID);
        break;
    case 'g':
        print_grown(etagere_bucketed_grow(atlas, size()), ETAGERE_BUCKETED_GROW_MEMORY);
        break;
    default:
        etagere_bucketed_clear(atlas);
        print_cleared();
    }
}

static void print_placed(EtagereStatus status, EtagereRectangle rectangle, size_t count) {
    size_t i;
    if (status == ETAGERE_CACHE_TOO_LARGE) {
        puts("too large");
        return;
    }
    if (status == ETAGERE_OK) {
        printf("placed");
        print_rectangle(rectangle);
    } else {
        printf("no memory");
    }
    for (i = 0; i < count; i += 1) {
        printf("%s %" PRIu64, i == 0 ? " evicted" : "", evicted[i]);
    }
    putchar('\n');
}

static void print_taken(const char *word, EtagereStatus status, EtagereRectangle rectangle) {
    if (status == ETAGERE_OK) {
        printf("%s", word);
        print_rectangle(rectangle);
        putchar('\n');
    } else {
        puts("none");
    }
}

static void cache_command(EtagereCache *cache, char command) {
    EtagereRectangle rectangle;
    EtagereStatus status;
    size_t count = 0;
    uint64_t of;
    switch (command) {
    case 'p':
        of = key();
        status = etagere_cache_place(cache, of, size(), &rectangle, evicted, MOST_KEYS, &count);
        print_placed(status, rectangle, count);
        break;
    case 'g':
        status = etagere_cache_get(cache, key(), &rectangle);
        print_taken("at", status, rectangle);
        break;
    case 'r':
        status = etagere_cache_remove(cache, key(), &rectangle);
        print_taken("removed", status, rectangle);
        break;
    default:
        etagere_cache_clear(cache);
        puts("cleared");
    }
}

static void run(const char *kind, EtagereAtlas *atlas, EtagereBucketed *bucketed, EtagereCache *cache) {
    char line[128];
    while (fgets(line, sizeof line, stdin) != NULL) {
        const char *command = strtok(line, " \n");
        if (command == NULL || commands == MOST_COMMANDS) {
            continue;
        }
        if (strcmp(kind, "atlas") == 0) {
            shelf_command(atlas, *command);
        } else if (strcmp(kind, "bucketed") == 0) {
            bucketed_command(bucketed, *command);
        } else {
            cache_command(cache, *command);
        }
        commands += 1;
    }
}

/* Makes what the first line says. */
static EtagereStatus make(const char *kind, EtagereAtlas *atlas, EtagereBucketed *bucketed, EtagereCache *cache) {
    EtagereSize sides = size();
    EtagereOptions given = options();
    if (strcmp(kind, "atlas") == 0) {
        return etagere_atlas_new(atlas, sides, &given);
    }
    if (strcmp(kind, "bucketed") == 0) {
        return etagere_bucketed_new(bucketed, sides, &given);
    }
    return etagere_cache_new(cache, sides, &given, (size_t)key());
}

int main(void) {
    EtagereAtlas atlas = ETAGERE_NULL;
    EtagereBucketed bucketed = ETAGERE_NULL;
    EtagereCache cache = ETAGERE_NULL;
    EtagereStatus status;
    char header[128];
    const char *kind = fgets(header, sizeof header, stdin) == NULL ? NULL : strtok(header, " \n");

    if (kind == NULL) {
        return 1;
    }
    status = make(kind, &atlas, &bucketed, &cache);
    if (status != ETAGERE_OK) {
        printf("options %" PRIu32 "\n", status % 100);
        return 2;
    }
    run(kind, &atlas, &bucketed, &cache);
    etagere_atlas_delete(&atlas);
    etagere_bucketed_delete(&bucketed);
    etagere_cache_delete(&cache);
    return 0;
}
