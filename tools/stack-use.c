/* How much stack the proved functions take, on texts and trees that make them take the most: each call runs in a thread whose stack
 * was filled with one byte, and what is no longer that byte afterwards was used. A thread that does nothing is taken off. */
#define _POSIX_C_SOURCE 200809L

#include "clumarief.h"

#include <pthread.h>
#include <stdio.h>
#include <stdlib.h>
#include <string.h>

enum { STACK = 1 << 20, FILL = 0xA5, LEVELS = 127 };

struct text {
    uint8_t *bytes;
    size_t length;
};

static clumarief_class classes[CLUMARIEF_MOST_CLASSES];
static clumarief_member members[CLUMARIEF_MOST_MEMBERS];
static uint8_t pool[CLUMARIEF_MOST_POOL];
static uint8_t out[1 << 20];
static clumarief_load loaded;
static clumarief_used used;
static clumarief_applied applied;

static void add(struct text *text, const char *words)
{
    size_t length = strlen(words);
    text->bytes = realloc(text->bytes, text->length + length);
    if (!text->bytes)
        exit(2);
    memcpy(text->bytes + text->length, words, length);
    text->length += length;
}

static void add_number(struct text *text, uint32_t number)
{
    uint8_t bytes[4] = {number & 255, number >> 8 & 255, number >> 16 & 255, number >> 24};
    text->bytes = realloc(text->bytes, text->length + 4);
    if (!text->bytes)
        exit(2);
    memcpy(text->bytes + text->length, bytes, 4);
    text->length += 4;
}

/* So many classes, a method that names the last of them, and a comment whose objects nest as deep as is read. */
static struct text mapping(int count)
{
    struct text text = {0};
    char line[64];
    for (int at = 0; at < count; at++) {
        snprintf(line, sizeof line, "a.b.C%d -> c%d:\n", at, at);
        add(&text, line);
    }
    snprintf(line, sizeof line, " 1:9:void run(a.b.C%d):10:18 -> d\n# ", count - 1);
    add(&text, line);
    for (int level = 1; level < LEVELS; level++)
        add(&text, "{\"a\":");
    add(&text, "{}");
    for (int level = LEVELS - 1; level > 0; level--)
        add(&text, "}");
    add(&text, "\n");
    return text;
}

/* A node with a member name, a descriptor, a source line. */
static struct text tree(void)
{
    struct text file = {0};
    uint32_t numbers[] = {1, 3, 2, 8, 0xFFFFFFFF, 3, 1, 0, 0, 2, 1, 1, 3, 5, 5, 0, 1, 1, 7};
    for (size_t at = 0; at < sizeof numbers / sizeof *numbers; at++)
        add_number(&file, numbers[at]);
    add(&file, "d(Lc7;)V");
    return file;
}

static void *nothing(void *with)
{
    return with;
}

static void *parse(void *with)
{
    struct text *text = with;
    clumarief_parse(text->bytes, text->length, classes, CLUMARIEF_MOST_CLASSES, members, CLUMARIEF_MOST_MEMBERS, pool,
                    CLUMARIEF_MOST_POOL, &loaded);
    return NULL;
}

static void *display_class_name(void *with)
{
    static clumarief_class_name name;
    clumarief_display_class_name(classes, CLUMARIEF_MOST_CLASSES, members, CLUMARIEF_MOST_MEMBERS, pool, CLUMARIEF_MOST_POOL,
                                 &used, (const uint8_t *)"Lc7;", 4, &name);
    return with;
}

static void *display_line(void *with)
{
    static clumarief_line line;
    clumarief_display_line(classes, CLUMARIEF_MOST_CLASSES, members, CLUMARIEF_MOST_MEMBERS, pool, CLUMARIEF_MOST_POOL, &used,
                           (const uint8_t *)"Lc7;", 4, (const uint8_t *)"d", 1, (const uint8_t *)"(Lc7;)V", 7, 5, &line);
    return with;
}

static void *apply(void *with)
{
    struct text *file = with;
    clumarief_apply(classes, CLUMARIEF_MOST_CLASSES, members, CLUMARIEF_MOST_MEMBERS, pool, CLUMARIEF_MOST_POOL, &used,
                    (const uint8_t *)"Lc7;", 4, file->bytes, file->length, out, sizeof out, &applied);
    return NULL;
}

/* How many bytes of its stack a thread has changed that runs `work`. */
static size_t touched(void *(*work)(void *), void *with)
{
    uint8_t *stack = aligned_alloc(4096, STACK);
    pthread_attr_t how;
    pthread_t thread;
    size_t at = 0;
    if (!stack)
        exit(2);
    memset(stack, FILL, STACK);
    if (pthread_attr_init(&how) || pthread_attr_setstack(&how, stack, STACK) || pthread_create(&thread, &how, work, with) ||
        pthread_join(thread, NULL))
        exit(2);
    while (at < STACK && stack[at] == FILL)
        at++;
    free(stack);
    return STACK - at;
}

static void print(const char *name, void *(*work)(void *), void *with)
{
    printf("%-40s %7zu\n", name, touched(work, with) - touched(nothing, NULL));
}

int main(void)
{
    struct text most = mapping(CLUMARIEF_MOST_CLASSES), few = mapping(1), file = tree();
    print("parse, one class, 127 levels", parse, &few);
    print("parse, 4,096 classes, 127 levels", parse, &most);
    if (loaded.number || loaded.classes != CLUMARIEF_MOST_CLASSES || loaded.idle != 1) {
        printf("the text was not loaded as it should be: %u\n", loaded.number);
        return 1;
    }
    used = (clumarief_used){loaded.classes, loaded.fields + loaded.methods, loaded.names};
    print("display_class_name", display_class_name, NULL);
    print("display_line", display_line, NULL);
    print("apply, 4,096 classes", apply, &file);
    if (applied.number) {
        printf("the tree was not taken: %u\n", applied.number);
        return 1;
    }
    return 0;
}
