/* shown MAP CLASS [NAME DESCRIPTOR LINE]: loads a mapping file and says what became of its lines; how a class is shown, by its raw
 * descriptor, as `Lx;`; how a method of it is shown, and a line of that; and the class as a tree of one node, with the mapping applied. */
#include <clumarief.h>
#include <stdio.h>
#include <stdlib.h>
#include <string.h>

static uint8_t text[CLUMARIEF_MOST_TEXT + 1];
static clumarief_class classes[CLUMARIEF_MOST_CLASSES];
static clumarief_member members[CLUMARIEF_MOST_MEMBERS];
static uint8_t pool[CLUMARIEF_MOST_POOL];
static clumarief_used used;

/* The tables, as every call takes them. */
#define TABLES classes, CLUMARIEF_MOST_CLASSES, members, CLUMARIEF_MOST_MEMBERS, pool, CLUMARIEF_MOST_POOL
/* A text, as every call takes one. */
#define TEXT(s) (const uint8_t *)(s), strlen(s)

static void say(const char *what, const char *raw, uint32_t place, uint32_t length)
{
    printf("%s %s -> %.*s\n", what, raw, (int)length, (const char *)pool + place);
}

static int load(const char *name)
{
    FILE *file = fopen(name, "rb");
    if (file == NULL) {
        perror(name);
        return 2;
    }
    size_t length = fread(text, 1, sizeof text, file);
    fclose(file);
    clumarief_load answer;
    clumarief_parse(text, length, TABLES, &answer);
    if (answer.number != CLUMARIEF_ACCEPTED) {
        fprintf(stderr, "%s: refused %u at %u: %s\n", name, answer.number, answer.place, clumarief_words(answer.number));
        return 1;
    }
    printf("lines %u applied %u idle %u short %u\n", answer.lines, answer.applied, answer.idle, answer.shorts);
    used = (clumarief_used){answer.classes, answer.fields + answer.methods, answer.names};
    return 0;
}

static void show_method(const char *class_given, const char *name, const char *descriptor, uint32_t line)
{
    clumarief_member_name method;
    clumarief_display_method_name(TABLES, &used, TEXT(class_given), TEXT(name), TEXT(descriptor), &method);
    if (method.found)
        say("method", name, method.place, method.length);
    clumarief_line shown;
    clumarief_display_line(TABLES, &used, TEXT(class_given), TEXT(name), TEXT(descriptor), line, &shown);
    if (shown.found)
        printf("line %u -> %u, by row %u\n", line, shown.line, shown.row);
}

static void put(uint8_t *tree, size_t at, uint32_t number)
{
    for (size_t i = 0; i < 4; i++)
        tree[at + i] = (uint8_t)(number >> (8 * i));
}

/* One node with one token, the class's descriptor, shown as itself. */
static void show_tree(const char *class_given)
{
    static uint8_t tree[4096], output[8192];
    size_t length = strlen(class_given), end = 44 + length;
    if (end > sizeof tree)
        return;
    const uint32_t numbers[11] = {1, 1, 1, (uint32_t)length, 0xFFFFFFFF, 1, 2, 0, 0, 0, (uint32_t)length};
    for (size_t i = 0; i < 11; i++)
        put(tree, 4 * i, numbers[i]);
    memcpy(tree + 44, class_given, length);
    clumarief_applied applied;
    clumarief_apply(TABLES, &used, TEXT(class_given), tree, end, output, sizeof output, &applied);
    if (applied.number != CLUMARIEF_ACCEPTED)
        fprintf(stderr, "refused %u: %s\n", applied.number, clumarief_words(applied.number));
    else
        printf("tree of %u bytes -> %u bytes\n", (unsigned)end, applied.length);
}

int main(int count, char **words)
{
    if (count != 3 && count != 6) {
        fprintf(stderr, "usage: shown MAP CLASS [NAME DESCRIPTOR LINE]\n");
        return 2;
    }
    int refused = load(words[1]);
    if (refused != 0)
        return refused;
    clumarief_class_name name;
    clumarief_display_class_name(TABLES, &used, TEXT(words[2]), &name);
    if (name.found)
        say("class", words[2], name.place, name.length);
    if (count == 6)
        show_method(words[2], words[3], words[4], (uint32_t)strtoul(words[5], NULL, 10));
    show_tree(words[2]);
    return 0;
}
