/*
 * The letters of a word, each with its position in wheel steps, in the order in which they were scanned. Packed as bodies they are sorted by
 * memcmp, unpacked and printed. Beside that the same letters with positions in single floats are sorted: two neighbours past step 16,777,216
 * fall together there, and the word that the letters spell is another one.
 */
#include <stdio.h>
#include <stdlib.h>
#include <string.h>

#include "hulgyevan.h"

/* A scanned letter. */
struct letter {
    uint64_t step;
    char letter;
};

/* The surname Weise: its second and third letter were scanned in the other order. */
static const struct letter scanned[] = {
    {16777214, 'W'}, {16777217, 'i'}, {16777216, 'e'}, {16777218, 's'}, {16777220, 'e'},
};

enum { LETTERS = sizeof scanned / sizeof scanned[0], BODY = 7 };

/* Two columns: the position in steps and hundredths, and the code of the letter. A body has 5 and 2 bytes. */
static const uint8_t contents[] = "\2\13########.##\3###";
enum { CONTENTS = sizeof contents - 1 };

/* Ends the program where a call is refused. */
static void demand(uint64_t answer)
{
    if (answer != 0) {
        fprintf(stderr, "refused %u %llu\n", hulgyevan_reason(answer), (unsigned long long)hulgyevan_place(answer));
        exit(EXIT_FAILURE);
    }
}

/* Packs a scanned letter as a body. */
static void pack(const struct letter *letter, uint8_t *body)
{
    uint64_t numbers[2];
    size_t size;

    demand(hulgyevan_from_steps(false, letter->step, &numbers[0]));
    demand(hulgyevan_from_steps(false, (unsigned char)letter->letter, &numbers[1]));
    demand(hulgyevan_pack(contents, CONTENTS, numbers, 2, body, BODY, &size));
}

/* Unpacks a body, prints its position under the first image, and gives its letter. */
static char print_body(const uint8_t *body)
{
    static const uint8_t position_image[] = "########.##", code_image[] = "###";
    uint64_t numbers[2];
    uint8_t position[11], code[4] = {0};
    size_t count, size;

    demand(hulgyevan_unpack(contents, CONTENTS, body, BODY, numbers, 2, &count));
    demand(hulgyevan_alpha(position_image, sizeof position_image - 1, numbers[0], position, sizeof position, &size));
    printf("  %.*s", (int)size, (const char *)position);
    demand(hulgyevan_alpha(code_image, sizeof code_image - 1, numbers[1], code, sizeof code - 1, &size));
    return (char)atoi((const char *)code);
}

/* Compares two bodies for qsort, which is comparing the positions. */
static int compare_bodies(const void *first, const void *second)
{
    return memcmp(first, second, BODY);
}

/* Prints the letters by their packed positions, and the word that they spell. */
static void print_packed(void)
{
    uint8_t bodies[LETTERS][BODY];
    char word[LETTERS + 1] = "";
    int i;

    for (i = 0; i < LETTERS; i++)
        pack(&scanned[i], bodies[i]);
    qsort(bodies, LETTERS, BODY, compare_bodies);
    printf("packed positions, sorted by memcmp:\n");
    for (i = 0; i < LETTERS; i++) {
        word[i] = print_body(bodies[i]);
        printf(" %c\n", word[i]);
    }
    printf("the surname: %s\n", word);
}

/* Prints the letters by positions in single floats, and the word that they spell. The sort keeps the order of equal positions. */
static void print_floats(void)
{
    float positions[LETTERS];
    char word[LETTERS + 1] = "";
    int i, j;

    for (i = 0; i < LETTERS; i++) {
        float position = (float)scanned[i].step;
        for (j = i; j > 0 && positions[j - 1] > position; j--) {
            positions[j] = positions[j - 1];
            word[j] = word[j - 1];
        }
        positions[j] = position;
        word[j] = scanned[i].letter;
    }
    printf("positions in single floats, sorted:\n");
    for (i = 0; i < LETTERS; i++)
        printf("  %011.2f %c\n", (double)positions[i], word[i]);
    printf("the surname: %s\n", word);
}

int main(void)
{
    print_packed();
    print_floats();
    return EXIT_SUCCESS;
}
