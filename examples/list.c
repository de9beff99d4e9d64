/* Lists a sheet: list SHEET [KIND] [panel]. Prints the drawing, or `refused` and the number; with the word `panel` under
 * the service panel's limits, otherwise under the main screen's. */
#include <stdio.h>
#include <stdlib.h>
#include <string.h>
#include <murshogi.h>

static uint8_t sheet[MURSHOGI_SHEET + 1];
static uint8_t text[65536];

/* A layout kind; a word that is no number below 256 gives 255, which is refused by 11. */
static uint8_t kind_of(const char *word)
{
    char *end;
    long kind = strtol(word, &end, 10);
    return *word != 0 && *end == 0 && 0 <= kind && kind < 256 ? (uint8_t)kind : 255;
}

int main(int argc, char **argv)
{
    if (argc < 2) {
        fprintf(stderr, "usage: list SHEET [KIND] [panel]\n");
        return 2;
    }
    const size_t *limits = MURSHOGI_MAIN_SCREEN;
    if (argc > 2 && strcmp(argv[argc - 1], "panel") == 0) {
        limits = MURSHOGI_SERVICE_PANEL;
        argc--;
    }
    FILE *file = fopen(argv[1], "rb");
    if (file == NULL) {
        perror(argv[1]);
        return 2;
    }
    /* one byte more than a sheet may have: a longer file is refused as one that long */
    size_t sheet_len = fread(sheet, 1, sizeof sheet, file);
    fclose(file);
    uint8_t kind = argc > 2 ? kind_of(argv[2]) : MURSHOGI_AUTO;

    size_t length = 0;
    uint8_t refused = murshogi_list(sheet, sheet_len, limits, kind, text, sizeof text, &length);
    if (refused) {
        printf("refused %d\n", refused);
        return 1;
    }
    fwrite(text, 1, length, stdout);
    return 0;
}
