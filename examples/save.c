/* Saves a sheet and lists it again: save SHEET SAVED. Writes the sheet to the file SAVED as the editor does, and prints
 * the drawing of what it wrote, laid out as Auto; or prints `refused` and the number, and writes no file. Both under the
 * main screen's limits. */
#include <stdio.h>
#include <murshogi.h>

static uint8_t sheet[MURSHOGI_SHEET + 1];
static uint8_t saved[MURSHOGI_SHEET];
static uint8_t text[MURSHOGI_LISTING];

int main(int argc, char **argv)
{
    if (argc != 3) {
        fprintf(stderr, "usage: save SHEET SAVED\n");
        return 2;
    }
    FILE *file = fopen(argv[1], "rb");
    if (file == NULL) {
        perror(argv[1]);
        return 2;
    }
    /* one byte more than a sheet may have: a longer file is refused as one that long */
    size_t sheet_len = fread(sheet, 1, sizeof sheet, file);
    fclose(file);

    /* what is saved is never longer than the sheet */
    size_t saved_len = 0;
    uint8_t refused =
        murshogi_write_sheet(sheet, sheet_len, MURSHOGI_MAIN_SCREEN, saved, sizeof saved, &saved_len);
    if (refused) {
        printf("refused %d\n", refused);
        return 1;
    }
    file = fopen(argv[2], "wb");
    if (file == NULL || fwrite(saved, 1, saved_len, file) != saved_len || fclose(file) != 0) {
        perror(argv[2]);
        return 2;
    }

    size_t length = 0;
    refused = murshogi_list(saved, saved_len, MURSHOGI_MAIN_SCREEN, MURSHOGI_AUTO, text, sizeof text, &length);
    if (refused) {
        printf("saved, but the drawing is refused %d\n", refused);
        return 1;
    }
    fwrite(text, 1, length, stdout);
    return 0;
}
