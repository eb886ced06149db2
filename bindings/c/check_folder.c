/* Checks every file of a folder: its name, and what `purvilgo check` says of it.
 *
 *     check_folder FOLDER
 *
 * The status is 0 if all files are clean, 1 if one has a fault, 2 if an allocation fails or a folder or file cannot be
 * read. */
#include "files.h"
#include "purvilgo.h"
#include <dirent.h>
#include <string.h>

/* Prints the check of a file. 0 if it is clean, 1 if it is not, 2 if an allocation fails. */
static int check(const char *name, struct bytes file) {
    size_t size = 4096, length = 0;
    bool clean = false;
    uint8_t *out = malloc(size);
    uint32_t status = PURVILGO_NO_MEMORY;
    if (out)
        status = purvilgo_check(file.at, file.length, out, size, &length, &clean);
    if (status == PURVILGO_NO_ROOM) {
        free(out);
        out = malloc(length);
        status = PURVILGO_NO_MEMORY;
        if (out)
            status = purvilgo_check(file.at, file.length, out, length, &length, &clean);
    }
    if (status == PURVILGO_DONE) {
        printf("%s:\n", name);
        fwrite(out, 1, length, stdout);
    }
    free(out);
    return status == PURVILGO_DONE ? !clean : 2;
}

int main(int argc, char **argv) {
    struct dirent **names;
    int found = argc == 2 ? scandir(argv[1], &names, NULL, alphasort) : -1;
    int worst = 0;
    if (found < 0) {
        fprintf(stderr, "check_folder: no folder\n");
        return 2;
    }
    for (int i = 0; i < found; i++) {
        char path[4096];
        const char *name = names[i]->d_name;
        snprintf(path, sizeof path, "%s/%s", argv[1], name);
        if (name[0] != '.') {
            struct bytes file = read_file(path);
            int told = file.at ? check(name, file) : 2;
            if (told > worst)
                worst = told;
            free(file.at);
        }
        free(names[i]);
    }
    free(names);
    return worst;
}
