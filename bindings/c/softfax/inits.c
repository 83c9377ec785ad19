#include "inits.h"
#include "told.h"
#include <errno.h>
#include <stdio.h>
#include <string.h>
#include <unistd.h>

/* Opens the file beside this program, or in share/softfax beside its folder, where it is installed; `name` is that of the last one. */
static FILE *open_inits(char *name, size_t room)
{
    static const char *const PLACES[] = {"inits.txt", "../share/softfax/inits.txt"};
    enum { LONGEST = 40 };
    ssize_t length = readlink("/proc/self/exe", name, room - LONGEST);
    FILE *file = NULL;
    name[length < 0 ? 0 : length] = 0;
    char *slash = strrchr(name, '/');
    for (int i = 0; i < 2 && file == NULL; i++) {
        strcpy(slash != NULL ? slash + 1 : name, PLACES[i]);
        file = fopen(name, "r");
    }
    return file;
}

int inits_find(const char *name, int xon, char out[INITS_ROOM])
{
    char file_name[4096], line[256], is[INITS_ROOM], commands[2][INITS_ROOM];
    int is_found = 0;
    FILE *file = open_inits(file_name, sizeof file_name);
    if (file == NULL) return told_fault(file_name, strerror(errno)), 0;
    while (!is_found && fgets(line, sizeof line, file) != NULL) {
        int has_all = sscanf(line, "%79s %79s %79s", is, commands[0], commands[1]) == 3;
        is_found = has_all && is[0] != '#' && strcmp(is, name) == 0;
    }
    fclose(file);
    if (!is_found) return told_fault(file_name, "it doesn't have that modem"), 0;
    strcpy(out, commands[xon != 0]);
    return 1;
}
