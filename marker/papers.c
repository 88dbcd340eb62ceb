/* The papers of a folder: its regular files whose names do not begin with a dot, in the order of their names' bytes. */
#include "marker.h"
#include <dirent.h>
#include <stdio.h>
#include <stdlib.h>
#include <string.h>
#include <sys/stat.h>

/* PATH/NAME, to be freed; NULL where memory runs out. */
static char *joined(const char *path, const char *name)
{
    size_t size = strlen(path) + strlen(name) + 2;
    char *both = malloc(size);
    if (both != NULL)
        snprintf(both, size, "%s/%s", path, name);
    return both;
}

static bool is_paper(const char *path, const char *name)
{
    struct stat status;
    char *both = joined(path, name);
    bool found = both != NULL && name[0] != '.' && stat(both, &status) == 0 && S_ISREG(status.st_mode);
    free(both);
    return found;
}

static bool add_name(struct folder *folder, const char *name)
{
    char **names = realloc(folder->names, (folder->count + 1) * sizeof *names);
    if (names == NULL)
        return false;
    folder->names = names;
    names[folder->count] = malloc(strlen(name) + 1);
    if (names[folder->count] == NULL)
        return false;
    strcpy(names[folder->count++], name);
    return true;
}

static int by_bytes(const void *one, const void *other)
{
    return strcmp(*(char *const *)one, *(char *const *)other);
}

bool folder_open(struct folder *folder, const char *path)
{
    *folder = (struct folder){.path = path};
    DIR *directory = opendir(path);
    if (directory == NULL)
        return false;
    bool good = true;
    for (struct dirent *entry = readdir(directory); good && entry != NULL; entry = readdir(directory)) {
        if (is_paper(path, entry->d_name))
            good = add_name(folder, entry->d_name);
    }
    closedir(directory);
    if (good && folder->count > 0)
        qsort(folder->names, folder->count, sizeof *folder->names, by_bytes);
    if (!good)
        folder_close(folder);
    return good;
}

void folder_close(struct folder *folder)
{
    for (size_t i = 0; i < folder->count; i++)
        free(folder->names[i]);
    free(folder->names);
    *folder = (struct folder){0};
}

bool paper_read(struct paper *paper, const struct folder *folder, const char *name)
{
    char *path = joined(folder->path, name);
    FILE *file = path != NULL ? fopen(path, "rb") : NULL;
    free(path);
    if (file == NULL)
        return false;
    paper->length = fread(paper->bytes, 1, sizeof paper->bytes, file);
    bool good = ferror(file) == 0;
    fclose(file);
    return good;
}
