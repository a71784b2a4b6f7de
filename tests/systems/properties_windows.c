/* properties_windows.c: prints the properties of the first file that Windows would show by the names that follow, and how many bytes
 * its manifest has. The status is 1 if the file has no properties. */
#include <stdio.h>
#include <stdlib.h>
#include <windows.h>

static void *read_properties(const char *file)
{
    DWORD ignored, size = GetFileVersionInfoSizeA(file, &ignored);
    void *data = size ? malloc(size) : NULL;
    return data && GetFileVersionInfoA(file, 0, size, data) ? data : NULL;
}

int main(int count, char **words)
{
    void *data = count > 1 ? read_properties(words[1]) : NULL, *found;
    UINT length;
    if (!data) return 1;
    for (int n = 2; n < count; n++) {
        char name[128];
        snprintf(name, sizeof name, "\\StringFileInfo\\040904b0\\%s", words[n]);
        printf("%s: %s\n", words[n], VerQueryValueA(data, name, &found, &length) ? (const char *)found : "none");
    }
    HMODULE file = LoadLibraryExA(words[1], NULL, LOAD_LIBRARY_AS_DATAFILE);
    HRSRC manifest = file ? FindResourceA(file, MAKEINTRESOURCEA(1), MAKEINTRESOURCEA(24)) : NULL;
    printf("manifest: %lu\n", manifest ? SizeofResource(file, manifest) : 0);
    return 0;
}
