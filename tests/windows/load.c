/* Loads nushbaret.dll as Python's ctypes does, by its whole path and with the same flags, from a folder whose name isn't ASCII; asks
   for its version, which has to be the header's, frees it and deletes it. Ends with 0 where all of it works. */
#define WINVER 0x0602
#define _WIN32_WINNT 0x0602
#include "nushbaret.h"
#include <stdio.h>
#include <string.h>
#include <windows.h>

#define FOLDER L"z\u00e9 \u0142\u6f22"

int main(void) {
    wchar_t here[600], place[700];
    char room[32] = {0};
    HMODULE library;
    size_t (*version)(uint8_t *, size_t);
    if (!GetCurrentDirectoryW(500, here) || !CreateDirectoryW(FOLDER, NULL)) return 1;
    swprintf(place, 700, L"%ls\\" FOLDER L"\\nushbaret.dll", here);
    if (!CopyFileW(L"nushbaret.dll", place, TRUE)) return 2;
    library = LoadLibraryExW(place, NULL, LOAD_LIBRARY_SEARCH_DEFAULT_DIRS | LOAD_LIBRARY_SEARCH_DLL_LOAD_DIR);
    if (!library) return 3;
    version = (size_t(*)(uint8_t *, size_t))(void (*)(void))GetProcAddress(library, "nushbaret_version");
    if (!version || version((uint8_t *)room, sizeof room) != strlen(NUSHBARET_VERSION) || strcmp(room, NUSHBARET_VERSION)) return 4;
    printf("loaded: %s\n", room);
    return FreeLibrary(library) && DeleteFileW(place) ? 0 : 5;
}
