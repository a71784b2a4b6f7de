/* started_windows.c: starts a program with the command line that standard input has in UTF-16, letter by letter. Its status is the program's. A second
 * argument names a file that is open meanwhile, and may be shared as a third says: r, w and d, to read, write and delete. */
#include <stdio.h>
#include <string.h>
#include <windows.h>

int main(int count, char **words)
{
    static wchar_t program[MAX_PATH], line[32768];
    STARTUPINFOW start = { .cb = sizeof start };
    PROCESS_INFORMATION made;
    DWORD status = 99, got, how = 0;
    HANDLE held = NULL;
    if (count < 2 || !MultiByteToWideChar(CP_ACP, 0, words[1], -1, program, MAX_PATH)) return 98;
    if (!ReadFile(GetStdHandle(STD_INPUT_HANDLE), line, sizeof line - 2, &got, NULL)) return 97;
    if (count == 4) {
        how |= strchr(words[3], 'r') ? FILE_SHARE_READ : 0;
        how |= strchr(words[3], 'w') ? FILE_SHARE_WRITE : 0;
        how |= strchr(words[3], 'd') ? FILE_SHARE_DELETE : 0;
        held = CreateFileA(words[2], GENERIC_READ, how, NULL, OPEN_EXISTING, 0, NULL);
        if (held == INVALID_HANDLE_VALUE) return 96;
    }
    if (!CreateProcessW(program, line, NULL, NULL, TRUE, 0, NULL, NULL, &start, &made)) return 95;
    WaitForSingleObject(made.hProcess, INFINITE);
    GetExitCodeProcess(made.hProcess, &status);
    if (held) CloseHandle(held);
    return (int)status;
}
