/* A console: prints the application's output, and types keys for the application. */
#include <stdio.h>

#include "efi.h"

enum { PAUSE = 40, COLUMNS = 80, ROWS = 25 }; /* polls of the keyboard between two keys; the screen's size */

char console_event;

static const char *typed = "";
static unsigned int pause_left;
static bool is_silent;

bool console_has_key(void)
{
    if (pause_left)
        pause_left--;
    return pause_left == 0 && *typed != 0;
}

static CALL print(SIMPLE_TEXT_OUTPUT_INTERFACE *out, CHAR16 *text)
{
    (void)out;
    for (; !is_silent && *text; text++)
        if (*text != '\r')
            putchar(*text < 128 ? (char)*text : '?');
    return EFI_SUCCESS;
}

static CALL nothing(void)
{
    return EFI_SUCCESS;
}

static CALL size_of_mode(SIMPLE_TEXT_OUTPUT_INTERFACE *out, UINTN mode, UINTN *columns, UINTN *rows)
{
    (void)out;
    (void)mode;
    *columns = COLUMNS;
    *rows = ROWS;
    return EFI_SUCCESS;
}

static CALL read_key(SIMPLE_INPUT_INTERFACE *in, EFI_INPUT_KEY *key)
{
    (void)in;
    events_pass(1);
    if (!console_has_key())
        return EFI_NOT_READY;
    *key = (EFI_INPUT_KEY){0, (CHAR16)(*typed == '\n' ? '\r' : *typed)};
    typed++;
    pause_left = PAUSE;
    return EFI_SUCCESS;
}

static SIMPLE_TEXT_OUTPUT_MODE mode = {.MaxMode = 1};

static SIMPLE_TEXT_OUTPUT_INTERFACE out = {
    .Reset = (void *)nothing,
    .OutputString = (void *)print,
    .TestString = (void *)nothing,
    .QueryMode = (void *)size_of_mode,
    .SetMode = (void *)nothing,
    .SetAttribute = (void *)nothing,
    .ClearScreen = (void *)nothing,
    .SetCursorPosition = (void *)nothing,
    .EnableCursor = (void *)nothing,
    .Mode = &mode,
};

static SIMPLE_INPUT_INTERFACE in = {
    .Reset = (void *)nothing,
    .ReadKeyStroke = (void *)read_key,
    .WaitForKey = (EFI_EVENT)&console_event,
};

void console_open(const char *keys, bool silent)
{
    EFI_HANDLE console = handle_new();
    typed = keys;
    is_silent = silent;
    pause_left = 0;
    handle_add(console, &efi_console_in, &in);
    handle_add(console, &efi_console_out, &out);
    efi_system.ConsoleInHandle = efi_system.ConsoleOutHandle = efi_system.StandardErrorHandle = console;
    efi_system.ConIn = &in;
    efi_system.ConOut = efi_system.StdErr = &out;
}
