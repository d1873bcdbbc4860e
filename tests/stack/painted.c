// Reads the line program's input and makes each message a call of `huurqan_replay` on a painted stack, every 50th
// followed by a writing-out. Prints how many bytes of that stack were written to, counted from its top.
#include <stdio.h>
#include <stdlib.h>
#include <string.h>
#include <ucontext.h>

#include "replay.h"

enum { STACK = 1 << 20, BUFFER = 40000 };
static unsigned char stack[STACK] __attribute__((aligned(4096)));
static unsigned char *script, *out, settings[64];
static size_t script_length, out_length, settings_length, made;

static void word(unsigned long long value) {
    for (int i = 0; i < 8; i++) script[script_length++] = value >> 8 * i;
}

static void call(int asked, size_t buffer, const char *message, size_t length) {
    word(asked), word(0), word(0), word(0), word(buffer), word(length);
    memcpy(script + script_length, message, length);
    script_length += length;
    out_length += 56 + buffer;
}

static void run(void) {
    made = huurqan_replay(settings, settings_length, script, script_length, out, out_length);
}

// How far down the stack is written to, if it is painted with this byte.
static size_t used(unsigned char paint) {
    static ucontext_t here, there;
    memset(stack, paint, STACK);
    getcontext(&there);
    there.uc_stack.ss_sp = stack;
    there.uc_stack.ss_size = STACK;
    there.uc_link = &here;
    makecontext(&there, run, 0);
    swapcontext(&here, &there);
    size_t clean = 0;
    while (clean < STACK && stack[clean] == paint) clean++;
    return STACK - clean;
}

int main(void) {
    static char line[1 << 17];
    size_t size = 1 << 26, messages = 0;
    script = malloc(size);
    if (!fgets(line, sizeof line, stdin) || (settings_length = strcspn(line, "\n")) > sizeof settings) return 2;
    memcpy(settings, line, settings_length);
    while (fgets(line, sizeof line, stdin) && script_length < size - 4 * sizeof line) {
        call(0, 0, line, strcspn(line, "\n"));
        if (messages++ % 50 == 0) call(5, BUFFER, "", 0);
    }
    out = calloc(1, out_length);
    size_t first = used(0xa5), second = used(0x5a);
    printf("%zu messages, %zu calls: %zu bytes of stack\n", messages, made, first > second ? first : second);
    return 0;
}
