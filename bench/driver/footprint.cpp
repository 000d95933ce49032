// Measures the stack that a quote takes at most, and counts what it allocates, over all inputs.
// The stack: a quote runs on a stack of its own that is filled with a pattern, and the lowest byte that changed tells, counted from
// the frame that calls.
// Allocations: `malloc` and its like are this program's own and count while a quote runs.
// Writes two lines: stack and the bytes; allocations and their number.
#include <pthread.h>

#include <cstdio>
#include <cstdlib>
#include <algorithm>
#include <cstring>

#include "inputs.hpp"
#include "muzbelari.h"

static bool counting = false;
static unsigned long allocations = 0;

extern "C" {
void *__libc_malloc(size_t size);
void *__libc_calloc(size_t count, size_t size);
void *__libc_realloc(void *memory, size_t size);

void *malloc(size_t size) {
    allocations += counting;
    return __libc_malloc(size);
}

void *calloc(size_t count, size_t size) {
    allocations += counting;
    return __libc_calloc(count, size);
}

void *realloc(void *memory, size_t size) {
    allocations += counting;
    return __libc_realloc(memory, size);
}
}

static const size_t stack_bytes = 1 << 20;
static const unsigned char pattern = 0xA5;
alignas(4096) static unsigned char stack[stack_bytes];
static unsigned char *caller = nullptr;
static uint8_t listing[MUZBELARI_LISTING];

// A thousand steps reach as deep as any number: each step calls the same functions.
static const uint64_t budget = 1000;

static void *quote_once(void *argument) {
    const Input *input = static_cast<const Input *>(argument);
    caller = static_cast<unsigned char *>(__builtin_frame_address(0));
    counting = true;
    quote((const uint8_t *)input->rules.data(), input->rules.size(), (const uint8_t *)input->picks.data(), input->picks.size(),
          budget, listing, sizeof listing);
    counting = false;
    return nullptr;
}

static size_t stack_of(const Input &input) {
    memset(stack, pattern, stack_bytes);
    pthread_attr_t attributes;
    pthread_t thread;
    pthread_attr_init(&attributes);
    pthread_attr_setstack(&attributes, stack, stack_bytes);
    pthread_create(&thread, &attributes, quote_once, const_cast<Input *>(&input));
    pthread_join(thread, nullptr);
    pthread_attr_destroy(&attributes);
    return caller - std::find_if(stack, caller, [](unsigned char byte) { return byte != pattern; });
}

int main(int count, char **words) {
    if (count != 2) {
        fprintf(stderr, "usage: %s FOLDER\n", words[0]);
        return 1;
    }
    size_t most = 0;
    for (const Input &input : read_inputs(words[1], "")) {
        most = std::max(most, stack_of(input));
    }
    printf("stack\t%zu\nallocations\t%lu\n", most, allocations);
    return 0;
}
