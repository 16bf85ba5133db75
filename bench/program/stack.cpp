// Stack: the call is made on a painted stack, and the paint that is left is counted.
#include <pthread.h>

#include <algorithm>
#include <cstdio>

#include "engines.h"
#include "modes.h"

static const size_t STACK = 1 << 20;
static const unsigned char PAINT = 0xA5;

namespace {

struct Call {
    Assign engine;
    const Deck &deck;
    Answer &answer;
    unsigned char *frame;
};

}  // namespace

static void *make_call(void *given) {
    Call &call = *static_cast<Call *>(given);
    call.frame = static_cast<unsigned char *>(__builtin_frame_address(0));
    assign(call.engine, call.deck, call.answer);
    return nullptr;
}

// The bytes of stack below the caller's frame that the call takes.
static size_t taken(Call call) {
    static unsigned char stack[STACK] __attribute__((aligned(4096)));
    std::fill(stack, stack + STACK, PAINT);
    pthread_attr_t attributes;
    pthread_t thread;
    pthread_attr_init(&attributes);
    pthread_attr_setstack(&attributes, stack, STACK);
    if (pthread_create(&thread, &attributes, make_call, &call) != 0) {
        stop("no thread");
    }
    pthread_join(thread, nullptr);
    auto touched = std::find_if(stack, stack + STACK, [](unsigned char byte) { return byte != PAINT; });
    return call.frame - touched;
}

void measure_stack(const Deck &deck) {
    Answer answer = room_for(deck);
    for (const Engine &engine : engines()) {
        // The first call may also find library functions, on the caller's stack.
        assign(engine.assign, deck, answer);
        size_t bytes = taken({engine.assign, deck, answer, nullptr});
        printf("stack\t%s\t%s\t%zu\n", deck.name.c_str(), engine.name, bytes);
    }
}
