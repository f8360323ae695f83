// The proved library, called for a test: this program takes requests on standard input and answers on
// standard output, until input ends. Where the processor is not x86-64 it runs under an emulator.
//
// A request is the length of what follows (4 bytes), an op byte and the arguments: a value as its
// bytes, a slice as its length (4 bytes) and its bytes. An answer is the length of what follows, the
// value that the function answered and the bytes of the buffer that was lent to it, if one was.
//
// It calls by the header that customers include, so every comparison tests that too. ops.h is made by the
// build from the Rattle source. The toolchain has no C headers of its own: those that are needed are in rust/c.
#include "cloverdusk.h"

typedef uint8_t u8;
typedef uint32_t u32;
typedef uint64_t u64;
typedef size_t usize;

long read(int file, void *to, usize length);
long write(int file, const void *from, usize length);
void *memcpy(void *to, const void *from, usize length);
void *memset(void *to, int byte, usize length);
usize strlen(const char *text);
_Noreturn void _exit(int status);

// ---- requests and answers
struct slice { u8 *bytes; u32 length; };

enum { MOST_BYTES = 1 << 20, MOST_ANSWER = 1 << 16, BEHIND = 64 };
static u8 request[MOST_BYTES + BEHIND];
static u8 *next, *end; // of the request: what is still to be taken, and where it ends

static _Noreturn void die(const char *why) {
    if (write(2, why, strlen(why)) < 0) _exit(3);
    _exit(2);
}

// Whether so many bytes came, and not the end of the input.
static int receive(void *to, usize length) {
    for (u8 *at = to; length > 0;) {
        long got = read(0, at, length);
        if (got <= 0) return 0;
        at += got, length -= got;
    }
    return 1;
}

static void send(const void *from, usize length) {
    for (const u8 *at = from; length > 0;) {
        long sent = write(1, at, length);
        if (sent <= 0) die("an answer cannot be written");
        at += sent, length -= sent;
    }
}

static u8 *pass(usize length) {
    if (length > (usize)(end - next)) die("the request is too short for its op");
    u8 *passed = next;
    next += length;
    return passed;
}

#define TAKE(type, name) type name; memcpy(&name, pass(sizeof name), sizeof name)

static struct slice take_slice(void) {
    TAKE(u32, length);
    return (struct slice){pass(length), length};
}

// A value's answer goes out with its length in one piece, and the lent buffer behind it.
static void answer(const void *value, u32 size, struct slice lent) {
    static u8 head[sizeof(u32) + MOST_ANSWER];
    if (next != end) die("the request is too long for its op");
    for (u32 i = 0; i < BEHIND; i++)
        if (end[i] != '\n') die("the library wrote behind the buffer lent");
    if (size > sizeof head - sizeof(u32)) die("the answer is too large");
    u32 length = size + lent.length;
    memcpy(head, &length, sizeof length);
    memcpy(head + sizeof length, value, size);
    send(head, sizeof length + size);
    send(lent.bytes, lent.length);
}

static const struct slice NONE;

// ---- the library, an op for each of its functions, and OPS: what answers a request, and what is measured
#include "ops.h"

// ---- the stack that one call takes
enum { REGISTERS = 6 }; // in which a C function gets its first arguments
enum { WORDS = 65536 }; // of 8 bytes: larger than allowed, so that too deep a call is no crash
static const u64 PATTERN = 0xa5a55a5ac3c33c3c;
static u64 stack[WORDS] __attribute__((aligned(16)));

static void nothing(void) {}

static void known_frame(void) {
    volatile u8 frame[20000];
    for (u32 i = 0; i < sizeof frame; i++) frame[i] = 1;
}

// The result register after a call on the stack that begins below `top`.
static u64 call_on(u64 *top, const void *function, const u64 registers[REGISTERS]) {
    u64 result = (u64)function, first = registers[0], second = registers[1], third = registers[2], fourth = registers[3];
    register u64 fifth __asm__("r8") = registers[4];
    register u64 sixth __asm__("r9") = registers[5];
    // r12 is kept by every C function, so the way back is in it
    __asm__ volatile("movq %[top], %%r12\n\t"
                     "xchgq %%rsp, %%r12\n\t"
                     "call *%%rax\n\t"
                     "movq %%r12, %%rsp"
                     : "+a"(result), "+D"(first), "+S"(second), "+d"(third), "+c"(fourth), "+r"(fifth), "+r"(sixth)
                     : [top] "r"(top)
                     : "r10", "r11", "r12", "memory", "cc", "xmm0", "xmm1", "xmm2", "xmm3", "xmm4",
                       "xmm5", "xmm6", "xmm7", "xmm8", "xmm9", "xmm10", "xmm11", "xmm12", "xmm13", "xmm14", "xmm15");
    return result;
}

static const void *function_of(u8 op);

enum { NUMBER, LENT, PLACE };
static u64 place[MOST_ANSWER / sizeof(u64)]; // of an answer in memory, which has its code first

// Takes what a register holds: a number, the address of lent bytes, or that of the answer's place.
static u64 take_register(void) {
    TAKE(u8, kind);
    if (kind == PLACE) return (u64)place;
    if (kind == LENT) return (u64)take_slice().bytes;
    TAKE(u64, number);
    return number;
}

// Takes a function's op, what it gets in memory, and how many registers with what they hold.
static void measure(void) {
    TAKE(u8, op);
    struct slice value = take_slice();
    TAKE(u8, count);
    if (count > REGISTERS) die("a function with so many arguments cannot be measured");
    u64 registers[REGISTERS] = {0};
    for (u32 i = 0; i < count; i++) registers[i] = take_register();
    for (u32 i = 0; i < WORDS; i++) stack[i] = PATTERN;
    place[0] = PATTERN; // no code of an earlier call
    u64 *top = stack + WORDS - (value.length + 15) / 16 * 2; // at a multiple of 16 bytes, as calls ask for
    memcpy(top, value.bytes, value.length);
    u64 result = call_on(top, function_of(op), registers);
    u32 untouched = 0;
    while (untouched < WORDS && stack[untouched] == PATTERN) untouched++;
    if (untouched == 0) die("the call went past the end of its stack");
    struct { u32 used, code; } measured = {(WORDS - untouched + 1) / 2 * 16, (u32)result};
    if (registers[0] == (u64)place) measured.code = (u32)place[0];
    answer(&measured, sizeof measured, NONE);
}

// ---- by op byte
static const struct { void (*answer)(void); const void *function; } ops[256] = {
    OPS
    [OP_NOTHING] = {0, nothing},
    [OP_KNOWN_FRAME] = {0, known_frame},
    [OP_MEASURE] = {measure, 0},
};

static const void *function_of(u8 op) {
    if (!ops[op].function) die("there is no such function to measure");
    return ops[op].function;
}

int main(void) {
    for (u32 length; receive(&length, sizeof length);) {
        if (length > MOST_BYTES) die("the request is too long");
        if (!receive(request, length)) die("the request breaks off");
        next = request, end = request + length;
        // line ends, so that a text read behind its end reads otherwise, and a write there shows
        memset(end, '\n', BEHIND);
        TAKE(u8, op);
        if (!ops[op].answer) die("there is no such op");
        ops[op].answer();
    }
    return 0;
}
