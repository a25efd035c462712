/* The calls from C, driven from outside: a line of output for each line of input, to be compared with what the second program says of the same.
 *   calls trace [IMAGE] < SESSION     each line answered, from the start or from an image: the answer, a blank, and a hash of the state area after it
 *   calls image < SESSION             the state area after the session
 *   calls richest < SESSION           after how many lines the state has the most bytes that are not 0, its area's words not counted
 *   calls judge IMAGE < CHANGES       the image with the bytes `PLACE VALUE ..` changed, and changed back after it: `good` or `16`
 *   calls blocks < CASES              `seal FIELDS NUMBER HEX`: `0 HEX` or minus a refusal; `check FIELDS NUMBER FOUND HEX`: `ERROR HEX` or minus a refusal
 *   calls threads < SESSION           eight threads play the session at the same time, each on areas of its own
 *   calls stack < SESSION             the stack that each call used at most, in bytes
 *   calls sizes                       the sizes of the header
 * Every area ends where the memory ends, so that a byte past it cannot be touched, and is looked at after each call: a refusal leaves every byte, an answer
 * every byte that is not its own. What is not so is said on standard error, and the status is 1. */
#include "plorrettix.h"

#include <pthread.h>
#include <stdio.h>
#include <stdlib.h>
#include <string.h>
#include <sys/mman.h>

enum { BEFORE = 64, FILLED = 0xA5, BLOCK_ROOM = 16384, FOUND_ROOM = 4096, THREADS = 8, STACK = 1 << 20 };

static void fail(const char *what) {
    fflush(stdout);
    fprintf(stderr, "calls: %s\n", what);
    exit(1);
}

static void expect(int good, const char *what) {
    if (!good) fail(what);
}

/* An area of this many bytes, with some before it and none after it. All are filled. */
static uint8_t *lent(size_t bytes) {
    size_t guard = 65536, room = (bytes + BEFORE + guard - 1) / guard * guard;
    uint8_t *p = (uint8_t *)mmap(NULL, room + guard, PROT_READ | PROT_WRITE, MAP_PRIVATE | MAP_ANONYMOUS, -1, 0);
    expect(p != MAP_FAILED && mprotect(p + room, guard, PROT_NONE) == 0, "no memory");
    memset(p, FILLED, room);
    return p + room - bytes;
}

/* Whether these bytes are as `lent` filled them. */
static int filled(const uint8_t *p, size_t bytes) {
    size_t i;
    for (i = 0; i < bytes; i++)
        if (p[i] != FILLED) return 0;
    return 1;
}

/* All of a file, or of standard input for NULL. */
static uint8_t *whole(const char *name, size_t *bytes) {
    FILE *f = name ? fopen(name, "rb") : stdin;
    size_t room = 1 << 16, n = 0, got;
    uint8_t *p = (uint8_t *)malloc(room);
    expect(f != NULL, "a file cannot be read");
    while (p && (got = fread(p + n, 1, room - n, f)) > 0)
        if ((n += got) == room) p = (uint8_t *)realloc(p, room *= 2);
    expect(p != NULL, "no memory");
    *bytes = n;
    return p;
}

/* The next line of a text from *at on, without its line feed; a last one may lack it. NULL at the end. */
static const uint8_t *next_line(const uint8_t *text, size_t bytes, size_t *at, size_t *length) {
    const uint8_t *line = text + *at, *feed;
    if (*at >= bytes) return NULL;
    feed = (const uint8_t *)memchr(line, '\n', bytes - *at);
    *length = feed ? (size_t)(feed - line) : bytes - *at;
    *at += *length + 1;
    return line;
}

/* FNV-1a, 64 bits. */
static uint64_t hash(uint64_t h, const uint8_t *p, size_t bytes) {
    while (bytes--) h = (h ^ *p++) * UINT64_C(1099511628211);
    return h;
}

static const uint64_t fresh = UINT64_C(14695981039346656037);

/* Areas for answers, each with a copy of what should stand there, and a frame's area, whose end is the frame's. */
struct desk {
    uint8_t *state, *kept, *answer, *frame_end;
    size_t frame_room;
};

static struct desk new_desk(size_t frame_room) {
    struct desk d;
    d.state = lent(PLORRETTIX_STATE_BYTES);
    d.kept = (uint8_t *)malloc(PLORRETTIX_STATE_BYTES);
    d.answer = lent(PLORRETTIX_ANSWER_BYTES);
    d.frame_end = lent(frame_room) + frame_room;
    d.frame_room = frame_room;
    expect(d.kept != NULL, "no memory");
    return d;
}

/* Answers a frame, and looks at every byte of every area. */
static int64_t answered(struct desk *d, const uint8_t *frame, size_t bytes) {
    uint8_t *lain = d->frame_end - bytes;
    int64_t n;
    size_t length;
    expect(bytes <= d->frame_room, "a frame has no room");
    memcpy(lain, frame, bytes);
    memcpy(d->kept, d->state, PLORRETTIX_STATE_BYTES);
    n = plorrettix_answer(d->state, PLORRETTIX_STATE_BYTES, bytes ? lain : NULL, bytes, d->answer, PLORRETTIX_ANSWER_BYTES);
    length = n > 0 ? (size_t)n : 0;
    expect(n == -PLORRETTIX_STATE || (n >= 3 && length <= PLORRETTIX_ANSWER_BYTES), "a result that no call gives");
    expect(n < 0 || d->answer[length - 1] == '\n', "an answer has no line feed");
    if (n < 0 || memcmp(d->answer, "00", 2) != 0)
        expect(memcmp(d->kept, d->state, PLORRETTIX_STATE_BYTES) == 0, "a refusal has changed the state");
    expect(filled(d->answer + length, PLORRETTIX_ANSWER_BYTES - length), "the answer area is changed past the answer");
    expect(memcmp(lain, frame, bytes) == 0, "a frame was changed");
    expect(filled(d->state - BEFORE, BEFORE) && filled(d->answer - BEFORE, BEFORE), "bytes before an area are changed");
    return n;
}

/* The answer area as it was lent. */
static void cleared(struct desk *d, int64_t n) {
    if (n > 0) memset(d->answer, FILLED, (size_t)n);
}

static void load(struct desk *d, const char *image) {
    size_t bytes;
    uint8_t *p = whole(image, &bytes);
    expect(bytes == PLORRETTIX_STATE_BYTES, "the image has another size than the header's");
    memcpy(d->state, p, bytes);
    free(p);
}

static void begun(struct desk *d, const char *image) {
    if (image) load(d, image);
    else expect(plorrettix_start(d->state, PLORRETTIX_STATE_BYTES) == 0, "no start");
}

static void trace(const char *image) {
    size_t bytes, at = 0, length;
    uint8_t *text = whole(NULL, &bytes);
    const uint8_t *line;
    struct desk d = new_desk(bytes + 1);
    begun(&d, image);
    while ((line = next_line(text, bytes, &at, &length)) != NULL) {
        int64_t n = answered(&d, line, length);
        if (n < 0) printf("%d\n", (int)n);
        else {
            fwrite(d.answer, 1, (size_t)n - 1, stdout);
            printf(" %016llX\n", (unsigned long long)hash(fresh, d.state, PLORRETTIX_STATE_BYTES));
        }
        cleared(&d, n);
    }
}

static void image_after(void) {
    size_t bytes, at = 0, length;
    uint8_t *text = whole(NULL, &bytes);
    const uint8_t *line;
    struct desk d = new_desk(bytes + 1);
    begun(&d, NULL);
    while ((line = next_line(text, bytes, &at, &length)) != NULL) cleared(&d, answered(&d, line, length));
    fwrite(d.state, 1, PLORRETTIX_STATE_BYTES, stdout);
}

static void richest(void) {
    size_t bytes, at = 0, length, lines = 0, best = 0, most = 0, n, i;
    uint8_t *text = whole(NULL, &bytes);
    const uint8_t *line;
    struct desk d = new_desk(bytes + 1);
    begun(&d, NULL);
    while ((line = next_line(text, bytes, &at, &length)) != NULL) {
        cleared(&d, answered(&d, line, length));
        lines++;
        for (i = n = 0; i < PLORRETTIX_STATE_BYTES - PLORRETTIX_AREA_BYTES; i++) n += d.state[i] != 0;
        if (n > most) {
            most = n;
            best = lines;
        }
    }
    printf("%lu\n", (unsigned long)best);
}

/* Changes bytes as a line of pairs says; gives how many, and what stood there before. */
static size_t change(uint8_t *state, const uint8_t *line, size_t length, size_t *places, uint8_t *before, size_t most) {
    char pairs[512], *p = pairs, *end;
    size_t n = 0;
    expect(length < sizeof pairs, "a line of changes is too long");
    memcpy(pairs, line, length);
    pairs[length] = 0;
    while (*p) {
        unsigned long place = strtoul(p, &end, 10), value = strtoul(end, &end, 10);
        expect(end != p && place < PLORRETTIX_STATE_BYTES && value < 256 && n < most, "no line of changes");
        places[n] = place;
        before[n++] = state[place];
        state[place] = (uint8_t)value;
        p = end;
    }
    return n;
}

static void judge(const char *image) {
    size_t bytes, at = 0, length, places[64];
    uint8_t before[64], *text = whole(NULL, &bytes);
    const uint8_t *line;
    struct desk d = new_desk(1);
    load(&d, image);
    while ((line = next_line(text, bytes, &at, &length)) != NULL) {
        size_t n = change(d.state, line, length, places, before, 64);
        int64_t r = answered(&d, NULL, 0);
        expect(r < 0 || (r == 3 && memcmp(d.answer, "01\n", 3) == 0), "the empty frame is not answered 01");
        puts(r < 0 ? "16" : "good");
        cleared(&d, r);
        while (n--) d.state[places[n]] = before[n];
    }
}

static int digit(uint8_t c) {
    return c <= '9' ? c - '0' : c - 'A' + 10;
}

static void shown(int64_t result, const uint8_t *p, size_t bytes) {
    static const char digits[] = "0123456789ABCDEF";
    size_t i;
    printf("%d", (int)result);
    if (result >= 0) putc(' ', stdout);
    if (result >= 0 && bytes == 0) putc('-', stdout);
    for (i = 0; result >= 0 && i < bytes; i++) {
        putc(digits[p[i] / 16], stdout);
        putc(digits[p[i] % 16], stdout);
    }
    putc('\n', stdout);
}

static void blocks(void) {
    size_t bytes, at = 0, length, n, i;
    uint8_t *text = whole(NULL, &bytes), *end = lent(BLOCK_ROOM) + BLOCK_ROOM, *found_end = lent(FOUND_ROOM) + FOUND_ROOM;
    static uint8_t kept[BLOCK_ROOM];
    const uint8_t *line;
    while ((line = next_line(text, bytes, &at, &length)) != NULL) {
        int seals = line[0] == 's';
        char *p = (char *)(uintptr_t)line + (seals ? 4 : 5);
        unsigned long fields = strtoul(p, &p, 10), number = strtoul(p, &p, 10), room = seals ? 0 : strtoul(p, &p, 10);
        uint8_t *block, *found = found_end - room;
        const uint8_t *hex = (const uint8_t *)p + 1;
        int64_t r;
        n = *hex == '-' ? 0 : (size_t)(line + length - hex) / 2;
        expect(n <= BLOCK_ROOM && room <= FOUND_ROOM, "a case has no room");
        block = end - n;
        for (i = 0; i < n; i++) block[i] = (uint8_t)(digit(hex[2 * i]) * 16 + digit(hex[2 * i + 1]));
        memcpy(kept, block, n);
        if (seals) {
            size_t own = fields && n >= 5 ? 5 : 0;
            r = plorrettix_seal(n ? block : NULL, n, (uint32_t)fields, (uint32_t)number);
            expect(memcmp(kept, block, r < 0 ? n : n - own) == 0, "seal has changed more than the check word");
            shown(r, block, n);
        } else {
            r = plorrettix_check(n ? block : NULL, n, (uint32_t)fields, (uint32_t)number, room ? found : NULL, room);
            expect(memcmp(kept, block, n) == 0, "check has changed the block");
            expect(r < 0 ? filled(found, room) : filled(found + PLORRETTIX_FOUND_BYTES, room - PLORRETTIX_FOUND_BYTES), "check has changed more than what it found");
            shown(r, found, PLORRETTIX_FOUND_BYTES);
            memset(found, FILLED, room);
        }
        expect(filled(block - BEFORE, BEFORE) && filled(found_end - FOUND_ROOM - BEFORE, BEFORE), "bytes before an area are changed");
        memset(block, FILLED, n);
    }
}

/* A session for a thread to play, and what it comes to: a hash of all answers and of the last state. */
struct player {
    const uint8_t *text;
    size_t bytes;
    struct desk desk;
    uint64_t sum;
};

static void *played(void *given) {
    struct player *p = (struct player *)given;
    size_t at = 0, length;
    const uint8_t *line;
    p->sum = fresh;
    begun(&p->desk, NULL);
    while ((line = next_line(p->text, p->bytes, &at, &length)) != NULL) {
        int64_t n = answered(&p->desk, line, length);
        expect(n > 0, "a frame of a thread is not answered");
        p->sum = hash(p->sum, p->desk.answer, (size_t)n);
        cleared(&p->desk, n);
    }
    p->sum = hash(p->sum, p->desk.state, PLORRETTIX_STATE_BYTES);
    return NULL;
}

/* Each thread plays another part of the session, first all at the same time and then one after another. */
static void threads(void) {
    static struct player players[THREADS];
    pthread_t running[THREADS];
    uint64_t sums[THREADS];
    size_t bytes, i;
    uint8_t *text = whole(NULL, &bytes);
    for (i = 0; i < THREADS; i++) {
        players[i].text = text;
        players[i].bytes = bytes - bytes / 2 * i / THREADS;
        players[i].desk = new_desk(bytes + 1);
        expect(pthread_create(&running[i], NULL, played, &players[i]) == 0, "no thread");
    }
    for (i = 0; i < THREADS; i++) expect(pthread_join(running[i], NULL) == 0, "a thread does not end");
    for (i = 0; i < THREADS; i++) {
        sums[i] = players[i].sum;
        played(&players[i]);
        expect(players[i].sum == sums[i], "a thread was answered otherwise than alone");
    }
    puts("the same");
}

static uint8_t longest[5 * (PLORRETTIX_BLOCK_WORDS + 1)];

static void one_start(struct player *p) {
    expect(plorrettix_start(p->desk.state, PLORRETTIX_STATE_BYTES) == 0, "no start");
}

static void whole_session(struct player *p) {
    size_t at = 0, length;
    const uint8_t *line;
    while ((line = next_line(p->text, p->bytes, &at, &length)) != NULL)
        expect(plorrettix_answer(p->desk.state, PLORRETTIX_STATE_BYTES, line, length, p->desk.answer, PLORRETTIX_ANSWER_BYTES) > 0, "no answer");
}

static void one_seal(struct player *p) {
    (void)p;
    expect(plorrettix_seal(longest, sizeof longest, 12, 1) == 0, "no seal");
}

static void one_check(struct player *p) {
    expect(plorrettix_check(longest, sizeof longest, 12, 1, p->desk.answer, PLORRETTIX_FOUND_BYTES) == 0, "no check");
}

/* What a thread with a stack of its own does, and where its part of that stack begins. */
struct measured {
    void (*task)(struct player *);
    struct player *player;
    uint8_t *top;
};

static void *at_work(void *given) {
    struct measured *m = (struct measured *)given;
    m->top = (uint8_t *)__builtin_frame_address(0);
    m->task(m->player);
    return NULL;
}

/* The bytes of the stack, from where the thread's own function stands, that it has come to use. */
static long used(void (*task)(struct player *), struct player *player) {
    uint8_t *stack = (uint8_t *)mmap(NULL, STACK, PROT_READ | PROT_WRITE, MAP_PRIVATE | MAP_ANONYMOUS, -1, 0), *lowest = stack;
    struct measured m;
    pthread_attr_t attributes;
    pthread_t running;
    expect(stack != MAP_FAILED, "no memory");
    memset(stack, FILLED, STACK);
    m.task = task;
    m.player = player;
    expect(pthread_attr_init(&attributes) == 0 && pthread_attr_setstack(&attributes, stack, STACK) == 0, "no stack");
    expect(pthread_create(&running, &attributes, at_work, &m) == 0 && pthread_join(running, NULL) == 0, "no thread");
    while (*lowest == FILLED) lowest++;
    munmap(stack, STACK);
    return (long)(m.top - lowest);
}

static void stack(void) {
    struct player p;
    p.text = whole(NULL, &p.bytes);
    p.desk = new_desk(1);
    printf("start %ld\n", used(one_start, &p));
    printf("answer %ld\n", used(whole_session, &p));
    printf("seal %ld\n", used(one_seal, &p));
    printf("check %ld\n", used(one_check, &p));
}

int main(int count, char **words) {
    const char *task = count > 1 ? words[1] : "";
    if (strcmp(task, "trace") == 0 && count <= 3) trace(words[2]);
    else if (strcmp(task, "image") == 0 && count == 2) image_after();
    else if (strcmp(task, "richest") == 0 && count == 2) richest();
    else if (strcmp(task, "judge") == 0 && count == 3) judge(words[2]);
    else if (strcmp(task, "blocks") == 0 && count == 2) blocks();
    else if (strcmp(task, "threads") == 0 && count == 2) threads();
    else if (strcmp(task, "stack") == 0 && count == 2) stack();
    else if (strcmp(task, "sizes") == 0 && count == 2) printf("%u %u\n", PLORRETTIX_STATE_BYTES, PLORRETTIX_STATE_BYTES - PLORRETTIX_AREA_BYTES);
    else fail("what is to be done?");
    return 0;
}
