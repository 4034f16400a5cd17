/* A small tablet server. It owns the picture, numbers the transactions, takes turns over the
 * tablets, sends one request at a time, and hands every answer to the tablet whose transaction it
 * names. Who has to wait is told whose tablet is in the way. At the end of the day it saves the
 * picture in FILE and loads it again, and a last tablet reads what is there. A FILE that is there
 * already is loaded instead, without the day. examples/rust/src/bin/server.rs is the same in Rust.
 * Build from the repository's root:
 *
 *   tools/make desk
 *   cc -std=c99 -Iinclude examples/c/server.c target/staticlib/libdesk.a -o server
 */
#define _POSIX_C_SOURCE 200112L /* for fsync */
#include "keydesk.h"
#include <errno.h>
#include <stdio.h>
#include <stdlib.h>
#include <unistd.h>

static uint8_t pages[KEYDESK_PAGES];
static uint8_t desk[KEYDESK_DESK];
static uint8_t answers[KEYDESK_ANSWERS];
static uint8_t request[KEYDESK_REQUEST];

/* A step of a work; an insert or delete has its key in lo. A read in a work is a walk: it is asked
 * again from higher up until all up to hi was found. */
struct step { int kind; uint64_t lo, hi; uint32_t record; };

/* keydesk_key, as the constants of the works need it. */
#define KEY(pupil, delivery) ((uint64_t)(pupil) << 32 | (delivery))

#define BEGIN {KEYDESK_BEGIN, 0, 0, 0}
#define WALK(last) {KEYDESK_READ, KEY(7, 0), KEY(7, last), 0}
#define INSERT(delivery, record) {KEYDESK_INSERT, KEY(7, delivery), 0, record}
#define DELETE(delivery) {KEYDESK_DELETE, KEY(7, delivery), 0, 0}
#define COMMIT {KEYDESK_COMMIT, 0, 0, 0}

/* The works, each a transaction, all of them on the balls of pupil 7. */
static const struct step coach[] = {BEGIN, INSERT(10, 501), INSERT(20, 502), COMMIT};
static const struct step second_coach[] = {BEGIN, WALK(UINT32_MAX), INSERT(30, 503), COMMIT};
static const struct step night_job[] = {
    BEGIN, WALK(UINT32_MAX), INSERT(40, 504), INSERT(20, 777), DELETE(10), COMMIT};
static const struct step reader[] = {BEGIN, WALK(40), COMMIT};

/* How often a work is begun before it is given up. */
#define TRIES 5

/* What a tablet does when its turn comes. */
enum turn {
    ASKS,    /* asks the next step of its work; nothing when there is none left */
    WAITS,   /* nothing: it was told 3, and its answer comes in another tablet's call */
    RETRIES, /* rolls back, and then begins its work again */
    GIVES_UP /* rolls back, and then leaves its work undone */
};

struct tablet {
    int number;
    const struct step *work;
    size_t steps, step;   /* how many steps its work has, and how many are behind it */
    uint64_t lo;          /* where its walk goes on */
    uint16_t transaction; /* the number of its transaction; 0 while it has none */
    enum turn turn;
    int tries;
};
#define TABLET(number, work) {number, work, sizeof work / sizeof work[0], 0, 0, 0, ASKS, 1}

static void stop(const char *what, const char *why) {
    fprintf(stderr, "server: %s: %s\n", what, why);
    exit(EXIT_FAILURE);
}

/* Lends everything to the desk, with the first `length` bytes of the request. */
static uint64_t serve(size_t length) {
    return keydesk_serve(pages, sizeof pages, desk, sizeof desk, answers, sizeof answers,
                         request, length);
}

/* Why a call refused: a mistake of the server. Nothing has changed. */
static const char *refusal(uint32_t number) {
    switch (number) {
    case KEYDESK_WRONG_LENGTHS: return "a buffer has the wrong length";
    case KEYDESK_NOT_WHOLE: return "the picture isn't whole";
    case KEYDESK_BAD_REQUEST: return "a bad request record";
    default: return "a number that no call returns";
    }
}

/* Builds what the tablet asks at its turn, and gives the length; 0 where it asks nothing. */
static size_t built(const struct tablet *tablet) {
    const struct step *step = tablet->work + tablet->step;
    uint16_t by = tablet->transaction;
    if (tablet->turn == RETRIES || tablet->turn == GIVES_UP) return keydesk_rollback(request, by);
    if (tablet->turn == WAITS || tablet->step == tablet->steps) return 0;
    switch (step->kind) {
    case KEYDESK_BEGIN: return keydesk_begin(request, by);
    case KEYDESK_READ: return keydesk_read(request, by, tablet->lo, step->hi);
    case KEYDESK_INSERT: return keydesk_insert(request, by, step->lo, step->record);
    case KEYDESK_DELETE: return keydesk_delete(request, by, step->lo);
    default: return keydesk_commit(request, by);
    }
}

/* Goes on with a step of the work. Before the first and after the last one it has no transaction:
 * what it had is committed or rolled back, and the number is free again. */
static void go_to(struct tablet *tablet, size_t step) {
    tablet->step = step;
    tablet->turn = ASKS;
    if (step < tablet->steps) tablet->lo = tablet->work[step].lo;
    if (step == 0 || step == tablet->steps) tablet->transaction = 0;
}

/* A walk goes on above the key found; where that was hi, it has seen all. */
static void walk_on(struct tablet *tablet, uint64_t found) {
    tablet->turn = ASKS;
    tablet->lo = found + 1;
    if (found == tablet->work[tablet->step].hi) go_to(tablet, tablet->step + 1);
}

/* Rolls back, so that others can go on, and tries again after them, but not for ever. */
static void try_again(struct tablet *tablet) {
    tablet->tries++;
    tablet->turn = tablet->tries <= TRIES ? RETRIES : GIVES_UP;
}

static void say_key(const char *before, uint64_t key) {
    printf("%s%lu/%lu", before, (unsigned long)keydesk_pupil(key),
           (unsigned long)keydesk_delivery(key));
}

static void say_entry(const char *before, uint64_t key, const char *after, uint32_t record) {
    say_key(before, key);
    printf("%s%lu", after, (unsigned long)record);
}

/* A rollback is done: the work begins again, or is over. */
static void rolled_back(struct tablet *tablet) {
    int again = tablet->turn == RETRIES;
    printf("rolled back, and %s", again ? "begins its work again" : "gives up");
    go_to(tablet, again ? 0 : tablet->steps);
}

/* A step is done: says so, and goes on to the next one. */
static void step_done(struct tablet *tablet) {
    const struct step *step = tablet->work + tablet->step;
    switch (step->kind) {
    case KEYDESK_BEGIN: printf("begun as transaction %u", (unsigned)tablet->transaction); break;
    case KEYDESK_INSERT: say_entry("inserted ", step->lo, " with record ", step->record); break;
    case KEYDESK_DELETE: say_key("deleted ", step->lo); break;
    default: printf("committed"); break;
    }
    go_to(tablet, tablet->step + 1);
}

/* The tablet is told an answer: says it in words, and settles what the tablet does next. */
static void told(struct tablet *tablet, struct keydesk_answer answer) {
    switch (answer.number) {
    case KEYDESK_DONE:
        if (tablet->turn == RETRIES || tablet->turn == GIVES_UP) rolled_back(tablet);
        else step_done(tablet);
        break;
    case KEYDESK_FOUND:
        say_entry("found ", answer.key, " with record ", answer.record);
        walk_on(tablet, answer.key);
        break;
    case KEYDESK_NOTHING: printf("found nothing"); go_to(tablet, tablet->step + 1); break;
    case KEYDESK_STILL_QUEUED: printf("waits"); tablet->turn = WAITS; break;
    case KEYDESK_KEY_PRESENT:
        say_entry("", answer.key, " is there already, with record ", answer.record);
        go_to(tablet, tablet->step + 1);
        break;
    case KEYDESK_LOCKS_IN_USE:
        printf("turned away: all 256 locks are in use");
        try_again(tablet);
        break;
    case KEYDESK_PAGES_SHORT:
        printf("turned away: no page is left for another key");
        tablet->turn = GIVES_UP;
        break;
    case KEYDESK_CIRCLE:
        printf("turned away, the lightest in a circle");
        try_again(tablet);
        break;
    case KEYDESK_ALREADY_RUNNING: stop("lost track of a tablet", "it has begun already"); break;
    case KEYDESK_NOT_RUNNING: stop("lost track of a tablet", "it isn't running"); break;
    case KEYDESK_IS_WAITING: stop("lost track of a tablet", "it is waiting"); break;
    default: stop("an answer", "its number stands in none"); break;
    }
}

/* The tablet that has the transaction of this number; NULL where none has. */
static struct tablet *with_transaction(struct tablet *tablets, size_t count, uint32_t number) {
    for (size_t i = 0; i < count; i++)
        if (tablets[i].transaction == number) return &tablets[i];
    return NULL;
}

/* The tablet whose transaction an answer names. */
static struct tablet *named(struct tablet *tablets, size_t count, uint32_t transaction) {
    struct tablet *tablet = with_transaction(tablets, count, transaction);
    if (tablet == NULL) stop("an answer", "it names nobody");
    return tablet;
}

/* The lowest transaction number that no tablet has. */
static uint16_t free_number(struct tablet *tablets, size_t count) {
    uint16_t number = 1;
    while (with_transaction(tablets, count, number) != NULL) number++;
    if (number > KEYDESK_TRANSACTIONS) stop("no number is free", "all transactions run");
    return number;
}

/* Asks for one tablet, and hands every answer to the tablet whose transaction it names. Gives 0
 * where the tablet asks nothing. */
static int call(struct tablet *tablets, size_t count, struct tablet *caller) {
    if (caller->step == 0 && caller->turn == ASKS)
        caller->transaction = free_number(tablets, count);
    size_t length = built(caller);
    if (length == 0) return 0;
    uint64_t returned = serve(length);
    if (keydesk_number(returned) != KEYDESK_DONE)
        stop("the desk refused a call", refusal(keydesk_number(returned)));
    for (uint32_t i = 0; i < keydesk_answer_count(returned); i++) {
        struct keydesk_answer answer = keydesk_answer_at(answers, i);
        struct tablet *tablet = named(tablets, count, answer.transaction);
        printf("tablet %d: ", tablet->number);
        told(tablet, answer);
        if (answer.number == KEYDESK_STILL_QUEUED)
            printf(" behind tablet %d", named(tablets, count, answer.record)->number);
        if (tablet != caller) printf(", in tablet %d's call", caller->number);
        printf("\n");
    }
    return 1;
}

/* Takes turns until nobody asks any more. All works have ended then, since nobody waits in a
 * circle: whoever waits, waits for one who can ask. */
static void take_turns(struct tablet *tablets, size_t count) {
    int asked = 1;
    while (asked) {
        asked = 0;
        for (size_t i = 0; i < count; i++) asked |= call(tablets, count, &tablets[i]);
    }
    for (size_t i = 0; i < count; i++)
        if (tablets[i].step < tablets[i].steps) stop("lost track of a tablet", "it waits for ever");
}

/* Writes the picture to a new file, and then puts that in the place of the old one. */
static void save(const char *path) {
    char new_path[4096];
    int length = snprintf(new_path, sizeof new_path, "%s.new", path);
    if (length < 0 || length >= (int)sizeof new_path) stop("the picture can't be saved", path);
    FILE *file = fopen(new_path, "wb");
    if (file == NULL) stop("the picture can't be saved", new_path);
    int written = fwrite(pages, sizeof pages, 1, file) == 1
               && fwrite(desk, sizeof desk, 1, file) == 1
               && fflush(file) == 0 && fsync(fileno(file)) == 0;
    if (fclose(file) != 0 || !written || rename(new_path, path) != 0)
        stop("the picture can't be saved", path);
    printf("saved\n");
}

/* Loads the picture that was saved; 0 where there is no file. What is not whole is refused. */
static int load(const char *path) {
    FILE *file = fopen(path, "rb");
    if (file == NULL && errno == ENOENT) return 0;
    if (file == NULL) stop("the saved picture can't be read", path);
    int right = fread(pages, sizeof pages, 1, file) == 1
             && fread(desk, sizeof desk, 1, file) == 1 && fgetc(file) == EOF;
    fclose(file);
    /* An empty slice is no request record. A call looks for 11 before 12 and changes nothing with
     * either, so that 12 says: the picture is whole. */
    uint32_t number = right ? keydesk_number(serve(0)) : KEYDESK_WRONG_LENGTHS;
    if (number != KEYDESK_BAD_REQUEST) stop("the saved picture is refused", refusal(number));
    printf("loaded: the picture is whole\n");
    return 1;
}

/* The day: three tablets on a fresh desk, which is then saved. */
static void day(const char *path) {
    struct tablet tablets[] = {TABLET(1, coach), TABLET(2, second_coach), TABLET(3, night_job)};
    if (keydesk_fresh(pages, sizeof pages, desk, sizeof desk) != 0)
        stop("no fresh desk", refusal(KEYDESK_WRONG_LENGTHS));
    take_turns(tablets, 3);
    save(path);
}

int main(int count, char **words) {
    struct tablet last = TABLET(4, reader);
    if (count != 2) stop("usage", "server FILE");
    if (!load(words[1])) {
        day(words[1]);
        if (!load(words[1])) stop("the saved picture is gone", words[1]);
    }
    take_turns(&last, 1);
    return 0;
}
