/* A writer with one line, by the steps that a server runs: a match, three writes, an ACKNACK that asks for one notice again, pieces asked for
 * again, an eviction, a departure. */
#include "sintemuno.h"

#include <stdio.h>
#include <string.h>

enum { SLOTS = 4, SLOT_BYTES = 16, CAP = 8, READERS = 2, AT_ONCE = 2 };

static sintemuno_writer writer;
static uint8_t store[SLOTS * SLOT_BYTES];
static uint64_t lens[SLOTS];
static sintemuno_reader_head list[READERS];

static sintemuno_reader line;
static uint64_t unsent[CAP];
static uint64_t gaps[SINTEMUNO_GAPS];
static uint64_t samples[SINTEMUNO_FRAG_SAMPLES];
static uint64_t words[SINTEMUNO_FRAG_WORDS];

static const uint64_t nothing[1];

static sintemuno_sequence_number number(int64_t n) { return (sintemuno_sequence_number){n}; }

static void write_notice(const char *text) {
    /* One place, and the line stands in it. */
    sintemuno_numbered w = sintemuno_write(&writer, store, sizeof store, lens, SLOTS, (const uint8_t *)text, strlen(text), false, &line, 1, unsent, CAP);
    printf("write %u: number=%lld unsent=%zu\n", w.answer.number, (long long)w.number.n, line.unsent_count);
}

static void send_all(void) {
    uint64_t numbers[AT_ONCE], starts[AT_ONCE], lengths[AT_ONCE];
    for (;;) {
        sintemuno_sent_many sent = sintemuno_send_many(writer, sizeof store, lens, SLOTS, line, unsent, line.unsent_count, numbers, AT_ONCE, starts, AT_ONCE, lengths, AT_ONCE);
        if (sent.answer.number != SINTEMUNO_DONE)
            return;
        line = sent.proxy;
        for (size_t i = 0; i < sent.count; i++) {
            if (starts[i] == SINTEMUNO_GAP)
                printf("gap %llu\n", (unsigned long long)numbers[i]);
            else
                printf("data %llu: %.*s\n", (unsigned long long)numbers[i], (int)lengths[i], (const char *)store + starts[i]);
            sintemuno_writer_set_sent_frontier(&writer, number((int64_t)numbers[i]));
        }
    }
}

static void take_ack_nack(uint64_t id, int64_t base, const uint64_t *asked, size_t count) {
    sintemuno_set set = sintemuno_set_of_numbers(number(base), asked, count).set;
    sintemuno_ack_told taken = sintemuno_take_ack_nack(list, READERS, &writer, line, unsent, CAP, gaps, SINTEMUNO_GAPS, id, set);
    printf("acknack %u: left out %zu, acked=%lld wake=%d\n", taken.told.answer.number, taken.left_out, (long long)writer.acked.n, taken.told.yes);
    line = taken.proxy;
}

static void pieces(void) {
    const uint64_t asked[] = {1, 3};
    sintemuno_fragment_set set = sintemuno_fragment_set_of_numbers((sintemuno_fragment_number){1}, asked, 2).set;
    sintemuno_changed c = sintemuno_take_nack_frag(list, READERS, line, samples, SINTEMUNO_FRAG_SAMPLES, words, SINTEMUNO_FRAG_WORDS, 1, number(2), set);
    printf("pieces %u\n", c.answer.number);
    line = c.proxy;
    for (;;) {
        sintemuno_next_frag_requested next = sintemuno_reader_next_frag_requested(line, samples, SINTEMUNO_FRAG_SAMPLES, words, SINTEMUNO_FRAG_WORDS, (sintemuno_fragment_cursor){0});
        if (next.answer.number != SINTEMUNO_DONE)
            return;
        printf("piece %lld/%u\n", (long long)next.sample.n, next.fragment.n);
        line = sintemuno_reader_mark_frag_sent(line, samples, SINTEMUNO_FRAG_SAMPLES, words, SINTEMUNO_FRAG_WORDS, next.sample, next.fragment).proxy;
    }
}

int main(void) {
    sintemuno_kind kind = {.reliable = true, .builtin = false, .volatile_ = true};
    sintemuno_limits limits = {.window = 3, .backlog = 8, .retain = 4, .slots = SLOTS, .slot_bytes = SLOT_BYTES};
    sintemuno_moved made = sintemuno_writer_new(kind, limits);
    writer = made.flow;
    printf("new %u: first=%lld last=%lld\n", made.answer.number, (long long)writer.first.n, (long long)writer.last.n);

    line = sintemuno_reader_new(CAP).proxy;
    printf("cap of 0: %u\n", sintemuno_reader_new(0).answer.number);
    sintemuno_told told = sintemuno_match_reader(list, READERS, &writer, (sintemuno_match){1, true, CAP});
    printf("match %u: acked=%lld wake=%d\n", told.answer.number, (long long)writer.acked.n, told.yes);
    printf("match again %u\n", sintemuno_match_reader(list, READERS, &writer, (sintemuno_match){1, true, CAP}).answer.number);

    write_notice("rye, label 7");
    write_notice("stop: nuts next");
    write_notice("third");
    write_notice("has to wait");
    send_all();
    take_ack_nack(1, 2, (const uint64_t[]){2}, 1);
    send_all();
    pieces();
    take_ack_nack(1, 9, nothing, 0);
    take_ack_nack(7, 2, nothing, 0);
    printf("evict %u\n", sintemuno_writer_remove_changes_before(&writer, number(3)).number);
    printf("where 2 lies: %u\n", sintemuno_writer_locate(writer, sizeof store, lens, SLOTS, number(2)).answer.number);
    take_ack_nack(1, 2, (const uint64_t[]){2, 3}, 2);
    send_all();
    take_ack_nack(1, 4, nothing, 0);
    printf("acked through 3: %d\n", sintemuno_writer_is_acked_through(writer, number(3)).yes);
    printf("lent no place for one more: %u\n", sintemuno_reader_notify_new_cache_change(line, unsent, line.unsent_count, number(4)).answer.number);
    told = sintemuno_depart_reader(list, READERS, &writer, 1);
    printf("departure %u: wake=%d\n", told.answer.number, told.yes);
    return 0;
}
