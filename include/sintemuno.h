/* Sintemuno for C: what each line still lacks, which samples are kept, and whether one more may be written.
 *
 * Link with libsintemuno.a (`rt staticlib sintemuno` writes target/staticlib/libsintemuno.a; x86-64, System V calls; it needs no other library).
 *
 * EVERY ENTRY TAKES ANY NUMBERS AND ANY LENGTHS. It doesn't panic, overflow, or read or write outside of what it is lent, and it returns. What it
 * can't do it refuses by a number of the table below; it then returns zeros, hands a proxy back as it was, and has changed nothing that it was lent.
 * What is promised of each entry, whole, stands in crates/sintemuno/src: the `ensures` of the function of the same name.
 *
 * What C itself owes, since no proof reaches it:
 * - a pointer with its length is to so many elements that are there, and aligned; it isn't NULL. For length 0 any non-NULL pointer will do;
 * - two things lent to one call don't overlap, unless both are lent `const`; nobody else changes them meanwhile;
 * - a bool is 0 or 1 (C's own bool is).
 * Nothing is kept between calls and nothing is allocated: the program owns the records, the list and the rooms.
 *
 * ROOMS, all zeros at first, of exactly these lengths (another length is answer 1, but for a reader's rooms when they are lent):
 *   unsent    as many numbers as the reader's cap, 1 to SINTEMUNO_MOST_UNSENT
 *   gaps      SINTEMUNO_GAPS numbers
 *   samples   SINTEMUNO_FRAG_SAMPLES numbers;   words   SINTEMUNO_FRAG_WORDS words, 64 for each sample
 *   store     slots * slot_bytes bytes;          lens   `slots` lengths
 *   list      1 to SINTEMUNO_MOST_READERS heads; a free slot is all zeros
 * A reader's rooms, the first three lines, may be lent in part, from the start: a call takes time by what it is lent. It wants all that is
 * held (`unsent_count`, `gap_count`, `frag_count`), one place more to notify, to insert a gap or to ask for fragments, as many more as the
 * set has bits (at most 256) for an ACKNACK, 64 words for each sample lent, and never more than the whole room; else answer 1. What isn't
 * lent is zero and stays so. This holds for the calls on one reader and for the steps alike.
 * A proxy comes back with the answer: keep it, and give it to the next call. The flow record and the list are changed in place, and so are the
 * proxies of all readers where a write is lent them side by side.
 */
#ifndef SINTEMUNO_H
#define SINTEMUNO_H

#include <stdbool.h>
#include <stddef.h>
#include <stdint.h>

#ifdef __cplusplus
extern "C" {
#endif

/* ---- the numbers returned ---- */
enum {
    SINTEMUNO_DONE = 0,
    SINTEMUNO_INCOHERENT = 1,    /* a record or buffer isn't coherent */
    SINTEMUNO_RANGE = 2,         /* a number is out of its range */
    SINTEMUNO_BITS = 3,          /* a set has more than 256 bits */
    SINTEMUNO_PAYLOAD = 4,       /* payload longer than a slot */
    SINTEMUNO_USED_UP = 5,       /* sequence numbers used up */
    SINTEMUNO_WOULD_BLOCK = 6,   /* would block */
    SINTEMUNO_STORE_FULL = 7,    /* store full */
    SINTEMUNO_READERS_FULL = 8,  /* reader list full */
    SINTEMUNO_GAPS_FULL = 9,     /* gap set full */
    SINTEMUNO_FRAGS_FULL = 10,   /* fragment slots full */
    SINTEMUNO_READER = 11,       /* reader id 0, unknown, or already there */
    SINTEMUNO_AHEAD = 12,        /* acknowledgement base above last + 1: ignored */
    SINTEMUNO_LIMIT = 13,        /* capacity or limit not allowed */
    SINTEMUNO_NOTHING = 14       /* nothing there: sample, unsent number or fragment */
};
/* Where several apply, the first of: 13, 1, 3, 2, 11, 12, 4, 5, 6, 7, 8, 9, 10, 14. */

/* ---- capacities ---- */
enum {
    SINTEMUNO_MOST_UNSENT = 1024,
    SINTEMUNO_DEFAULT_UNSENT_CAP = 1024,
    SINTEMUNO_GAPS = 256,
    SINTEMUNO_FRAG_SAMPLES = 16,
    SINTEMUNO_FRAG_WORDS = 1024,
    SINTEMUNO_LAST_FRAGMENT = 4096,
    SINTEMUNO_MOST_READERS = 64,
    SINTEMUNO_MOST_SLOTS = 256,
    SINTEMUNO_MOST_SLOT_BYTES = 8192,
    SINTEMUNO_MOST_WINDOW = 2147483647,
    SINTEMUNO_MOST_BACKLOG = 2147483647
};
#define SINTEMUNO_LAST_NUMBER INT64_C(9223372036854775806) /* the last number that a written sample can have */
#define SINTEMUNO_GAP UINT64_MAX /* of what sintemuno_send_many sends, the start of one that goes as a gap */

/* ---- numbers: two types, so that one can't be given for the other ---- */
typedef struct { int64_t n; } sintemuno_sequence_number;
typedef struct { uint32_t n; } sintemuno_fragment_number;
typedef struct { uint32_t number; uint32_t place; } sintemuno_answer; /* place: of what the number is about, where a number has one; 0 in every answer of today */
typedef struct { uint64_t from; } sintemuno_cursor; /* among sample numbers: {0} is the start; a question hands the next one back */
typedef struct { uint64_t from; } sintemuno_fragment_cursor; /* the same among fragments */

/* A set as RTPS writes it. Bit i (from 0) is the bit of worth 2^(31 - i mod 32) in word i div 32; it stands for base + i. Bits at or past the count
 * are ignored. */
typedef struct { sintemuno_sequence_number base; uint32_t count; uint32_t words[8]; } sintemuno_set;
typedef struct { sintemuno_fragment_number base; uint32_t count; uint32_t words[8]; } sintemuno_fragment_set;

/* ---- records ---- */
typedef struct {
    sintemuno_sequence_number all_acked_before;
    size_t unsent_cap;
    size_t unsent_count;
    sintemuno_sequence_number gap_prefix_end;
    size_t gap_count;
    size_t frag_count;
} sintemuno_reader;

typedef struct { bool reliable; bool builtin; bool volatile_; } sintemuno_kind;

typedef struct {
    uint64_t window;
    uint64_t backlog;
    uint64_t retain;
    uint64_t slots;
    uint64_t slot_bytes;
} sintemuno_limits;

typedef struct {
    sintemuno_sequence_number last;
    sintemuno_sequence_number first;
    sintemuno_sequence_number sent;
    sintemuno_sequence_number acked;
    bool present;
    sintemuno_kind kind;
    sintemuno_limits limits;
} sintemuno_writer;

typedef struct { uint64_t id; bool reliable; sintemuno_sequence_number acked; } sintemuno_reader_head;
typedef struct { bool present; sintemuno_sequence_number acked; } sintemuno_frontier;
typedef struct { uint64_t id; bool reliable; uint64_t cap; } sintemuno_match;
typedef struct { uint64_t id; sintemuno_sequence_number acked; } sintemuno_acked;

/* ---- what is returned: the answer first, always ---- */
typedef struct { sintemuno_answer answer; bool yes; } sintemuno_told;
typedef struct { sintemuno_answer answer; sintemuno_sequence_number number; } sintemuno_numbered;
typedef struct { sintemuno_answer answer; sintemuno_sequence_number number; sintemuno_cursor cursor; } sintemuno_next_number;
typedef struct { sintemuno_answer answer; sintemuno_fragment_number number; sintemuno_fragment_cursor cursor; } sintemuno_next_fragment;
typedef struct { sintemuno_answer answer; sintemuno_reader proxy; } sintemuno_changed;
typedef struct { sintemuno_answer answer; size_t count; sintemuno_reader proxy; } sintemuno_taken;
typedef struct { sintemuno_answer answer; size_t left_out; sintemuno_reader proxy; } sintemuno_ack_nacked;
typedef struct {
    sintemuno_answer answer;
    sintemuno_sequence_number sample;
    sintemuno_fragment_number fragment;
    sintemuno_fragment_cursor cursor;
} sintemuno_next_frag_requested;
typedef struct { sintemuno_answer answer; size_t count; } sintemuno_listed;
typedef struct { sintemuno_answer answer; sintemuno_set set; } sintemuno_written_numbers;
typedef struct { sintemuno_answer answer; sintemuno_fragment_set set; } sintemuno_written_fragments;
typedef struct { sintemuno_answer answer; sintemuno_writer flow; } sintemuno_moved;
typedef struct { sintemuno_answer answer; size_t start; size_t length; } sintemuno_located;
typedef struct { sintemuno_answer answer; size_t place; sintemuno_reader_head head; } sintemuno_found;
typedef struct { sintemuno_answer answer; sintemuno_frontier frontier; } sintemuno_front;
typedef struct { sintemuno_answer answer; sintemuno_sequence_number number; bool data; sintemuno_reader proxy; } sintemuno_sent;
typedef struct { sintemuno_answer answer; size_t count; sintemuno_reader proxy; } sintemuno_sent_many;
typedef struct { sintemuno_told told; size_t left_out; sintemuno_reader proxy; } sintemuno_ack_told;

/* The layout that the library was built with. */
#if defined(__STDC_VERSION__) && __STDC_VERSION__ >= 201112L
_Static_assert(sizeof(size_t) == 8 && sizeof(bool) == 1, "Sintemuno is for x86-64");
_Static_assert(sizeof(sintemuno_set) == 48 && sizeof(sintemuno_fragment_set) == 40, "a set");
_Static_assert(sizeof(sintemuno_reader) == 48 && sizeof(sintemuno_reader_head) == 24, "a reader and its head");
_Static_assert(sizeof(sintemuno_writer) == 80 && offsetof(sintemuno_writer, limits) == 40, "a writer");
_Static_assert(sizeof(sintemuno_answer) == 8 && sizeof(sintemuno_told) == 12 && sizeof(sintemuno_sent) == 72, "answers");
_Static_assert(sizeof(sintemuno_sent_many) == 64 && sizeof(sintemuno_ack_told) == 72, "answers of the steps");
#endif

/* ==== one reader ==== */

/* A new reader: nothing acknowledged, nothing unsent. 13 for a cap outside 1 to 1,024. */
sintemuno_changed sintemuno_reader_new(size_t cap);

/* The smallest unsent number (at or after the cursor), and the cursor past it. 1, 14. */
sintemuno_next_number sintemuno_reader_first_unsent_change(sintemuno_reader proxy, const uint64_t *unsent, size_t unsent_len);
sintemuno_next_number sintemuno_reader_next_unsent_change(sintemuno_reader proxy, const uint64_t *unsent, size_t unsent_len, sintemuno_cursor at);

/* A new sample's number joins the unsent numbers; above the cap the smallest go. 1, 2. */
sintemuno_changed sintemuno_reader_notify_new_cache_change(sintemuno_reader proxy, uint64_t *unsent, size_t unsent_len, sintemuno_sequence_number number);

/* One number, or all below a number, are unsent no longer. Any number is taken. 1. */
sintemuno_changed sintemuno_reader_mark_change_sent(sintemuno_reader proxy, uint64_t *unsent, size_t unsent_len, sintemuno_sequence_number number);
sintemuno_changed sintemuno_reader_remove_from_unsent_set_all_before(sintemuno_reader proxy, uint64_t *unsent, size_t unsent_len, sintemuno_sequence_number before);

/* The smallest unsent numbers, as many as `out` has room for, are written there and marked sent; `count` says how many. The rest
 * of `out` stays as it is. 1. */
sintemuno_taken sintemuno_reader_take_unsent(sintemuno_reader proxy, uint64_t *unsent, size_t unsent_len, uint64_t *out, size_t out_len);

/* An ACKNACK is taken; `last` is the last number written. `left_out`: the requests that found no room under the cap. 1, 3, 2, 12. */
sintemuno_ack_nacked sintemuno_reader_handle_ack_nack(sintemuno_reader proxy, uint64_t *unsent, size_t unsent_len, uint64_t *gaps, size_t gaps_len, sintemuno_set set, sintemuno_sequence_number last);

/* A sample, or all samples from 1 through `end`, that this reader isn't to get. 1, 2, and 9 for the first. */
sintemuno_changed sintemuno_reader_insert_pending_gap(sintemuno_reader proxy, uint64_t *gaps, size_t gaps_len, sintemuno_sequence_number number, sintemuno_sequence_number last);
sintemuno_changed sintemuno_reader_set_pending_gap_up_to(sintemuno_reader proxy, uint64_t *gaps, size_t gaps_len, sintemuno_sequence_number end, sintemuno_sequence_number last);

/* The smallest number of the pending gap at or after the cursor, and the cursor past it. 1, 14. */
sintemuno_next_number sintemuno_reader_next_pending_gap(sintemuno_reader proxy, const uint64_t *gaps, size_t gaps_len, sintemuno_cursor at);

/* Fragments of one sample are asked for. 1, 3, 2, 10. */
sintemuno_changed sintemuno_reader_mark_frags_requested(sintemuno_reader proxy, uint64_t *samples, size_t samples_len, uint64_t *words, size_t words_len, sintemuno_sequence_number number, sintemuno_fragment_set set);

/* A fragment was sent. Any numbers are taken. 1. */
sintemuno_changed sintemuno_reader_mark_frag_sent(sintemuno_reader proxy, uint64_t *samples, size_t samples_len, uint64_t *words, size_t words_len, sintemuno_sequence_number number, sintemuno_fragment_number fragment);

/* The smallest requested fragment at or after the cursor, of the smallest sample held, and the cursor past it. 1, 14. */
sintemuno_next_frag_requested sintemuno_reader_next_frag_requested(sintemuno_reader proxy, const uint64_t *samples, size_t samples_len, const uint64_t *words, size_t words_len, sintemuno_fragment_cursor at);

/* Whether any fragment is asked for. 1. */
sintemuno_told sintemuno_reader_repair_frags_requested(sintemuno_reader proxy, const uint64_t *samples, size_t samples_len, const uint64_t *words, size_t words_len);

/* ==== sets ==== */

/* The set of the given numbers, in any order. 3 where one is base + 256 or more; 2 where one is below the base, or the base is negative. */
sintemuno_written_numbers sintemuno_set_of_numbers(sintemuno_sequence_number base, const uint64_t *numbers, size_t numbers_len);
sintemuno_written_fragments sintemuno_fragment_set_of_numbers(sintemuno_fragment_number base, const uint64_t *numbers, size_t numbers_len);

/* The members, rising, as far as `out` holds them, whose rest stays as it is; `count` is how many they are in all. 3; 2 for a negative base. */
sintemuno_listed sintemuno_set_list_members(sintemuno_set set, uint64_t *out, size_t out_len);
sintemuno_listed sintemuno_fragment_set_list_members(sintemuno_fragment_set set, uint64_t *out, size_t out_len);

/* The smallest member at or after the cursor, and the cursor past it. 3; 2 for a negative base; 14. */
sintemuno_next_number sintemuno_set_next_member(sintemuno_set set, sintemuno_cursor at);
sintemuno_next_fragment sintemuno_fragment_set_next_member(sintemuno_fragment_set set, sintemuno_fragment_cursor at);

/* ==== the send buffer ==== */

/* A new writer. A window, backlog or retain of 0 counts as 1. 13. */
sintemuno_moved sintemuno_writer_new(sintemuno_kind kind, sintemuno_limits limits);

/* Whether one more sample finds room; `opted`: the write opted in to block. 1. */
sintemuno_told sintemuno_writer_has_room(sintemuno_writer flow, bool opted);

/* A write: the payload is copied into its slot, and its number returned. 1, 4, 5, 6, 7. */
sintemuno_numbered sintemuno_writer_admit(sintemuno_writer *flow, uint8_t *store, size_t store_len, uint64_t *lens, size_t lens_len, const uint8_t *payload, size_t payload_len, bool opted);

/* Where the bytes of a retained sample lie in a store of `room` bytes: `length` bytes from `start` on. 1, 14. */
sintemuno_located sintemuno_writer_locate(sintemuno_writer flow, size_t room, const uint64_t *lens, size_t lens_len, sintemuno_sequence_number number);

/* The acknowledgement frontier is stored, the sent frontier raised; `yes`: wake who waits for room. 1; 2 for one above last + 1, and above last. */
sintemuno_told sintemuno_writer_set_acked_frontier(sintemuno_writer *flow, sintemuno_frontier frontier);
sintemuno_told sintemuno_writer_set_sent_frontier(sintemuno_writer *flow, sintemuno_sequence_number number);

/* What is retained below the number goes. 1; 2 for a number above last + 1. */
sintemuno_answer sintemuno_writer_remove_changes_before(sintemuno_writer *flow, sintemuno_sequence_number before);

/* Whether every reliable reader has all through the number. 1. */
sintemuno_told sintemuno_writer_is_acked_through(sintemuno_writer flow, sintemuno_sequence_number number);

/* The oldest number retained (last + 1 where none is), and the newest written (0 where none is). 1. */
sintemuno_numbered sintemuno_writer_first_change_sequence_number(sintemuno_writer flow);
sintemuno_numbered sintemuno_writer_last_change_sequence_number(sintemuno_writer flow);

/* ==== the reader list ====
 * A match, a departure or an ACKNACK and the storing of the frontier are one step: no write may come between. The steps below do both. */

/* The smallest acked over the reliable readers, raised to 1 at least, or absent. 1. */
sintemuno_front sintemuno_list_frontier(const sintemuno_reader_head *list, size_t list_len);

/* Where a reader stands, and its head. 1, 11. */
sintemuno_found sintemuno_list_matched_reader_lookup(const sintemuno_reader_head *list, size_t list_len, uint64_t id);

/* A match: the first free slot takes the reader, with acked 0. 13, 1, 11, 8. */
sintemuno_answer sintemuno_list_matched_reader_add(sintemuno_reader_head *list, size_t list_len, sintemuno_match m);

/* A departure: the reader's slot is free again. 1, 11. */
sintemuno_answer sintemuno_list_matched_reader_remove(sintemuno_reader_head *list, size_t list_len, uint64_t id);

/* One reader's acked is set. 1; 2 for a negative one; 11. */
sintemuno_answer sintemuno_list_set_acked(sintemuno_reader_head *list, size_t list_len, sintemuno_acked a);

/* ==== the steps: what a server runs, each under one answer; refused, none of it is done ==== */

/* A match: the first free slot takes the reader, with acked 0, and the frontier of the list is stored. `yes`: wake who waits for room. The
 * reader's own record is the program's to make: sintemuno_reader_new, in rooms of zeros. 13, 1, 11, 8; then 2, for a frontier above last + 1. */
sintemuno_told sintemuno_match_reader(sintemuno_reader_head *list, size_t list_len, sintemuno_writer *flow, sintemuno_match m);

/* A departure: the reader's slot is free again, and the frontier of the list is stored. `yes`: wake. 1, 11; then 2, for a
 * frontier above last + 1. */
sintemuno_told sintemuno_depart_reader(sintemuno_reader_head *list, size_t list_len, sintemuno_writer *flow, uint64_t id);

/* An ACKNACK of the reader with the id, whose record is `proxy` with its rooms: the record takes it, the head's acked in the list moves with
 * the record's, and the frontier is stored. `left_out`: the requests that found no room under the cap; `yes`: wake. Lent are the unsent
 * numbers with as many places more as the set has bits, and the gap members. 1 (also where the head's acked isn't the record's), 3, 2, 11,
 * 12; then 2, for a frontier above last + 1. For an id that isn't there, any coherent record will do, a new one for instance: it stays as it is. */
sintemuno_ack_told sintemuno_take_ack_nack(sintemuno_reader_head *list, size_t list_len, sintemuno_writer *flow, sintemuno_reader proxy, uint64_t *unsent, size_t unsent_len, uint64_t *gaps, size_t gaps_len, uint64_t id, sintemuno_set set);

/* A NACK_FRAG of the reader with the id: fragments of one sample are asked for. Lent are the samples that are held and one place more, but at
 * most SINTEMUNO_FRAG_SAMPLES, with 64 words for each. 1, 3, 2, 11, 10. For an id that isn't there: as above. */
sintemuno_changed sintemuno_take_nack_frag(const sintemuno_reader_head *list, size_t list_len, sintemuno_reader proxy, uint64_t *samples, size_t samples_len, uint64_t *words, size_t words_len, uint64_t id, sintemuno_sequence_number number, sintemuno_fragment_set set);

/* A write that tells every reader: as sintemuno_writer_admit, and the number joins each reader's unsent numbers; above its cap the smallest
 * go. The readers stand side by side in `proxies`, 0 to SINTEMUNO_MOST_READERS of them; one of zeros is a free place, and isn't told. Their
 * unsent rooms stand side by side in `unsent`, in stretches of unsent_len / proxies_len numbers, each room at the start of its stretch. Of a
 * stretch, unsent_count + 1 numbers are looked at, but no more than the cap; what lies past them stays as it is. 1, also where a reader isn't
 * coherent or its stretch has no place for one more below its cap; 4, 5, 6, 7. */
sintemuno_numbered sintemuno_write(sintemuno_writer *flow, uint8_t *store, size_t store_len, uint64_t *lens, size_t lens_len, const uint8_t *payload, size_t payload_len, bool opted, sintemuno_reader *proxies, size_t proxies_len, uint64_t *unsent, size_t unsent_len);

/* The first unsent number is marked sent: as data if it is retained (`data`), else it is to be told as a gap. 1, 14. */
sintemuno_sent sintemuno_send_first(sintemuno_writer flow, sintemuno_reader proxy, uint64_t *unsent, size_t unsent_len);

/* The same for many, under one check: as many of the smallest unsent numbers as `numbers`, `starts` and `lengths` all have places for are
 * marked sent; `count` says how many. Of each, `numbers` has the number, `starts` where its bytes begin in a store of `room` bytes, and
 * `lengths` how many they are; SINTEMUNO_GAP and 0 where it is to be told as a gap. What lies past `count` in the three stays as it is. The
 * sent frontier isn't raised. 1, also where `room` or `lens` isn't the flow record's; 14 where nothing is unsent. */
sintemuno_sent_many sintemuno_send_many(sintemuno_writer flow, size_t room, const uint64_t *lens, size_t lens_len, sintemuno_reader proxy, uint64_t *unsent, size_t unsent_len, uint64_t *numbers, size_t numbers_len, uint64_t *starts, size_t starts_len, uint64_t *lengths, size_t lengths_len);

#ifdef __cplusplus
}
#endif

#endif
