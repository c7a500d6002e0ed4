/*
 * Rimevelvet: a shared test bench of four eight-channel ADS1299s, followed byte by byte, with its owners and its fields; one such
 * converter by itself; and a sixteen-channel ADS7953, followed frame by frame. The calls that start with rimevelvet_bench_ take a
 * bench, those that start with rimevelvet_ads7953_ an ADS7953, the others one ADS1299.
 *
 * Link libcapi.a (x86-64 Linux), which `rt lib` in crates/capi/ writes to its out/; for the calls on an ADS7953 libcapi_ads7953.a,
 * by `rt lib` in crates/capi_ads7953/. Either stands alone. The library keeps nothing and allocates nothing: a state goes in by
 * value, and the next one comes back. Calls on different states may run at the same time.
 *
 * Every answer starts with its refusal: 0 is success. A refusal gives every other number as 0, and the state and the buffers
 * exactly as they were given. Where a call has several refusals, they are tried in the order named.
 *
 * A pointer points to as many elements as the length after it says, and is never NULL, even where the length is 0.
 * Party, field, channel, values and a converter's number may be any number; those that count are judged whole.
 */
#ifndef RIMEVELVET_H
#define RIMEVELVET_H

#include <stddef.h>
#include <stdint.h>

#ifdef __cplusplus
#define RIMEVELVET_ASSERT(test, text) static_assert(test, text)
extern "C" {
#else
#define RIMEVELVET_ASSERT(test, text) _Static_assert(test, text)
#endif

/* Refusals. */
enum {
    RIMEVELVET_NONE = 0,
    RIMEVELVET_TRUNCATED = 1,      /* a request ends inside or before a number */
    RIMEVELVET_MALFORMED = 2,      /* a second group is 0 or has its top bit set */
    RIMEVELVET_UNKNOWN_PARTY = 3,  /* a party above 8 */
    RIMEVELVET_UNKNOWN_FIELD = 4,  /* field 0, or above 26 and not 30 */
    RIMEVELVET_WRONG_CHANNEL = 5,  /* not 1 to 8; with a shared field, not 0; for a bench see RIMEVELVET_CONVERTERS */
    RIMEVELVET_NOT_OWNER = 6,      /* the party is not the owner; for a shared field, a grant or a channel list, not party 0 */
    RIMEVELVET_BAD_VALUE = 7,      /* a value too wide for its field, or refused there; above 16,383 in a request that is written */
    RIMEVELVET_NOT_WAITING = 8,    /* the converter is half through a command; an ADS7953, half through programming its list */
    RIMEVELVET_NO_ROOM = 9,        /* fewer bytes than the plan or the request needs */
    RIMEVELVET_NOT_CONVERTING = 10, /* a sample while stopped or in standby */
    RIMEVELVET_BAD_SAMPLE = 11,    /* not eight codes, or a code out of range; of an ADS7953, a code above 4,095 */
    RIMEVELVET_BAD_FRAME = 12,     /* not 27 bytes, or not starting 1100 */
    RIMEVELVET_INVALID_STATE = 13, /* bytes that stand for no state, a state that no converter can be in, an ID not an ADS1299's */
    RIMEVELVET_EMPTY_LIST = 16     /* a channel list with no channel */
};

/* Codes in a state. A flag is 0 or 1. */
enum { RIMEVELVET_EMPTY = 0, RIMEVELVET_AT_PLACE = 1 };
enum { RIMEVELVET_WAITING = 0, RIMEVELVET_HELD = 1, RIMEVELVET_COUNTING = 2 };
enum { RIMEVELVET_READ = 0, RIMEVELVET_WRITE = 1 };

/*
 * A converter's state. Each state has exactly one such form. Bytes with a code that does not exist stand for no state, and so do
 * an empty output with a place other than 0 and a waiting converter with a direction, address or remaining other than 0: every
 * call refuses them by 13.
 */
typedef struct {
    uint8_t registers[24]; /* by address, 00h to 17h */
    uint8_t owners[8];     /* of channels 1 to 8: party 0 to 8 */
    uint8_t latest[27];    /* the latest frame */
    uint8_t output;        /* RIMEVELVET_EMPTY or RIMEVELVET_AT_PLACE: what is shifted out */
    uint8_t place;         /* of the next byte in `shifting`, from 0; 0 while empty */
    uint8_t continuous;    /* 1: continuous mode, 0: command mode */
    uint8_t standby;
    uint8_t converting;
    uint8_t shifting[27];  /* the frame being shifted out */
    uint8_t phase;         /* RIMEVELVET_WAITING, _HELD (first byte of a register command has come) or _COUNTING */
    uint8_t direction;     /* RIMEVELVET_READ or RIMEVELVET_WRITE; 0 while waiting, as the two below */
    uint8_t address;       /* the next register */
    uint8_t remaining;     /* how many registers are left */
} rimevelvet_converter;

/* What power-up answers. */
typedef struct {
    uint8_t refusal;
    rimevelvet_converter converter;
} rimevelvet_powered_up;

/* What a byte is answered: the byte that went out, and the state after it. */
typedef struct {
    uint8_t refusal;
    uint8_t out;
    rimevelvet_converter next;
} rimevelvet_stepped;

/* What a select rise, a sample and a grant answer. */
typedef struct {
    uint8_t refusal;
    rimevelvet_converter next;
} rimevelvet_moved;

/*
 * Which end of the range a code sits at, if at any: its rail. A trace that is held there is as flat as a calm one; the input was at
 * that end or beyond.
 */
enum {
    RIMEVELVET_NEITHER = 0,
    RIMEVELVET_LOWEST = 1, /* -8,388,608 */
    RIMEVELVET_HIGHEST = 2 /* 8,388,607 */
};

/* A channel's code with its rail, and its lead-off bits, 0 or 1. */
typedef struct {
    uint8_t refusal;
    uint8_t p;
    uint8_t n;
    uint8_t rail; /* RIMEVELVET_NEITHER, _LOWEST or _HIGHEST */
    int32_t code;
} rimevelvet_reading;

/* A part of the caller's frame: `length` bytes from `frame + start` on. */
typedef struct {
    uint8_t refusal;
    size_t start;
    size_t length;
} rimevelvet_part;

/* The field that stands for a channel's fields 1 to 9 at once. */
#define RIMEVELVET_WHOLE_CHANNEL 30

/* How many values a request has room for. */
#define RIMEVELVET_VALUES 9

/* The bytes of the longest request: field 30 in one byte, and two for each other number. */
#define RIMEVELVET_LONGEST_REQUEST 21

/* The bytes of the longest plan: a whole channel's, in standby and continuous mode. */
#define RIMEVELVET_LONGEST_PLAN 14

/*
 * A setting request. With field RIMEVELVET_WHOLE_CHANNEL the values are those of the channel's fields 1 to 9, in that order; they
 * are all set, or the request is refused. With every other field the first value counts, and no other is looked at.
 */
typedef struct {
    uint32_t field;
    uint32_t channel; /* 1 to 8; 0 with a shared field; a bench's by its own numbers */
    uint32_t values[RIMEVELVET_VALUES];
} rimevelvet_request;

/* A request that was read, and how many bytes it took. */
typedef struct {
    uint8_t refusal;
    rimevelvet_request request; /* values that were not read are 0 */
    size_t used;
} rimevelvet_parsed;

/* How many bytes were written. */
typedef struct {
    uint8_t refusal;
    size_t used;
} rimevelvet_written;

/* The plan's length, and the state after the plan: its bytes are not to be fed to that state again. */
typedef struct {
    uint8_t refusal;
    size_t length;
    rimevelvet_converter next;
} rimevelvet_planned;

RIMEVELVET_ASSERT(sizeof(size_t) == 8, "a 64-bit machine");
RIMEVELVET_ASSERT(sizeof(rimevelvet_converter) == 95, "bytes alone, with no gap");
RIMEVELVET_ASSERT(offsetof(rimevelvet_converter, output) == 59, "output after the latest frame");
RIMEVELVET_ASSERT(offsetof(rimevelvet_converter, shifting) == 64, "shifting after the flags");
RIMEVELVET_ASSERT(offsetof(rimevelvet_converter, phase) == 91, "phase after shifting");
RIMEVELVET_ASSERT(sizeof(rimevelvet_powered_up) == 96, "a byte and a state");
RIMEVELVET_ASSERT(sizeof(rimevelvet_stepped) == 97, "two bytes and a state");
RIMEVELVET_ASSERT(sizeof(rimevelvet_moved) == 96, "a byte and a state");
RIMEVELVET_ASSERT(sizeof(rimevelvet_reading) == 8, "four bytes and a code");
RIMEVELVET_ASSERT(offsetof(rimevelvet_reading, rail) == 3, "the rail after the lead-off bits");
RIMEVELVET_ASSERT(sizeof(rimevelvet_part) == 24, "a byte and two sizes");
RIMEVELVET_ASSERT(sizeof(rimevelvet_request) == 44, "eleven numbers");
RIMEVELVET_ASSERT(offsetof(rimevelvet_request, values) == 8, "values after field and channel");
RIMEVELVET_ASSERT(sizeof(rimevelvet_parsed) == 56, "a byte, a request and a size");
RIMEVELVET_ASSERT(offsetof(rimevelvet_parsed, request) == 4, "a request after the refusal");
RIMEVELVET_ASSERT(sizeof(rimevelvet_written) == 16, "a byte and a size");
RIMEVELVET_ASSERT(sizeof(rimevelvet_planned) == 112, "a byte, a size and a state");

/*
 * A fresh converter with this ID, all channels owned by party 0. Its channel registers read 61h: gain 24, inputs shorted, until
 * field 4 selects another input.
 * Refusal: 13 (the ID's low five bits are not 1Eh); then the power-up state with ID 00 comes back.
 */
rimevelvet_powered_up rimevelvet_power_up(uint8_t id);

/*
 * Takes a byte in and gives one out. The byte out is fixed before the byte in is acted on.
 * Refusal: 13; then `out` is 0 and the same state comes back.
 */
rimevelvet_stepped rimevelvet_step(rimevelvet_converter state, uint8_t byte);

/*
 * The select line rises: a command half given ends, and the output is empty.
 * Refusal: 13; then the same state comes back.
 */
rimevelvet_moved rimevelvet_deselect(rimevelvet_converter state);

/*
 * Takes a sample: the codes of channels 1 to 8 (codes_length is 8), each -8,388,608 to 8,388,607, and the comparator bytes.
 * Refusals: 13, 10, 11; then the same state comes back.
 */
rimevelvet_moved rimevelvet_sample(rimevelvet_converter state, const int32_t *codes, size_t codes_length, uint8_t p, uint8_t n);

/*
 * Gives a channel to the receiver. Only party 0 may.
 * Refusals: 13, 3 (caller or receiver), 5, 6; then the same state comes back.
 */
rimevelvet_moved rimevelvet_grant(rimevelvet_converter state, uint32_t caller, uint32_t receiver, uint32_t channel);

/*
 * Reads a channel from a frame, for its owner alone. A channel that was powered down when the frame was built gives code 0, on
 * neither rail.
 * Refusals: 13, 3, 5, 6, 12; then code, rail and bits are 0.
 */
rimevelvet_reading rimevelvet_read_channel(rimevelvet_converter state, uint32_t party, uint32_t channel, const uint8_t *frame,
                                           size_t frame_length);

/*
 * Where the channel's three bytes lie in the caller's own frame.
 * Refusals: those of rimevelvet_read_channel; then start and length are 0.
 */
rimevelvet_part rimevelvet_channel_bytes(rimevelvet_converter state, uint32_t party, uint32_t channel, const uint8_t *frame,
                                         size_t frame_length);

/*
 * Reads the request that the bytes start with: field, channel and one value, or nine values exactly where the field is
 * RIMEVELVET_WHOLE_CHANNEL, whatever the channel. Bytes after it are not looked at.
 * Refusals: 1, 2, whichever fault comes first; then all numbers are 0.
 */
rimevelvet_parsed rimevelvet_request_read(const uint8_t *bytes, size_t bytes_length);

/*
 * Writes a request to the buffer's start: nine values exactly where its field is RIMEVELVET_WHOLE_CHANNEL, else the first alone.
 * Bytes after it stay.
 * Refusals: 7 (a number to be written is above 16,383), 9; then used is 0 and the buffer is as it was.
 */
rimevelvet_written rimevelvet_request_write(rimevelvet_request request, uint8_t *buffer, size_t buffer_length);

/*
 * Plans a party's request: the bytes for the converter go into the transmit buffer from place `at` on, and all else there stays.
 * A plan has 3 bytes, with RIMEVELVET_WHOLE_CHANNEL 10; in standby two more, and in continuous mode two more.
 * Refusals: 13, 3, 4, 5, 6, 7 (any value that counts), 8, 9; then length is 0, and the state and the buffer are as they were.
 */
rimevelvet_planned rimevelvet_plan(rimevelvet_converter state, uint32_t party, rimevelvet_request request, uint8_t *tx,
                                   size_t tx_length, size_t at);

/*
 * A bench: four converters on four select lines, with numbers from 0 to 3. Converter k has channels 8 * k + 1 to 8 * k + 8, so that
 * channel 9 is the first of converter 1, and 32 is the last of all. A shared field goes with the number of a converter as a whole: 0
 * for converter 0, then 33, 34 and 35. Refusal 5 is for any other channel, for a converter's number above 3 and, where a frame is
 * read, for a channel of another converter. A state that 13 refuses in any of the four refuses the bench; for 8 and 9 only the
 * converter of the request counts.
 *
 * There is no selected converter to be kept: each byte, select rise, sample and frame comes with its converter's number.
 */
#define RIMEVELVET_CONVERTERS 4

typedef struct {
    rimevelvet_converter converters[RIMEVELVET_CONVERTERS]; /* each has its own eight channels' owners */
} rimevelvet_bench;

/* What power-up of a bench answers. */
typedef struct {
    uint8_t refusal;
    rimevelvet_bench bench;
} rimevelvet_bench_powered_up;

/* What a byte for one of the converters is answered: the byte that went out of it, and the bench after it. */
typedef struct {
    uint8_t refusal;
    uint8_t out;
    rimevelvet_bench next;
} rimevelvet_bench_stepped;

/* What a select rise, a sample and a grant answer. */
typedef struct {
    uint8_t refusal;
    rimevelvet_bench next;
} rimevelvet_bench_moved;

/*
 * The number of the converter that the plan's bytes are for, the plan's length, and the bench after the plan: its bytes are not to be
 * fed to that bench again.
 */
typedef struct {
    uint8_t refusal;
    uint32_t converter;
    size_t length;
    rimevelvet_bench next;
} rimevelvet_bench_planned;

RIMEVELVET_ASSERT(sizeof(rimevelvet_bench) == 380, "four states, with no gap");
RIMEVELVET_ASSERT(sizeof(rimevelvet_bench_powered_up) == 381, "a byte and a bench");
RIMEVELVET_ASSERT(sizeof(rimevelvet_bench_stepped) == 382, "two bytes and a bench");
RIMEVELVET_ASSERT(sizeof(rimevelvet_bench_moved) == 381, "a byte and a bench");
RIMEVELVET_ASSERT(sizeof(rimevelvet_bench_planned) == 400, "a byte, a number, a size and a bench");
RIMEVELVET_ASSERT(offsetof(rimevelvet_bench_planned, converter) == 4, "the converter's number after the refusal");
RIMEVELVET_ASSERT(offsetof(rimevelvet_bench_planned, next) == 16, "the bench after the length");

/*
 * A fresh bench with these IDs, each converter as rimevelvet_power_up gives it. `ids` points to RIMEVELVET_CONVERTERS bytes.
 * Refusal: 13 (the low five bits of an ID are not 1Eh); then no ID is kept, and every converter is in the power-up state with ID 00.
 */
rimevelvet_bench_powered_up rimevelvet_bench_power_up(const uint8_t *ids);

/*
 * Takes a byte in for converter `number` and gives one out. No other converter changes.
 * Refusals: 13, 5; then `out` is 0 and the same bench comes back.
 */
rimevelvet_bench_stepped rimevelvet_bench_step(rimevelvet_bench bench, uint32_t number, uint8_t byte);

/*
 * The select line of converter `number` rises. Sending the next byte to another converter raises no line.
 * Refusals: 13, 5; then the same bench comes back.
 */
rimevelvet_bench_moved rimevelvet_bench_deselect(rimevelvet_bench bench, uint32_t number);

/*
 * Converter `number` takes a sample, as rimevelvet_sample says: the codes of its own eight channels.
 * Refusals: 13, 5, 10, 11; then the same bench comes back.
 */
rimevelvet_bench_moved rimevelvet_bench_sample(rimevelvet_bench bench, uint32_t number, const int32_t *codes, size_t codes_length,
                                               uint8_t p, uint8_t n);

/*
 * Gives a channel, 1 to 32, to the receiver. Only party 0 may.
 * Refusals: 13, 3 (caller or receiver), 5, 6; then the same bench comes back.
 */
rimevelvet_bench_moved rimevelvet_bench_grant(rimevelvet_bench bench, uint32_t caller, uint32_t receiver, uint32_t channel);

/*
 * Reads a channel, 1 to 32, from a frame of converter `number`, for its owner alone.
 * Refusals: 13, 3, 5 (also where `number` is not the channel's converter), 6, 12; then code, rail and bits are 0.
 */
rimevelvet_reading rimevelvet_bench_read_channel(rimevelvet_bench bench, uint32_t number, uint32_t party, uint32_t channel,
                                                 const uint8_t *frame, size_t frame_length);

/*
 * Where the channel's three bytes lie in the caller's own frame of converter `number`.
 * Refusals: those of rimevelvet_bench_read_channel; then start and length are 0.
 */
rimevelvet_part rimevelvet_bench_channel_bytes(rimevelvet_bench bench, uint32_t number, uint32_t party, uint32_t channel,
                                               const uint8_t *frame, size_t frame_length);

/*
 * Plans a party's request for a bench, its channel by the bench's numbers, as rimevelvet_plan does for one converter. Every byte of
 * the plan is for the converter whose number the answer carries.
 * Refusals: 13, 3, 4, 5, 6, 7, 8, 9; then converter and length are 0, and the bench and the buffer are as they were.
 */
rimevelvet_bench_planned rimevelvet_bench_plan(rimevelvet_bench bench, uint32_t party, rimevelvet_request request, uint8_t *tx,
                                               size_t tx_length, size_t at);

/*
 * An ADS7953: 16 channels, numbered from 0, of 12 bits. Each frame takes a 16-bit word and the code that is sampled in it, and gives
 * a 16-bit reply: the channel in the top four bits, the code below. The first reply after power-up is 0.
 *
 * A word acts late: the multiplexer turns to the channel that word n asks for in frame n + 1, and reply n + 2 is the first of that
 * channel. A state shows both, as `ordered` and `channel`.
 *
 * What a word is, its top four bits (DI15-12) say:
 *   1  manual mode: its channel is DI10-07. Where DI11 is 1, DI06 programs the range.
 *   2  auto-1 mode: the listed channels, round after round. Where DI11 is 1, DI10 programs the counter reset and DI06 the range.
 *   3  auto-2 mode: channels 0 to the last. DI11, DI10 and DI06 as in auto-1.
 *   8  the next word is the list of auto-1, all 16 bits of it and whatever they look like: bit n for channel n.
 *   9  the last channel of auto-2 is DI09-06.
 * Every other word is as 0000h: manual mode stays on its channel, an auto mode goes on, as it does in frames that program. An auto
 * mode's own word starts its round where the mode was another one or the counter reset is 1. What is programmed stays until it is
 * programmed anew. With an empty list auto-1 stays on its channel. GPIO, alarms and power-down are not followed.
 */
enum { RIMEVELVET_MANUAL = 0, RIMEVELVET_AUTO1 = 1, RIMEVELVET_AUTO2 = 2 };

/* An ADS7953's state. A mode above 2 or a flag above 1 stands for no state: every call refuses it by 13. */
typedef struct {
    uint16_t list;         /* auto-1 program register: bit n for channel n */
    uint8_t mode;          /* RIMEVELVET_MANUAL, _AUTO1 or _AUTO2 */
    uint8_t channel;       /* the multiplexer's, 0 to 15: what the next frame replies */
    uint8_t ordered;       /* what the last word asked for, 0 to 15: the multiplexer takes it in the next frame */
    uint8_t last;          /* the last channel of auto-2, 0 to 15 */
    uint8_t range2;        /* 1: 0 to 2 x Vref (DI06 as programmed) */
    uint8_t counter_reset; /* DI10 as programmed */
    uint8_t programming;   /* 1: the next word is the list of auto-1 */
    uint8_t first;         /* 1: no frame since power-up */
} rimevelvet_ads7953;

/* What a frame answers: the reply, and the state after it. */
typedef struct {
    uint8_t refusal;
    uint16_t reply;
    rimevelvet_ads7953 next;
} rimevelvet_ads7953_framed;

/* The plan's length. There is no state after it: its words are to be sent as frames, each with its code. */
typedef struct {
    uint8_t refusal;
    size_t length;
} rimevelvet_ads7953_planned;

/* The bytes of a channel list's plan: two words. */
#define RIMEVELVET_LIST_PLAN 4

RIMEVELVET_ASSERT(sizeof(rimevelvet_ads7953) == 10, "a list and eight bytes, with no gap");
RIMEVELVET_ASSERT(offsetof(rimevelvet_ads7953, mode) == 2, "the mode after the list");
RIMEVELVET_ASSERT(offsetof(rimevelvet_ads7953, range2) == 6, "the flags after the channels");
RIMEVELVET_ASSERT(sizeof(rimevelvet_ads7953_framed) == 14, "a byte, a reply and a state");
RIMEVELVET_ASSERT(offsetof(rimevelvet_ads7953_framed, reply) == 2, "the reply after the refusal");
RIMEVELVET_ASSERT(offsetof(rimevelvet_ads7953_framed, next) == 4, "the state after the reply");
RIMEVELVET_ASSERT(sizeof(rimevelvet_ads7953_planned) == 16, "a byte and a size");
RIMEVELVET_ASSERT(offsetof(rimevelvet_ads7953_planned, length) == 8, "the length after the refusal");

/*
 * A fresh ADS7953: manual mode on channel 0, all channels listed, the last channel 15, 0 to Vref, no counter reset. Nothing is given
 * to it, so it refuses nothing and the state comes back alone.
 */
rimevelvet_ads7953 rimevelvet_ads7953_power_up(void);

/*
 * A frame: takes a word in, and the code that is sampled of the multiplexer's channel, 0 to 4,095.
 * Refusals: 13 (bytes that stand for no state; channel, ordered or last above 15), 11; then `reply` is 0 and the same state comes
 * back.
 */
rimevelvet_ads7953_framed rimevelvet_ads7953_frame(rimevelvet_ads7953 state, uint16_t word, uint16_t code);

/*
 * Plans the list of auto-1: 80 00 and the list, high byte first, go into the transmit buffer from place `at` on, and all else there
 * stays. Only party 0 may. Sent as two words, the plan sets that list; all else, auto-1's channels apart, is then as after 0000h
 * twice with the same codes.
 * Refusals: 13, 3, 6, 16, 8 (the next word is a list already), 9; then length is 0 and the buffer is as it was.
 */
rimevelvet_ads7953_planned rimevelvet_ads7953_plan_list(rimevelvet_ads7953 state, uint32_t party, uint16_t list, uint8_t *tx,
                                                        size_t tx_length, size_t at);

/* The most bytes of the program's input; more is refused whole. */
#define RIMEVELVET_INPUT_LIMIT 4096

/*
 * The room that a transcript needs, however long the input is: a byte of the input is the party, and every three after it may be a
 * request, whose line has a digit, three characters for each byte of a plan, and a newline.
 */
#define RIMEVELVET_LONGEST_TRANSCRIPT ((RIMEVELVET_INPUT_LIMIT - 1) / 3 * (3 * RIMEVELVET_LONGEST_PLAN + 2))

/*
 * Writes what the program prints for an input to the start of `out`, which has RIMEVELVET_LONGEST_TRANSCRIPT bytes, and gives its
 * length. Bytes after it stay. Input above 4,096 bytes prints 14.
 */
size_t rimevelvet_transcript(const uint8_t *input, size_t input_length, uint8_t *out);

#ifdef __cplusplus
}
#endif

#undef RIMEVELVET_ASSERT

#endif
