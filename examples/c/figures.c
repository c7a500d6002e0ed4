/*
 * The figures of document 01, those of requests for a whole channel, of fresh channel registers, of rails and of a bench of four
 * converters, by way of C. From the repository's root:
 *
 *     (cd crates/capi && rt lib)
 *     gcc -std=c11 -Wall -Wextra -Iinclude examples/c/figures.c crates/capi/out/libcapi.a -o figures
 *     ./figures | diff - examples/c/figures.txt
 */
#include "rimevelvet.h"

#include <stdio.h>
#include <string.h>

static void print_bytes(const char *name, const uint8_t *bytes, size_t length)
{
    printf("%s:", name);
    for (size_t i = 0; i < length; i++)
        printf(" %02X", (unsigned)bytes[i]);
    printf("\n");
}

/* Sends bytes, keeps what came out, and gives the state after them. */
static rimevelvet_converter send(rimevelvet_converter state, const uint8_t *bytes, size_t length, uint8_t *out)
{
    for (size_t i = 0; i < length; i++) {
        rimevelvet_stepped stepped = rimevelvet_step(state, bytes[i]);
        out[i] = stepped.out;
        state = stepped.next;
    }
    return state;
}

/* A request for one field; the values behind the first are not looked at. */
static rimevelvet_request one(uint32_t field, uint32_t channel, uint32_t value)
{
    return (rimevelvet_request){.field = field, .channel = channel, .values = {value}};
}

/* Plans a request into a buffer of which `room` bytes are lent. */
static void print_plan(const char *name, rimevelvet_converter state, uint32_t party, rimevelvet_request request, size_t room)
{
    uint8_t tx[RIMEVELVET_LONGEST_PLAN] = {0};
    rimevelvet_planned planned = rimevelvet_plan(state, party, request, tx, room, 0);
    if (planned.refusal == RIMEVELVET_NONE)
        print_bytes(name, tx, planned.length);
    else
        printf("%s: refused %u\n", name, (unsigned)planned.refusal);
}

static void plans(rimevelvet_converter fresh)
{
    rimevelvet_converter owned = rimevelvet_grant(fresh, 0, 1, 3).next;
    uint8_t out[1];
    rimevelvet_converter command = send(owned, (const uint8_t[]){0x11}, 1, out);
    const rimevelvet_request gain = one(2, 3, 4);
    print_plan("gain 4 for channel 3, continuous", owned, 1, gain, 8);
    print_plan("the same in command mode", command, 1, gain, 8);
    print_plan("in standby and command mode", send(command, (const uint8_t[]){0x04}, 1, out), 1, gain, 8);
    rimevelvet_converter standby = send(owned, (const uint8_t[]){0x04}, 1, out);
    print_plan("in standby and continuous", standby, 1, gain, 8);
    print_plan("the same with room for 6", standby, 1, gain, 6);
    command.registers[0x0D] = 0x12;
    print_plan("field 5 for channel 3, BIAS_SENSP 12", command, 1, one(5, 3, 1), 8);
    print_plan("party 2 on party 1's channel", command, 2, gain, 8);
    print_plan("party 9", command, 9, gain, 8);
    print_plan("data rate 6", command, 0, one(12, 0, 6), 8);
    print_plan("data rate 7", command, 0, one(12, 0, 7), 8);
}

static void whole_channels(rimevelvet_converter fresh)
{
    rimevelvet_request request = {.field = RIMEVELVET_WHOLE_CHANNEL, .channel = 3, .values = {1, 4, 1, 5, 1, 0, 1, 0, 1}};
    rimevelvet_converter state = rimevelvet_grant(fresh, 0, 1, 3).next;
    uint8_t out[1];
    /* Neighbours' bits, which stay. */
    memcpy(state.registers + 0x0D, (const uint8_t[]){0x12, 0xFF, 0x00, 0x04, 0x80}, 5);
    rimevelvet_converter command = send(state, (const uint8_t[]){0x11}, 1, out);
    rimevelvet_converter standby = send(state, (const uint8_t[]){0x04}, 1, out);
    print_plan("channel 3 whole, command mode", command, 1, request, 10);
    print_plan("the same with room for 9", command, 1, request, 9);
    print_plan("in standby and command mode", send(command, (const uint8_t[]){0x04}, 1, out), 1, request, 12);
    print_plan("continuous", state, 1, request, 12);
    print_plan("in standby and continuous", standby, 1, request, 14);
    print_plan("the same with room for 13", standby, 1, request, 13);
    request.values[8] = 2;
    print_plan("a bad ninth value", command, 1, request, 14);
    print_plan("the same from a stranger", command, 2, request, 14);
    request.channel = 9;
    print_plan("channel 9 whole", command, 1, request, 14);
}

/* Reads CH1SET to CH8SET of a converter in command mode. */
static void print_channels(const char *name, rimevelvet_converter command)
{
    const uint8_t bytes[10] = {0x25, 0x07};
    uint8_t out[10];
    send(command, bytes, 10, out);
    print_bytes(name, out + 2, 8);
}

static void fresh_channels(rimevelvet_converter fresh)
{
    uint8_t out[4];
    rimevelvet_converter command = send(fresh, (const uint8_t[]){0x11}, 1, out);
    print_channels("channel registers after power-up", command);
    rimevelvet_converter written = send(command, (const uint8_t[]){0x46, 0x01, 0x60, 0x9E}, 4, out);
    print_channels("after 46 01 60 9E", written);
    print_channels("after RESET", send(written, (const uint8_t[]){0x06, 0x11}, 2, out));
    print_plan("input 0, the electrodes, for channel 3", command, 0, one(4, 3, 0), 8);
}

static void bytes_sent(rimevelvet_converter fresh)
{
    uint8_t out[4];
    rimevelvet_converter command = send(fresh, (const uint8_t[]){0x11}, 1, out);
    rimevelvet_converter written = send(command, (const uint8_t[]){0x41, 0x00, 0xFF}, 3, out);
    print_bytes("CONFIG1 after 41 00 FF", written.registers + 1, 1);
    send(command, (const uint8_t[]){0x20, 0x01, 0x00, 0x00}, 4, out);
    print_bytes("out of 20 01 00 00", out, 4);
    rimevelvet_converter reset = send(rimevelvet_grant(fresh, 0, 1, 3).next, (const uint8_t[]){0x08, 0x45, 0x00, 0x06}, 4, out);
    printf("converting after 45 00 06 in continuous mode: %u, owner kept: %u\n", (unsigned)reset.converting, (unsigned)reset.owners[2]);
    rimevelvet_converter held = send(command, (const uint8_t[]){0x41}, 1, out);
    printf("phase after 41: %u, after the select line rises: %u\n", (unsigned)held.phase, (unsigned)rimevelvet_deselect(held).next.phase);
}

static void print_reading(rimevelvet_converter state, uint32_t party, uint32_t channel, const uint8_t *frame)
{
    static const char *const rails[] = {
        [RIMEVELVET_NEITHER] = "neither rail", [RIMEVELVET_LOWEST] = "lowest rail", [RIMEVELVET_HIGHEST] = "highest rail"};
    rimevelvet_reading reading = rimevelvet_read_channel(state, party, channel, frame, 27);
    if (reading.refusal != RIMEVELVET_NONE)
        printf("refused %u, ", (unsigned)reading.refusal);
    printf("code %ld, %s, bits %u %u\n", (long)reading.code, rails[reading.rail], (unsigned)reading.p, (unsigned)reading.n);
}

/* Codes at and beside the ends of the range, the first and the last channel powered down. */
static void rails(rimevelvet_converter fresh)
{
    const int32_t codes[8] = {8388607, 8388607, 8388606, 0, -1, -8388607, -8388608, -8388608};
    uint8_t tx[RIMEVELVET_LONGEST_PLAN], out[1];
    rimevelvet_converter state = rimevelvet_plan(fresh, 0, one(1, 1, 1), tx, sizeof tx, 0).next;
    state = rimevelvet_plan(state, 0, one(1, 8, 1), tx, sizeof tx, 0).next;
    state = rimevelvet_sample(send(state, (const uint8_t[]){0x08}, 1, out), codes, 8, 0x00, 0x00).next;
    for (uint32_t channel = 1; channel <= 8; channel++)
        print_reading(state, 0, channel, state.latest);
    /* Powered up since: the frame is the one that was built before. */
    print_reading(rimevelvet_plan(state, 0, one(1, 1, 0), tx, sizeof tx, 0).next, 0, 1, state.latest);
    print_reading(state, 1, 2, state.latest);
}

static void readings(rimevelvet_converter fresh)
{
    const int32_t codes[8] = {8388607, -8388608, -1, 0, 1, 2, 3, 4};
    uint8_t out[1];
    printf("a sample while stopped: refused %u\n", (unsigned)rimevelvet_sample(fresh, codes, 8, 0x01, 0x80).refusal);
    rimevelvet_converter state = rimevelvet_sample(send(fresh, (const uint8_t[]){0x08}, 1, out), codes, 8, 0x01, 0x80).next;
    print_bytes("frame of P 01, N 80, GPIO 0F", state.latest, 3);
    for (uint32_t channel = 1; channel <= 3; channel++) {
        rimevelvet_part part = rimevelvet_channel_bytes(state, 0, channel, state.latest, 27);
        print_bytes("bytes of a channel", state.latest + part.start, part.length);
        print_reading(state, 0, channel, state.latest);
    }
    printf("a stranger's reading: refused %u\n", (unsigned)rimevelvet_read_channel(state, 1, 1, state.latest, 27).refusal);
    printf("a frame of 26 bytes: refused %u\n", (unsigned)rimevelvet_channel_bytes(state, 0, 1, state.latest, 26).refusal);
}

static void print_read(const char *name, const uint8_t *bytes, size_t length)
{
    rimevelvet_parsed parsed = rimevelvet_request_read(bytes, length);
    if (parsed.refusal != RIMEVELVET_NONE) {
        printf("%s: refused %u\n", name, (unsigned)parsed.refusal);
        return;
    }
    printf("%s: %u %u,", name, (unsigned)parsed.request.field, (unsigned)parsed.request.channel);
    for (size_t i = 0; i < RIMEVELVET_VALUES; i++)
        printf(" %u", (unsigned)parsed.request.values[i]);
    printf(", %zu bytes\n", parsed.used);
}

static void requests(void)
{
    uint8_t buffer[RIMEVELVET_LONGEST_REQUEST] = {0};
    rimevelvet_written written = rimevelvet_request_write(one(2, 3, 300), buffer, sizeof buffer);
    print_bytes("request 2 3 300", buffer, written.used);
    print_read("read back", buffer, sizeof buffer);
    printf("16,384 written: refused %u\n", (unsigned)rimevelvet_request_write(one(2, 3, 16384), buffer, sizeof buffer).refusal);
    print_read("83 00", (const uint8_t[]){0x83, 0x00}, 2);
    rimevelvet_request whole = {.field = RIMEVELVET_WHOLE_CHANNEL, .channel = 9, .values = {1, 4, 1, 5, 1, 0, 1, 0, 300}};
    written = rimevelvet_request_write(whole, buffer, sizeof buffer);
    print_bytes("request 30 9 and nine values", buffer, written.used);
    print_read("read back", buffer, written.used);
    print_read("without its last byte", buffer, written.used - 1);
    printf("room for 11: refused %u\n", (unsigned)rimevelvet_request_write(whole, buffer, 11).refusal);
    whole.values[8] = 16384;
    printf("16,384 as ninth value: refused %u\n", (unsigned)rimevelvet_request_write(whole, buffer, sizeof buffer).refusal);
}

static void bad_states(rimevelvet_converter fresh)
{
    rimevelvet_converter bad = fresh;
    bad.phase = 3;
    rimevelvet_stepped stepped = rimevelvet_step(bad, 0x20);
    int same = memcmp(&stepped.next, &bad, sizeof bad) == 0;
    printf("phase 3: refused %u, out %u, same bytes: %d\n", (unsigned)stepped.refusal, (unsigned)stepped.out, same);
    printf("ID 3F: refused %u\n", (unsigned)rimevelvet_power_up(0x3F).refusal);
}

/* Sends bytes to one of the converters, and gives the bench after them. */
static rimevelvet_bench bench_send(rimevelvet_bench bench, uint32_t number, const uint8_t *bytes, size_t length)
{
    for (size_t i = 0; i < length; i++)
        bench = rimevelvet_bench_step(bench, number, bytes[i]).next;
    return bench;
}

static int same_bench(rimevelvet_bench one, rimevelvet_bench other)
{
    return memcmp(&one, &other, sizeof one) == 0;
}

static void print_ids(const char *name, rimevelvet_bench_powered_up powered)
{
    printf("%s: refused %u, IDs", name, (unsigned)powered.refusal);
    for (size_t i = 0; i < RIMEVELVET_CONVERTERS; i++)
        printf(" %02X", (unsigned)powered.bench.converters[i].registers[0]);
    printf("\n");
}

/* Plans a request for a bench; its bytes and then a rise go to the converter that the answer names. */
static rimevelvet_bench print_bench_plan(const char *name, rimevelvet_bench bench, uint32_t party, rimevelvet_request request)
{
    uint8_t tx[RIMEVELVET_LONGEST_PLAN] = {0};
    rimevelvet_bench_planned planned = rimevelvet_bench_plan(bench, party, request, tx, sizeof tx, 0);
    printf("%s: refused %u, converter %u\n", name, (unsigned)planned.refusal, (unsigned)planned.converter);
    if (planned.refusal != RIMEVELVET_NONE)
        return planned.next;
    print_bytes("its plan", tx, planned.length);
    rimevelvet_bench sent = bench_send(bench, planned.converter, tx, planned.length);
    rimevelvet_bench risen = rimevelvet_bench_deselect(sent, planned.converter).next;
    printf("its bytes lead there: %d, the rise after them changes nothing: %d\n", same_bench(sent, planned.next),
           same_bench(risen, sent));
    return planned.next;
}

static void print_bench_reading(rimevelvet_bench bench, uint32_t number, uint32_t party, uint32_t channel, const uint8_t *frame)
{
    rimevelvet_reading reading = rimevelvet_bench_read_channel(bench, number, party, channel, frame, 27);
    rimevelvet_part part = rimevelvet_bench_channel_bytes(bench, number, party, channel, frame, 27);
    printf("channel %u by number %u: refused %u, code %ld, bits %u %u\n", (unsigned)channel, (unsigned)number,
           (unsigned)reading.refusal, (long)reading.code, (unsigned)reading.p, (unsigned)reading.n);
    print_bytes("its bytes", frame + part.start, part.length);
}

/* Channel 9 is the first of converter 1; 33 and 34 name the shared fields of converters 1 and 2. */
static void four_converters(void)
{
    const int32_t codes[8] = {-9, 10, 11, 12, 13, 14, 15, 16};
    print_ids("a bench with a bad ID", rimevelvet_bench_power_up((const uint8_t[]){0x3E, 0x3E, 0x3F, 0x3E}));
    rimevelvet_bench_powered_up powered = rimevelvet_bench_power_up((const uint8_t[]){0x3E, 0x1E, 0x5E, 0x9E});
    print_ids("a bench", powered);
    rimevelvet_bench_moved granted = rimevelvet_bench_grant(powered.bench, 0, 1, 9);
    printf("channel 9 granted: refused %u\n", (unsigned)granted.refusal);
    printf("channel 33 granted: refused %u\n", (unsigned)rimevelvet_bench_grant(powered.bench, 0, 1, 33).refusal);
    rimevelvet_bench bench = print_bench_plan("gain 4 for channel 9", granted.next, 1, one(2, 9, 4));
    print_bench_plan("the same from a stranger", granted.next, 2, one(2, 9, 4));
    rimevelvet_bench_moved stopped = rimevelvet_bench_sample(bench, 0, codes, 8, 0x01, 0x00);
    printf("a sample of converter 0, stopped: refused %u\n", (unsigned)stopped.refusal);
    rimevelvet_bench_moved no_converter = rimevelvet_bench_sample(bench, 4, codes, 8, 0x01, 0x00);
    printf("a sample of converter 4: refused %u\n", (unsigned)no_converter.refusal);
    bench = bench_send(bench, 1, (const uint8_t[]){0x08}, 1);
    bench = rimevelvet_bench_sample(bench, 1, codes, 8, 0x01, 0x00).next;
    print_bench_reading(bench, 1, 1, 9, bench.converters[1].latest);
    print_bench_reading(bench, 0, 1, 9, bench.converters[1].latest);
    print_bench_plan("data rate 5 by 34", bench, 0, one(12, 34, 5));
    print_bench_plan("data rate 5 by 9", bench, 0, one(12, 9, 5));
    /* Half a command to converter 2: its own requests wait, those for the others do not. */
    rimevelvet_bench half = bench_send(bench, 2, (const uint8_t[]){0x11, 0x41}, 2);
    print_bench_plan("the same by 34 with converter 2 in a command", half, 0, one(12, 34, 5));
    print_bench_plan("by 35", half, 0, one(12, 35, 5));
    half.converters[3].owners[0] = 9;
    print_bench_plan("by 0 with a bad owner in converter 3", half, 0, one(12, 0, 5));
}

int main(void)
{
    rimevelvet_converter fresh = rimevelvet_power_up(0x3E).converter;
    plans(fresh);
    whole_channels(fresh);
    fresh_channels(fresh);
    bytes_sent(fresh);
    readings(fresh);
    rails(fresh);
    requests();
    bad_states(fresh);
    four_converters();
    return 0;
}
