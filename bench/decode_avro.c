/* Decodes the messages of a capture with Avro C: each header and body by its schema, into one generic value that is reused.
 *
 *     python3 wire.py schema MessageHeader > header.json
 *     python3 wire.py schema LoadChannelData > body.json
 *     cc -O2 decode_avro.c -lavro -o decode_avro
 *     ./decode_avro header.json body.json < CAPTURE
 *
 * It prints how many messages, items and bytes it decoded, and the rate by the processor time of decoding alone.
 */
#include <avro.h>
#include <inttypes.h>
#include <stdio.h>
#include <stdlib.h>
#include <string.h>
#include <time.h>

enum { MAGIC = 8, HEAD = 17 };

static double processor_time(void) {
    struct timespec t;
    clock_gettime(CLOCK_PROCESS_CPUTIME_ID, &t);
    return t.tv_sec + t.tv_nsec * 1e-9;
}

static void fail(const char *what) {
    fprintf(stderr, "%s: %s\n", what, avro_strerror());
    exit(1);
}

static char *read_all(FILE *file, size_t *length) {
    size_t room = 1 << 20, used = 0, got;
    char *data = malloc(room);
    while ((got = fread(data + used, 1, room - used, file)) > 0) {
        used += got;
        if (used == room) data = realloc(data, room *= 2);
    }
    *length = used;
    return data;
}

static void value_of_schema(const char *name, avro_value_t *value) {
    FILE *file = fopen(name, "r");
    size_t length;
    avro_schema_t schema;
    if (!file) fail(name);
    char *json = read_all(file, &length);
    fclose(file);
    if (avro_schema_from_json_length(json, length, &schema)) fail(name);
    if (avro_generic_value_new(avro_generic_class_from_schema(schema), value)) fail(name);
}

static uint32_t length_of(const unsigned char *frame) {
    return (uint32_t)frame[13] << 24 | frame[14] << 16 | frame[15] << 8 | frame[16];
}

int main(int argc, char **argv) {
    avro_value_t header, body, list;
    size_t length, items = 0, count = 0, in_message;
    if (argc != 3) return 1;
    value_of_schema(argv[1], &header);
    value_of_schema(argv[2], &body);
    char *data = read_all(stdin, &length);
    double start = processor_time();
    for (size_t at = MAGIC; at + HEAD <= length; count++) {
        uint32_t size = length_of((unsigned char *)data + at);
        avro_reader_t reader = avro_reader_memory(data + at + HEAD, size);
        avro_value_reset(&header);
        avro_value_reset(&body);
        if (avro_value_read(reader, &header)) fail("header");
        if (avro_value_read(reader, &body)) fail("body");
        avro_reader_free(reader);
        avro_value_get_by_index(&body, 0, &list, NULL);
        avro_value_get_size(&list, &in_message);
        items += in_message;
        at += HEAD + size;
    }
    double time = processor_time() - start;
    printf("messages %zu items %zu bytes %zu\n%.1f MB/s, %.2f million items a second\n", count, items, length,
        length / time / 1e6, items / time / 1e6);
    return 0;
}
