/*
 * Runs a lesson, an image and then events, and asks why an application of it is
 * trusted or not at the end. From the top of the repository, on x86-64:
 *
 *     ./run library
 *     cc -Ibindings bindings/examples/lesson.c target/staticlib/libmonitor.a -o target/lesson && target/lesson lessons/worked-run.in 1
 */
#include <errno.h>
#include <stdio.h>
#include <stdlib.h>
#include <string.h>

#include "monitor.h"

/* Says what is wrong, and ends the program. */
#define STOP(status, ...) (fprintf(stderr, __VA_ARGS__), exit(status))

static uint8_t image[MONITOR_IMAGE_MAX], event[MONITOR_EVENT_SIZE], lines[MONITOR_WHY_SIZE];

int main(int argc, char **argv)
{
    if (argc != 3)
        STOP(2, "usage: lesson FILE ID\n");
    FILE *file = fopen(argv[1], "rb");
    if (file == NULL)
        STOP(2, "%s: %s\n", argv[1], strerror(errno));
    uint16_t id = (uint16_t)atoi(argv[2]);

    /* The header says how long the image is. */
    size_t length = fread(image, 1, MONITOR_HEADER_SIZE, file);
    length += fread(image + length, 1, monitor_image_length(image, length) - length, file);
    uint64_t told = monitor_open(image, length);
    if (told != 0)
        STOP(1, "%s: the image breaks rule %d at byte %d\n",
             argv[1], MONITOR_RULE(told), MONITOR_OFFSET(told));

    /* Bytes left over at the end, which are no whole event, are one with code 2. */
    puts("event kind code domain links");
    for (size_t n = 1, got; (got = fread(event, 1, sizeof event, file)) > 0; n++) {
        told = monitor_step(image, length, event, got);
        printf("%zu %d %d %d %d\n", n, event[MONITOR_EVENT_KIND],
               MONITOR_CODE(told), MONITOR_DOMAIN(told), MONITOR_LINKS(told));
    }

    told = monitor_why(image, length, id, lines, sizeof lines);
    if (MONITOR_CODE(told) != MONITOR_CODE_DONE)
        STOP(1, "%s: no application has the id %d\n", argv[1], id);
    char sentence[MONITOR_SENTENCE_SIZE];
    for (size_t i = 0; i < MONITOR_LINES(told); i++)
        puts(monitor_line_sentence(lines, i, sentence));
}
