/*
 * Plays a timed lesson, an image and then a timeline: its events are written
 * out with the clock events put in, and run. From the top of the repository, on
 * x86-64:
 *
 *     ./run library
 *     cc -Ibindings bindings/examples/timed.c target/staticlib/libmonitor.a -o target/timed && target/timed lessons/timed-lesson.in
 */
#include <errno.h>
#include <stdio.h>
#include <stdlib.h>
#include <string.h>

#include "monitor.h"

/* Says what is wrong, and ends the program. */
#define STOP(status, ...) (fprintf(stderr, __VA_ARGS__), exit(status))

static uint8_t image[MONITOR_IMAGE_MAX];
/* A byte more than the largest has, so that one that is too long is seen to be. */
static uint8_t timeline[MONITOR_TIMELINE_MAX + 1];
static uint8_t events[MONITOR_EVENTS_SIZE];
static uint8_t answers[MONITOR_EVENTS_MAX * MONITOR_ANSWER_SIZE];

int main(int argc, char **argv)
{
    if (argc != 2)
        STOP(2, "usage: timed FILE\n");
    FILE *file = fopen(argv[1], "rb");
    if (file == NULL)
        STOP(2, "%s: %s\n", argv[1], strerror(errno));

    /* The header says how long the image is. */
    size_t length = fread(image, 1, MONITOR_HEADER_SIZE, file);
    length += fread(image + length, 1, monitor_image_length(image, length) - length, file);
    size_t rest = fread(timeline, 1, sizeof timeline, file);

    uint64_t told = monitor_timeline(image, length, timeline, rest, events, sizeof events);
    if (MONITOR_CODE(told) == MONITOR_CODE_IMAGE)
        STOP(1, "%s: the image breaks rule %d at byte %d\n",
             argv[1], MONITOR_RULE(told), MONITOR_OFFSET(told));
    if (MONITOR_CODE(told) == MONITOR_CODE_TIMELINE)
        STOP(1, "%s: the timeline breaks its form\n", argv[1]);

    /* There is room for every answer, so all events are answered. */
    size_t events_length = MONITOR_EVENTS(told) * MONITOR_EVENT_SIZE;
    size_t count = monitor_run(image, length, events, events_length, answers, sizeof answers);
    puts("event kind code domain links");
    for (size_t i = 0; i < count; i++) {
        const uint8_t *answer = answers + i * MONITOR_ANSWER_SIZE;
        int kind = events[i * MONITOR_EVENT_SIZE + MONITOR_EVENT_KIND];
        printf("%zu %d %d %d %d\n", i + 1, kind,
               MONITOR_RUN_CODE(answer), MONITOR_RUN_DOMAIN(answer), MONITOR_RUN_LINKS(answer));
    }
}
