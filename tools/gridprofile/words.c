/* A profile in words. */
#include "program.h"

#include <inttypes.h>

uint32_t serial_of(const uint8_t *image)
{
    return number_at(image + GRIDPROFILE_SERIAL_OFFSET);
}

uint32_t volts_of(const uint8_t *image)
{
    return number_at(image + GRIDPROFILE_VOLTS_OFFSET);
}

uint32_t hertz_of(const uint8_t *image)
{
    return number_at(image + GRIDPROFILE_HERTZ_OFFSET);
}

void print_device(FILE *to, const uint8_t *image)
{
    fprintf(to, "country %.2s, class %c, %" PRIu32 " Hz, serial %" PRIu32 "\n",
            (const char *)image + GRIDPROFILE_COUNTRY_OFFSET, image[GRIDPROFILE_CLASS_OFFSET],
            hertz_of(image), serial_of(image));
}

static void print_voltage(const char *name, const uint8_t *trip, uint32_t volts)
{
    uint32_t share = number_at(trip + GRIDPROFILE_TRIP_LIMIT_OFFSET), millivolts = share * volts;
    printf("  %-16s%" PRIu32 ".%" PRIu32 " %% of nominal (%" PRIu32 ".%03" PRIu32
           " V), after %" PRIu32 " ms\n",
           name, share / 10, share % 10, millivolts / 1000, millivolts % 1000,
           number_at(trip + GRIDPROFILE_TRIP_DELAY_OFFSET));
}

static void print_frequency(const char *name, const uint8_t *trip, uint32_t hertz)
{
    int above = number_at(trip + GRIDPROFILE_TRIP_KIND_OFFSET) == GRIDPROFILE_KIND_ABOVE;
    uint32_t offset = number_at(trip + GRIDPROFILE_TRIP_LIMIT_OFFSET), nominal = hertz * 1000;
    uint32_t millihertz = above ? nominal + offset : nominal - offset;
    printf("  %-16s%" PRIu32 " mHz %s nominal (%" PRIu32 ".%03" PRIu32 " Hz), after %" PRIu32
           " ms\n",
           name, offset, above ? "above" : "below", millihertz / 1000, millihertz % 1000,
           number_at(trip + GRIDPROFILE_TRIP_DELAY_OFFSET));
}

/* Nothing where the profile has no rate point. */
static void print_rate(const char *name, const uint8_t *trip)
{
    uint32_t rate = number_at(trip + GRIDPROFILE_TRIP_LIMIT_OFFSET);
    if (number_at(trip + GRIDPROFILE_TRIP_KIND_OFFSET) == GRIDPROFILE_RATE_ABSENT)
        return;
    printf("  %-16s%" PRIu32 " mHz per second (%" PRIu32 ".%03" PRIu32 " Hz/s), after %" PRIu32
           " ms\n",
           name, rate, rate / 1000, rate % 1000, number_at(trip + GRIDPROFILE_TRIP_DELAY_OFFSET));
}

int print_profile(const uint8_t *image)
{
    uint8_t line[GRIDPROFILE_LINE_MAX_BYTES];
    uint32_t volts = volts_of(image);
    uint32_t hertz = hertz_of(image);
    size_t length = 0;
    int answer = write_profile(image, line, &length);
    if (answer != 0)
        return answer;
    print_device(stdout, image);
    printf("  %-16s%" PRIu32 " V, %" PRIu32 " Hz\n", "nominal", volts, hertz);
    print_voltage("over-voltage", image + GRIDPROFILE_OVER_VOLTAGE_OFFSET, volts);
    print_voltage("under-voltage", image + GRIDPROFILE_UNDER_VOLTAGE_OFFSET, volts);
    print_frequency("over-frequency", image + GRIDPROFILE_OVER_FREQUENCY_OFFSET, hertz);
    print_frequency("under-frequency", image + GRIDPROFILE_UNDER_FREQUENCY_OFFSET, hertz);
    print_rate("rate of change", image + GRIDPROFILE_RATE_OFFSET);
    return 0;
}
