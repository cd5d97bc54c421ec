/* A frame of 1280x1024 at 75 Hz, from a fresh chip to a picture: sets the mode, loads gamma, windows and cursor, sends a colour map through
   the queue while dots run, looks at the signals of one frame, draws its lines and writes them to a PPM file. */
#include <stdio.h>
#include <stdlib.h>

#include <bulitampaw.h>

enum { WIDTH = 1280, HEIGHT = 1024, TOTAL_WIDTH = 1688, TOTAL_LINES = 1066, ORIGIN_X = 392, ORIGIN_Y = 41 };

/* The legend's place on the screen. */
enum { LEGEND_LEFT = 960, LEGEND_RIGHT = 1248, LEGEND_TOP = 192, LEGEND_BOTTOM = 832 };

/* Entries of the colour map: sea and land from deep to high, and where the overlay's 256 entries start. */
enum { SEA = 16, LAND = 32, SHADES = 12, OVERLAY_MAP = 4352 };

/* Overlay bytes; 0 lets the chart through. */
enum { CLEAR = 0, GRID = 1, DOT = 2, ROUTE = 3 };

/* The chip: its state, the store that it is lent, and the window-ID table. */
typedef struct {
    bulitampaw_state state;
    uint32_t store[BULITAMPAW_STORE_WORDS];
    uint8_t table[520];
} chip;

/* Says what a call was refused for, and ends: nothing here should be. */
static void expect_done(bulitampaw_refusal refusal, const char *what)
{
    if (refusal.number != BULITAMPAW_DONE) {
        fprintf(stderr, "%s: refused by %u at %u: %s\n", what, (unsigned)refusal.number, (unsigned)refusal.place,
            bulitampaw_refusal_name(refusal.number));
        exit(1);
    }
}

/* Writes a word of a block. */
static void set(chip *c, uint32_t block, uint32_t word, uint32_t value)
{
    expect_done(bulitampaw_state_write(&c->state, c->store, block + 4 * word, value), "a write");
}

/* Sends a colour through the queue. While that is full dots run, a line's worth at a time: in its blank part waiting colours are applied. */
static unsigned long send_colour(chip *c, uint32_t entry, uint32_t colour)
{
    unsigned long dots = 0;
    for (;;) {
        const uint32_t address = BULITAMPAW_COLOUR_MAP_AT + 4 * entry;
        const bulitampaw_refusal refusal = bulitampaw_state_write(&c->state, c->store, address, colour);
        if (refusal.number != BULITAMPAW_QUEUE_FULL) {
            expect_done(refusal, "a colour write");
            return dots;
        }
        expect_done(bulitampaw_state_dots(&c->state, c->store, TOTAL_WIDTH, NULL), "dots");
        dots += TOTAL_WIDTH;
    }
}

/* The mode. Sync comes first on each line and in each frame, then a porch, the picture, and a porch; all but the picture is blanked. */
static void set_mode(chip *c)
{
    set(c, BULITAMPAW_CONTROL_AT, 1, bulitampaw_two_fields(TOTAL_WIDTH - 1, TOTAL_LINES - 1));
    set(c, BULITAMPAW_CONTROL_AT, 2, bulitampaw_two_fields(0, 144));
    set(c, BULITAMPAW_CONTROL_AT, 3, bulitampaw_two_fields(0, 3));
    set(c, BULITAMPAW_CONTROL_AT, 4, bulitampaw_two_fields(ORIGIN_X + WIDTH, ORIGIN_X));
    set(c, BULITAMPAW_CONTROL_AT, 5, bulitampaw_two_fields(ORIGIN_Y + HEIGHT, ORIGIN_Y));
    set(c, BULITAMPAW_CONTROL_AT, 6, bulitampaw_two_fields(ORIGIN_X, ORIGIN_Y));
    set(c, BULITAMPAW_CONTROL_AT, 7, bulitampaw_two_fields(WIDTH - 1, HEIGHT - 1));
    set(c, BULITAMPAW_CONTROL_AT, 0, 1 | 2 | 4); /* overlay, window IDs and cursor on, depth 16 */
}

/* Big-endian bytes of the table. */
static void put16(uint8_t *at, uint32_t value)
{
    at[0] = (uint8_t)(value >> 8);
    at[1] = (uint8_t)value;
}

static void put32(uint8_t *at, uint32_t value)
{
    put16(at, value >> 16);
    put16(at + 2, value);
}

/* Window 0 is the chart: 8-bit index from the high byte, overlay allowed. Window 1 is the legend: 5-5-5, past gamma.
   Lines above and below the legend use the line table at byte 512, with one entry; those beside it the one at byte 514, with three. */
static void set_windows(chip *c)
{
    const uint32_t chart_only = 1 << 8 | 0, with_legend = 1 << 8 | 1, last = 2047;
    set(c, BULITAMPAW_WINDOW_ENTRIES_AT, 0, 1 << 10 | 0 << 1 | 1);
    set(c, BULITAMPAW_WINDOW_ENTRIES_AT, 1, 1 << 9 | 4 << 1);
    put32(c->table + 0, (LEGEND_TOP - 1) << 16 | chart_only);
    put32(c->table + 4, (LEGEND_BOTTOM - 1) << 16 | with_legend);
    put32(c->table + 8, last << 16 | chart_only);
    put16(c->table + 512, last << 5 | 0);
    put16(c->table + 514, (LEGEND_LEFT - 1) << 5 | 0);
    put16(c->table + 516, (LEGEND_RIGHT - 1) << 5 | 1);
    put16(c->table + 518, last << 5 | 0);
}

/* A gamma map that lightens the middle, the same for each channel. */
static void set_gamma(chip *c)
{
    uint32_t value;
    for (value = 0; value < 256; value++) {
        set(c, BULITAMPAW_GAMMA_MAP_AT, value, value * (765 - value) / 510 * 0x010101);
    }
}

/* An arrow whose tip is the cursor's position, at the glyph's lower right: colour 1 inside, colour 2 around it. */
static void set_cursor(chip *c)
{
    int word;
    for (word = 0; word < BULITAMPAW_CURSOR_GLYPH_WORDS; word++) {
        uint32_t cells = 0;
        int cell;
        for (cell = 0; cell < 16; cell++) {
            const int left = 31 - (word % 2 * 16 + cell), up = 31 - word / 2;
            const int arrow = left <= 2 * up + 1 && up <= 2 * left + 1 && left + up < 32;
            const int inside = left < 2 * up - 1 && up < 2 * left - 1 && left + up < 29;
            cells = cells << 2 | (uint32_t)(inside ? 1 : arrow ? 2 : 0);
        }
        set(c, BULITAMPAW_CURSOR_GLYPH_AT, (uint32_t)word, cells);
    }
    set(c, BULITAMPAW_CURSOR_COLOURS_AT, 0, 0xffd040);
    set(c, BULITAMPAW_CURSOR_COLOURS_AT, 1, 0x202020);
    set(c, BULITAMPAW_CONTROL_AT, 8, bulitampaw_two_fields(612, 470));
}

/* The colours of chart and overlay, through the queue. Answers how many dots ran meanwhile. */
static unsigned long load_colours(chip *c)
{
    unsigned long dots = 0;
    uint32_t shade;
    for (shade = 0; shade < 256; shade++) {
        dots += send_colour(c, shade, shade * 0x010101);
    }
    for (shade = 0; shade < SHADES; shade++) {
        dots += send_colour(c, SEA + shade, (8 + 9 * shade) << 16 | (40 + 14 * shade) << 8 | (96 + 11 * shade));
        dots += send_colour(c, LAND + shade, (88 + 12 * shade) << 16 | (120 + 8 * shade) << 8 | (48 + 14 * shade));
    }
    dots += send_colour(c, OVERLAY_MAP + GRID, 0x90a8b8);
    dots += send_colour(c, OVERLAY_MAP + DOT, 0xf8f8f0);
    dots += send_colour(c, OVERLAY_MAP + ROUTE, 0xc02020);
    while (c->state.queue.waiting != 0) {
        expect_done(bulitampaw_state_dots(&c->state, c->store, TOTAL_WIDTH, NULL), "dots");
        dots += TOTAL_WIDTH;
    }
    return dots;
}

/* Runs one frame dot by dot, and tells what it consists of. */
static void look_at_a_frame(chip *c)
{
    unsigned long dot, shown = 0, lines = 0, frames = 0;
    bulitampaw_signals before = {0, 0, 0, 0}, now = {0, 0, 0, 0};
    expect_done(bulitampaw_state_dot(&c->state, c->store, &before), "a dot");
    for (dot = 0; dot < (unsigned long)TOTAL_WIDTH * TOTAL_LINES; dot++) {
        expect_done(bulitampaw_state_dot(&c->state, c->store, &now), "a dot");
        shown += !now.blank;
        lines += now.hsync && !before.hsync;
        frames += now.vsync && !before.vsync;
        before = now;
    }
    printf("a frame: %lu dots, %lu of them shown, %lu line syncs, %lu frame sync\n", dot, shown, lines, frames);
}

/* A number that only looks random, 0 to 255, for a corner of a grid. */
static int roughness(int x, int y)
{
    uint32_t n = (uint32_t)x * 374761393u + (uint32_t)y * 668265263u;
    n = (n ^ n >> 13) * 1274126177u;
    return (int)((n ^ n >> 16) & 255);
}

/* Roughness between the corners of a grid of so many pixels. */
static int smooth(int x, int y, int size)
{
    const int left = x / size, top = y / size, dx = x % size, dy = y % size;
    const int above = roughness(left, top) * (size - dx) + roughness(left + 1, top) * dx;
    const int below = roughness(left, top + 1) * (size - dx) + roughness(left + 1, top + 1) * dx;
    return (above * (size - dy) + below * dy) / (size * size);
}

/* How high a round hill rises at a pixel. */
static int hill(int x, int y, int middle_x, int middle_y, int radius)
{
    const int dx = x - middle_x, dy = y - middle_y, inside = radius * radius - dx * dx - dy * dy;
    return inside > 0 ? inside / radius : 0;
}

/* The chart: an island of three hills, above the sea where the sum passes 400. */
static uint32_t chart_index(int x, int y)
{
    const int land = hill(x, y, 470, 560, 420) + hill(x, y, 760, 300, 250) + hill(x, y, 210, 250, 200);
    const int height = land + smooth(x, y, 160) + smooth(x, y, 64) / 2 + smooth(x, y, 24) / 4;
    const int shade = height < 400 ? height * SHADES / 400 : (height - 400) * SHADES / 420;
    return (uint32_t)((height < 400 ? SEA : LAND) + (shade < SHADES ? shade : SHADES - 1));
}

/* A pixel of the legend: red to the right, green down, blue back. Red stands lowest. */
static uint32_t legend_pixel(int x, int y)
{
    const int red = (x - LEGEND_LEFT) * 32 / (LEGEND_RIGHT - LEGEND_LEFT), green = (y - LEGEND_TOP) * 32 / (LEGEND_BOTTOM - LEGEND_TOP);
    return (uint32_t)(red | green << 5 | (31 - red) << 10);
}

/* A pixel of the normal row. The low byte of the chart is its back buffer, half drawn, and must not show. */
static uint32_t normal_pixel(int x, int y)
{
    if (x >= LEGEND_LEFT && x < LEGEND_RIGHT && y >= LEGEND_TOP && y < LEGEND_BOTTOM) {
        return legend_pixel(x, y);
    }
    return chart_index(x, y) << 8 | (uint32_t)(x * y & 255);
}

/* Whether a pixel is in a round dot of the title: the product's name in Braille, 90 pixels a letter, dots 28 apart. */
static int in_title(int x, int y)
{
    static const uint8_t letters[10] = {0x03, 0x25, 0x07, 0x0a, 0x1e, 0x01, 0x0d, 0x0f, 0x01, 0x3a};
    const int letter = (x - 60) / 90, column = (x - 60) % 90 / 28, row = (y - 40) / 28;
    const int dx = (x - 60) % 90 % 28 - 14, dy = (y - 40) % 28 - 14;
    if (x < 60 || letter >= 10 || column >= 2 || y < 40 || row >= 3) {
        return 0;
    }
    return (letters[letter] >> (3 * column + row) & 1) != 0 && dx * dx + dy * dy < 100;
}

/* A byte of the overlay row: the title, a route of dashes, the grid. */
static uint8_t overlay_byte(int x, int y)
{
    const int route = y - 880 + x / 3 + (x - 640) * (x - 640) / 4000;
    if (in_title(x, y)) {
        return DOT;
    }
    if (route >= -2 && route <= 2 && x / 24 % 2 == 0) {
        return ROUTE;
    }
    return x % 160 == 80 || y % 128 == 64 ? GRID : CLEAR;
}

/* Draws a line and appends its pixels to the picture. */
static void draw_line(const chip *c, int y, FILE *picture)
{
    uint8_t normal[2 * WIDTH], overlay[WIDTH], bytes[3 * WIDTH];
    uint32_t colours[WIDTH];
    bulitampaw_planes planes;
    int x;
    for (x = 0; x < WIDTH; x++) {
        put16(normal + 2 * x, normal_pixel(x, y));
        overlay[x] = overlay_byte(x, y);
    }
    planes.table = c->table;
    planes.table_length = sizeof c->table;
    planes.normal = normal;
    planes.normal_length = sizeof normal;
    planes.overlay = overlay;
    planes.overlay_length = sizeof overlay;
    expect_done(bulitampaw_state_line(&c->state, (uint32_t)y, c->store, &planes, colours, WIDTH), "a line");
    for (x = 0; x < WIDTH; x++) {
        bytes[3 * x] = (uint8_t)(colours[x] >> 16);
        bytes[3 * x + 1] = (uint8_t)(colours[x] >> 8);
        bytes[3 * x + 2] = (uint8_t)colours[x];
    }
    fwrite(bytes, 1, sizeof bytes, picture);
}

int main(int count, char **words)
{
    static chip c;
    FILE *picture;
    int y;
    if (count != 2) {
        fprintf(stderr, "usage: frame PICTURE.ppm\n");
        return 2;
    }
    picture = fopen(words[1], "wb");
    if (picture == NULL) {
        perror(words[1]);
        return 1;
    }
    c.state = bulitampaw_fresh();
    set_mode(&c);
    set_windows(&c);
    set_gamma(&c);
    set_cursor(&c);
    printf("the colours: %lu dots until the last was applied\n", load_colours(&c));
    look_at_a_frame(&c);
    fprintf(picture, "P6\n%d %d\n255\n", WIDTH, HEIGHT);
    for (y = 0; y < HEIGHT; y++) {
        draw_line(&c, y, picture);
    }
    if (fflush(picture) != 0 || ferror(picture) || fclose(picture) != 0) {
        perror(words[1]);
        return 1;
    }
    return 0;
}
