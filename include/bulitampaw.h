/* Bulitampaw: a model of the GBE display back end, for emulators written in C. Link libbulitampaw.a.

   The header is for C99, and for C++98 and later. The library is for x86-64 Linux: the System V calling convention, little-endian words, pointers of 8 bytes.
   Of the C library it calls memcpy, memmove and memset alone. Where this header is compiled the sizes of all structs that the library knows are checked; where
   a program is linked, the version is.

   Each call is lent what it works on for as long as it runs, and keeps nothing of it: the caller holds state and memory, and there is nothing global.
   So calls may be made from several threads at once, where none of them is lent to change what another is lent too.
   The state goes in and comes back by value; the functions at the end, named bulitampaw_state_ and bulitampaw_session_, take a pointer
   to it instead and read more easily.

   In every answer but a step's the refusal's number 0 says that the call was done; any other says why it was not, and its place stands beside it. A
   refused call hands the state back as it was and leaves every word that it was lent. A step has its own rules, which stand there.

   A call checks all it is given but the pointers: each must lead to as many words or bytes as its length says, and what is lent to be changed
   overlaps nothing else. Where a length is 0 the pointer may be null.

   The rules of the chip stand below in short, and in docs/CHIP.md one by one: CHIP 5.3 is its rule 5.3. */
#ifndef BULITAMPAW_H
#define BULITAMPAW_H

#include <stddef.h>
#include <stdint.h>

#ifdef __cplusplus
extern "C" {
#endif

/* The version of this header. Its number is part of a name in the library, and under GCC and Clang every file that includes the header refers to that name,
   whatever it calls. So a header and a library of two versions don't link, and the linker says which name is missing. */
#define BULITAMPAW_VERSION 1

#define BULITAMPAW_PASTED(name, number) name##number
#define BULITAMPAW_NUMBERED(name, number) BULITAMPAW_PASTED(name, number)
#define BULITAMPAW_LIBRARY_VERSION BULITAMPAW_NUMBERED(bulitampaw_version_, BULITAMPAW_VERSION)

/* The version of the library: bulitampaw_version_1(), which answers 1. */
uint32_t BULITAMPAW_LIBRARY_VERSION(void);

/* The reference to it, which stays where compiler and linker leave out what nothing uses. */
#ifdef __GNUC__
#ifdef __has_attribute
#if __has_attribute(retain)
__attribute__((retain))
#endif
#endif
static uint32_t (*const bulitampaw_needs_version)(void) __attribute__((used)) = BULITAMPAW_LIBRARY_VERSION;
#endif

/* What each refusal number says, and what its place is (CHIP 8.1). */
enum {
    BULITAMPAW_DONE = 0,            /* no refusal */
    BULITAMPAW_NO_REGISTER = 1,     /* the address names no register or is not a multiple of 4: the address, 24 bits */
    BULITAMPAW_READ_ONLY = 2,       /* the word can only be read: the address */
    BULITAMPAW_STRAY_BITS = 3,      /* the value has bits that the register does not keep: the address */
    BULITAMPAW_QUEUE_FULL = 4,      /* a colour write while 64 wait: the address */
    BULITAMPAW_WRONG_LENGTH = 5,    /* something lent has a wrong length: one of the places below */
    BULITAMPAW_NO_LINE = 6,         /* y is the active height or more: y */
    BULITAMPAW_NO_FRAME_ENTRY = 7,  /* no frame entry serves line y: y */
    BULITAMPAW_NO_LINE_ENTRY = 8,   /* no line entry serves a pixel: its x */
    BULITAMPAW_UNDEFINED_ENTRY = 9, /* a pixel's window entry is undefined: its x */
    BULITAMPAW_PAST_TOTAL = 10,     /* origin and size pass the total, either way: 0 */
    BULITAMPAW_BAD_STATE = 11,      /* the state breaks its rule: 0 */
    BULITAMPAW_WRONG_RECORD = 12,   /* an unknown tag, a length that the tag does not allow, too many dots: the record */
    BULITAMPAW_FILE_ENDS = 13,      /* the file ends within a record, or where one should stand: the record */
    BULITAMPAW_TOO_MUCH = 14        /* too many records, or bytes of the table: the record */
};

/* The places of number 5. */
enum {
    BULITAMPAW_STORE = 1,
    BULITAMPAW_TABLE = 2,
    BULITAMPAW_NORMAL = 3,
    BULITAMPAW_OVERLAY = 4,
    BULITAMPAW_OUTPUT = 5,
    BULITAMPAW_TEXT = 6             /* a step's alone */
};

/* Addresses, and how long things are, in words of 32 bits or in bytes (CHIP 2.2, 2.5). Bits 31..24 of an address do not count (CHIP 2.1). */
enum {
    BULITAMPAW_CONTROL_AT = 0x000000,        /* words 0 to 10, of which 9 (room in the queue) and 10 (position) can only be read */
    BULITAMPAW_WINDOW_ENTRIES_AT = 0x010000, /* 13 bits each */
    BULITAMPAW_COLOUR_MAP_AT = 0x020000,     /* 24 bits each; writes wait in the queue */
    BULITAMPAW_GAMMA_MAP_AT = 0x030000,      /* 24 bits each */
    BULITAMPAW_CURSOR_GLYPH_AT = 0x040000,   /* 32 bits each */
    BULITAMPAW_CURSOR_COLOURS_AT = 0x041000, /* 24 bits each */

    BULITAMPAW_CONTROL_WORDS = 9,            /* that the state holds */
    BULITAMPAW_QUEUE_SLOTS = 64,             /* colour writes that can wait */

    BULITAMPAW_STORE_WORDS = 4963,           /* of the store exactly: these five blocks, one behind the other */
    BULITAMPAW_WINDOW_ENTRIES = 32,
    BULITAMPAW_COLOUR_MAP_WORDS = 4608,
    BULITAMPAW_GAMMA_MAP_WORDS = 256,
    BULITAMPAW_CURSOR_GLYPH_WORDS = 64,
    BULITAMPAW_CURSOR_COLOURS = 3,

    BULITAMPAW_TABLE_BYTES = 65536,          /* the longest window-ID table, rows and line; a step's rooms have exactly these lengths */
    BULITAMPAW_NORMAL_BYTES = 8192,
    BULITAMPAW_OVERLAY_BYTES = 2048,
    BULITAMPAW_OUTPUT_WORDS = 2048,
    BULITAMPAW_TEXT_BYTES = 14368,           /* the room that a step's text needs at least */
    BULITAMPAW_RECORD_BYTES = 65538          /* the longest record of a session file: a buffer of this length holds any */
};

/* The fields of words.
   Control word 0 has switches (CHIP 2.3): overlay (bit 0), window IDs (1), cursor (2), cross-hair (3), depth 32 in place of 16 (4). Each other but 9 has a field
   in bits 11..0 and one in 27..16, of word 7 in 10..0 and 26..16: 1 total width and total lines, each less 1; on and off of 2 horizontal sync, 3 vertical sync,
   4 horizontal blank, 5 vertical blank; 6 x and y of the active origin; 7 active width and height, each less 1; 8 x and y of the cursor; 10, read only, x and y
   of the beam. Word 9, read only, is a number: the room in the queue, 64 less those that wait.
   A window entry (CHIP 5.1) has the buffer in bit 0, the format in 3..1, the bank in 8..4, bypass of gamma in 9, overlay allowed in 10, and 0 in 12..11.
   A frame entry of the ID table (CHIP 4.3; 32 bits) has its last line in 26..16, a block in 14..8 and an offset in 7..0. A line entry (CHIP 4.6; 16 bits) has
   its last pixel in 15..5 and a window ID in 4..0. Their other bits do not count.
   Colours (CHIP 5.8) have red in 23..16, green in 15..8, blue in 7..0. */

/* Dots and the colour queue.
   A signal goes by its on and off and by p, which is the beam's x for a horizontal one and its y for a vertical one. It holds from on up to the place before
   off; where on is above off, from on upwards and below off; where they are equal, nowhere (CHIP 3.1, 3.2). Blank is horizontal or vertical blank.
   A dot reports the signals where the beam is; if that is blanked, the colour write that has waited longest is applied; then the beam moves (CHIP 3.3): to the
   right, at the end of the total width or past it to the start of the next line, and at the last of the total lines or past it to the first (CHIP 3.4). */

/* The window ID of a pixel. Where window IDs are off it is 0 (CHIP 4.1). Where they are on the table says it, in big-endian entries, of which only whole ones
   count. Frame entries stand at its front, 2,048 at most. The first with a last line of y or more serves line y (CHIP 4.3, 4.4). Its line table starts at byte
   512 * block + 2 * offset, and ends with that block of 512 bytes or with the table (CHIP 4.5). The first line entry with a last pixel of x or more serves
   pixel x (CHIP 4.7). */

/* The formats of a normal pixel (CHIP 5.2). It is big-endian. Its low half is buffer 0, its high half buffer 1, and of half or whole the low bits are used
   (CHIP 5.3).

       format       bits   depth 16          depth 32          what the bits are (CHIP 5.5, 5.6)
       0 index         8   a half            a half            entry 256 * bank + bits of the colour map, bank 0 to 17
       1 index        12   whole, buffer 0   a half            that entry of the colour map
       2 RGB 3-3-2     8   a half            a half            red lowest, then green, then blue; so in 3 to 5
       3 RGB 4-4-4    12   whole, buffer 0   a half
       4 RGB 5-5-5    15   whole, buffer 0   a half
       5 RGB 8-8-8    24   none              whole, buffer 0

   A channel becomes 8 bits by its own bits, over and over from the top (CHIP 5.7): 101 becomes 10110110.
   An entry is undefined (CHIP 5.4) where its format is 6 or 7, the table here has no such depth or buffer for it, bits 12..11 are not 0, or the bank of format
   0 is above 17. Formats 1 to 5 do not look at the bank. */

/* The colour of a pixel is the first of these three that shows (CHIP 6.1). Its x and y count from the upper left corner of the picture (CHIP 6.7).
   The cursor, where it is on. The glyph has 32 rows of 32 cells, and its lower right cell is at the cursor's x and y: a pixel has row y + 31 - cursor y and
   column x + 31 - cursor x, if both are 0 to 31. A row is two words of 16 cells, the leftmost in bits 31..30. A cell of 1 to 3 shows that cursor colour, and 0
   shows nothing (CHIP 6.5). Where cross-hair is on too the glyph does not count: cursor colour 1 shows wherever x or y is the cursor's (CHIP 6.6).
   The overlay, where it is on and the window entry allows it: a byte other than 0 shows entry 4,352 + byte of the colour map (CHIP 6.2).
   The normal pixel.
   Colours of overlay and normal pixel go through gamma, unless the window entry bypasses it: each channel becomes the same channel of the gamma word whose
   number it is (CHIP 6.3). Cursor colours do not (CHIP 6.4). */

/* A session file has records (CHIP 9.1): a tag of one byte, a length of two bytes, and a body of that length. Numbers are big-endian.

       tag         body, and its bytes                  what is listed of it (CHIP 9.7)
       0 end       0                                    nothing
       1 write     address and value, 4 each            ok
       2 dots      a count, 4, of 16,777,216 at most    at x y: where the beam then is
       3 table     any, 65,536 in all at most           ok: they are put behind those before them
       4 normal    8,192 at most                        ok: the row stays until the next comes
       5 overlay   2,048 at most                        ok: likewise
       6 line      y, 2                                 line y, and then a line for each pixel: six hex digits

   A refused record lists: refused number place. 12, 14 and 13, looked for in this order, end the run (CHIP 9.5). There are 1,000,000 records at most, and the
   end is one of them (CHIP 9.3). */

/* Where the beam is. */
typedef struct {
    uint32_t x, y;
} bulitampaw_position;

/* A colour write that waits: an entry of the colour map and its new word. */
typedef struct {
    uint32_t entry, colour;
} bulitampaw_waiting;

/* The colour writes that wait stand in the first slots, the oldest in slot 0. */
typedef struct {
    uint32_t waiting;
    bulitampaw_waiting slots[BULITAMPAW_QUEUE_SLOTS];
} bulitampaw_queue;

/* All that the chip holds besides the store. It keeps its rule (CHIP 8.4) where no control word has bits outside its fields, x and y are at most 4,095, at
   most 64 writes wait, and each of these is to an entry below 4,608 and of 24 bits. Number 11 says that it doesn't. */
typedef struct {
    uint32_t control[BULITAMPAW_CONTROL_WORDS];
    bulitampaw_position at;
    bulitampaw_queue queue;
} bulitampaw_state;

/* Why a call was refused: number and place. Number 0 says that it was done; its place is 0 too. */
typedef struct {
    uint32_t number, place;
} bulitampaw_refusal;

/* Where reported is 1, the signals of the last dot, each 1 or 0; where it is 0 no dot was made, and all are 0. */
typedef struct {
    uint32_t reported, hsync, vsync, blank;
} bulitampaw_signals;

/* What a write answers. */
typedef struct {
    bulitampaw_state state;
    bulitampaw_refusal refusal;
} bulitampaw_written;

/* What a read answers: the word, or 0 where it is refused. */
typedef struct {
    bulitampaw_state state;
    bulitampaw_refusal refusal;
    uint32_t word;
} bulitampaw_read_back;

/* What dots answer, one or many. */
typedef struct {
    bulitampaw_state state;
    bulitampaw_refusal refusal;
    bulitampaw_signals signals;
} bulitampaw_dotted;

/* What a line answers. */
typedef struct {
    bulitampaw_state state;
    bulitampaw_refusal refusal;
} bulitampaw_drawn;

/* A recorded session: the chip, how many bytes of the lent table and rows are there, and how many records stood before the next. */
typedef struct {
    bulitampaw_state state;
    size_t table, normal, overlay;
    uint32_t records;
} bulitampaw_session;

/* What a step comes to. */
enum {
    BULITAMPAW_STATUS_REFUSED = 0, /* nothing: the call was refused, and all is as it was */
    BULITAMPAW_STATUS_LISTED = 1,  /* a record was run, and its entry of the listing is the text; the refusal is the record's */
    BULITAMPAW_STATUS_END = 2,     /* the end record: the run is over, and what stands behind it is not for it */
    BULITAMPAW_STATUS_MORE = 3,    /* the bytes end before or within a record, and the file goes on: nothing was done */
    BULITAMPAW_STATUS_STOPPED = 4  /* a fault of the file, 12 to 14, which the text lists: the run is over */
};

/* What a step answers: where the next record starts, how many bytes of text it put, the refusal that it lists or is answered by, and what it comes
   to. Number 0 says that there is no refusal, and not that a record was run; status says that. */
typedef struct {
    bulitampaw_session session;
    size_t next, text;
    bulitampaw_refusal refusal;
    uint32_t status;
} bulitampaw_stepped;

/* A fresh state: all zero, nothing waiting (CHIP 2.7). The store of a fresh chip is all zero too. It is the caller's, and the same one is lent to each call. */
bulitampaw_state bulitampaw_fresh(void);

/* Writes a value to the register at an address. A colour write waits in the queue; any other acts at once (CHIP 3.6).
   Refused by 11, 5, 1, 2, 3 or 4, the first that holds (CHIP 8.2, here and below). */
bulitampaw_written bulitampaw_write(bulitampaw_state state, uint32_t *store, size_t store_length, uint32_t address, uint32_t value);

/* Reads the register at an address: kept bits of the stored word (CHIP 2.6), never of a waiting one (CHIP 3.7). Refused by 11, 5 or 1. */
bulitampaw_read_back bulitampaw_read(bulitampaw_state state, const uint32_t *store, size_t store_length, uint32_t address);

/* One dot: reports the signals at the position, applies the oldest colour write if blanked, and moves (CHIP 3.3). Refused by 11 or 5. */
bulitampaw_dotted bulitampaw_dot(bulitampaw_state state, uint32_t *store, size_t store_length);

/* So many dots, one after the other; of none nothing is reported (CHIP 3.5). Refused by 11 or 5.
   The time goes by lines and not by dots, some nanoseconds a line, and where nothing waits by neither. */
bulitampaw_dotted bulitampaw_dots(bulitampaw_state state, uint32_t *store, size_t store_length, uint32_t count);

/* Draws line y: the first words of the output, as many as the active width, become its colours, and the words past them stay (CHIP 6.8).
   Each colour has red in bits 23..16, green in 15..8, blue in 7..0, and 0 above. Neither state nor store changes.
   Where window IDs are off the table isn't looked at; else it has 65,536 bytes at most. The normal row has exactly 2 bytes a pixel at depth 16, 4 at depth 32,
   big-endian. Where overlay is off its row isn't looked at; else it has exactly one byte a pixel. The output has at least one word a pixel (CHIP 8.3).
   Refused by 11, 10, 6, 5 at the lowest place, 7, and then by 8 or 9 at the first pixel from the left that has either fault. What the answer rests on is
   listed in CHIP 7.1: nothing else of what is lent can change it. */
bulitampaw_drawn bulitampaw_line(bulitampaw_state state, uint32_t y, const uint32_t *store, size_t store_length,
    const uint8_t *table, size_t table_length, const uint8_t *normal, size_t normal_length,
    const uint8_t *overlay, size_t overlay_length, uint32_t *output, size_t output_length);

/* A session before its first record: a fresh chip, table and rows empty. Its store starts all zero; the other rooms may hold anything. */
bulitampaw_session bulitampaw_fresh_session(void);

/* Runs the record at a place of a session file's bytes, on the lent store, table, rows and output, and puts its text, without a closing zero byte, at the
   front of the text. The next step goes on at the place that comes back. A last other than 0 says that the file ends with these bytes. At a place past
   their end nothing stands. However the bytes of a file are cut, its texts are the same (CHIP 9.8).
   A record that is not whole is waited for, unless the file ends: the step then comes to BULITAMPAW_STATUS_MORE and did nothing. Lend the bytes from the same
   place on again, with more behind them, or with last set. Only 12 is told of such a record at once; 14 and 13 may depend on what follows (CHIP 9.4).
   Store, table, rows and output have exactly the lengths above, the text at least its own. The call is refused by 11 where the session says that more of
   table or rows is there than their rooms hold, then by 5 at the lowest place. That is no line of the listing. What a record is refused for, 11 for a
   bad state of the chip too, is listed: it stands in the text and in the answer, and the run goes on.
   A run is over with BULITAMPAW_STATUS_END, BULITAMPAW_STATUS_STOPPED and a refused call. A step does not remember that: whoever steps on reads what stands
   there as a record. Where no record was run the place comes back as it was; after the end record it is the place behind it. */
bulitampaw_stepped bulitampaw_step(bulitampaw_session session, const uint8_t *bytes, size_t length, size_t place, uint32_t last,
    uint32_t *store, size_t store_length, uint8_t *table, size_t table_length, uint8_t *normal, size_t normal_length,
    uint8_t *overlay, size_t overlay_length, uint32_t *output, size_t output_length, uint8_t *text, size_t text_length);

/* Whether a window entry is defined at a depth (CHIP 10.1): 1 or 0. The low 13 bits of the entry count. At a depth other than 16 or 32 the answer is 0. */
uint32_t bulitampaw_entry_defined(uint32_t entry, uint32_t depth);

/* Whether a signal holds at p, by its circular window from on to off (CHIP 10.2): 1 or 0. Where on and off are equal the answer is 0. */
uint32_t bulitampaw_signal_holds(uint32_t on, uint32_t off, uint32_t p);

/* What is C alone stands from here on: names, the same calls with a pointer, checks of sizes. */

/* A refusal number in words. */
static inline const char *bulitampaw_refusal_name(uint32_t number)
{
    switch (number) {
    case BULITAMPAW_DONE: return "done";
    case BULITAMPAW_NO_REGISTER: return "no register at the address";
    case BULITAMPAW_READ_ONLY: return "a word that can only be read";
    case BULITAMPAW_STRAY_BITS: return "bits that are not kept";
    case BULITAMPAW_QUEUE_FULL: return "the queue is full";
    case BULITAMPAW_WRONG_LENGTH: return "a wrong length";
    case BULITAMPAW_NO_LINE: return "no such line";
    case BULITAMPAW_NO_FRAME_ENTRY: return "no frame entry serves the line";
    case BULITAMPAW_NO_LINE_ENTRY: return "no line entry serves a pixel";
    case BULITAMPAW_UNDEFINED_ENTRY: return "an undefined window entry";
    case BULITAMPAW_PAST_TOTAL: return "the picture passes the total";
    case BULITAMPAW_BAD_STATE: return "a bad state";
    case BULITAMPAW_WRONG_RECORD: return "a wrong record";
    case BULITAMPAW_FILE_ENDS: return "the file ends too soon";
    case BULITAMPAW_TOO_MUCH: return "too much in the file";
    default: return "not a refusal number";
    }
}

/* What a step comes to, in words. */
static inline const char *bulitampaw_status_name(uint32_t status)
{
    switch (status) {
    case BULITAMPAW_STATUS_REFUSED: return "refused";
    case BULITAMPAW_STATUS_LISTED: return "listed";
    case BULITAMPAW_STATUS_END: return "the end";
    case BULITAMPAW_STATUS_MORE: return "more bytes are needed";
    case BULITAMPAW_STATUS_STOPPED: return "stopped by a fault of the file";
    default: return "not a status";
    }
}

/* A control word of two fields, one from bit 0 and one from bit 16. Each has to be below 65,536: bits above are lost or fall into the other field. One that is
   too wide for its field is refused by 3 when it is written. */
static inline uint32_t bulitampaw_two_fields(uint32_t low, uint32_t high)
{
    return low | high << 16;
}

/* The same calls with a pointer to the state or the session, which they bring up to date. */

/* What a line is lent to read besides the store. */
typedef struct {
    const uint8_t *table, *normal, *overlay;
    size_t table_length, normal_length, overlay_length;
} bulitampaw_planes;

/* All that a step is lent to change, some 118,000 bytes. Before the first record the store is all zero, and the others hold anything:
   bulitampaw_session_begin sees to that. */
typedef struct {
    uint32_t store[BULITAMPAW_STORE_WORDS];
    uint8_t table[BULITAMPAW_TABLE_BYTES];
    uint8_t normal[BULITAMPAW_NORMAL_BYTES];
    uint8_t overlay[BULITAMPAW_OVERLAY_BYTES];
    uint32_t output[BULITAMPAW_OUTPUT_WORDS];
    uint8_t text[BULITAMPAW_TEXT_BYTES];
} bulitampaw_rooms;

/* What a step comes to, how many bytes of text it put, and the refusal. */
typedef struct {
    size_t text;
    bulitampaw_refusal refusal;
    uint32_t status;
} bulitampaw_step_result;

/* A write. The store has BULITAMPAW_STORE_WORDS words, here and below. */
static inline bulitampaw_refusal bulitampaw_state_write(bulitampaw_state *state, uint32_t *store, uint32_t address, uint32_t value)
{
    const bulitampaw_written written = bulitampaw_write(*state, store, BULITAMPAW_STORE_WORDS, address, value);
    *state = written.state;
    return written.refusal;
}

/* A read. The word is 0 where it is refused. */
static inline bulitampaw_refusal bulitampaw_state_read(const bulitampaw_state *state, const uint32_t *store, uint32_t address, uint32_t *word)
{
    const bulitampaw_read_back read = bulitampaw_read(*state, store, BULITAMPAW_STORE_WORDS, address);
    *word = read.word;
    return read.refusal;
}

/* One dot. Where signals isn't null, they become the dot's. */
static inline bulitampaw_refusal bulitampaw_state_dot(bulitampaw_state *state, uint32_t *store, bulitampaw_signals *signals)
{
    const bulitampaw_dotted dotted = bulitampaw_dot(*state, store, BULITAMPAW_STORE_WORDS);
    *state = dotted.state;
    if (signals)
        *signals = dotted.signals;
    return dotted.refusal;
}

/* So many dots. Where signals isn't null, they become those of the last one. */
static inline bulitampaw_refusal bulitampaw_state_dots(bulitampaw_state *state, uint32_t *store, uint32_t count, bulitampaw_signals *signals)
{
    const bulitampaw_dotted dotted = bulitampaw_dots(*state, store, BULITAMPAW_STORE_WORDS, count);
    *state = dotted.state;
    if (signals)
        *signals = dotted.signals;
    return dotted.refusal;
}

/* A line, drawn into an output of so many words. */
static inline bulitampaw_refusal bulitampaw_state_line(const bulitampaw_state *state, uint32_t y, const uint32_t *store,
    const bulitampaw_planes *planes, uint32_t *output, size_t output_length)
{
    const bulitampaw_drawn drawn = bulitampaw_line(*state, y, store, BULITAMPAW_STORE_WORDS,
        planes->table, planes->table_length, planes->normal, planes->normal_length,
        planes->overlay, planes->overlay_length, output, output_length);
    return drawn.refusal;
}

/* Begins a session: makes the store of the rooms all zero and the session fresh. What the other rooms hold does not matter. */
static inline void bulitampaw_session_begin(bulitampaw_session *session, bulitampaw_rooms *rooms)
{
    size_t word;
    for (word = 0; word < BULITAMPAW_STORE_WORDS; word++)
        rooms->store[word] = 0;
    *session = bulitampaw_fresh_session();
}

/* A step at a place of some bytes, which becomes that of the next record. The text stands in the rooms. */
static inline bulitampaw_step_result bulitampaw_session_step(bulitampaw_session *session, bulitampaw_rooms *rooms,
    const uint8_t *bytes, size_t length, size_t *place, uint32_t last)
{
    const bulitampaw_stepped stepped = bulitampaw_step(*session, bytes, length, *place, last,
        rooms->store, BULITAMPAW_STORE_WORDS, rooms->table, BULITAMPAW_TABLE_BYTES, rooms->normal, BULITAMPAW_NORMAL_BYTES,
        rooms->overlay, BULITAMPAW_OVERLAY_BYTES, rooms->output, BULITAMPAW_OUTPUT_WORDS, rooms->text, BULITAMPAW_TEXT_BYTES);
    bulitampaw_step_result result;
    *session = stepped.session;
    *place = stepped.next;
    result.text = stepped.text;
    result.refusal = stepped.refusal;
    result.status = stepped.status;
    return result;
}

/* Sizes as the library has them. Where one differs, a struct is not laid out as on x86-64 Linux, and the name of the type that can't be had says which. */
#define BULITAMPAW_SIZE(type, bytes) typedef char type##_has_##bytes##_bytes[sizeof(type) == (bytes) ? 1 : -1]
BULITAMPAW_SIZE(bulitampaw_position, 8);
BULITAMPAW_SIZE(bulitampaw_waiting, 8);
BULITAMPAW_SIZE(bulitampaw_queue, 516);
BULITAMPAW_SIZE(bulitampaw_state, 560);
BULITAMPAW_SIZE(bulitampaw_refusal, 8);
BULITAMPAW_SIZE(bulitampaw_signals, 16);
BULITAMPAW_SIZE(bulitampaw_written, 568);
BULITAMPAW_SIZE(bulitampaw_read_back, 572);
BULITAMPAW_SIZE(bulitampaw_dotted, 584);
BULITAMPAW_SIZE(bulitampaw_drawn, 568);
BULITAMPAW_SIZE(bulitampaw_session, 592);
BULITAMPAW_SIZE(bulitampaw_stepped, 624);
#undef BULITAMPAW_SIZE

#ifdef __cplusplus
}
#endif

#endif
