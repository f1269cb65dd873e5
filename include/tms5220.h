/* tms5220.h: the TMS5220, TMS5200 and TMS5220C speech chips, proved, for C99 and C++11.

   THE CHIP. A host writes command bytes to it and reads its status. It speaks a phrase from a ROM image, from a byte address that the
   host has loaded, or from bytes that the host writes into a FIFO of 16 while it speaks. A phrase is a list of frames in a bit stream,
   without gaps and without a length; it ends with a stop frame. Samples come at 8,000 a second. The caller makes time pass: a step is
   one sample, a run is as many steps as its buffer has elements.

   A CHIP IS A VALUE, numbers that the caller holds: copy it, write it to a file, compare it with memcmp. Nothing of it is kept in the
   library. tms_power_up makes one; every call on it puts the next one in its place. tms_check says whether numbers that come from
   elsewhere are those of a chip, which may then be resumed.

   THE IMAGE is the bytes of all speech ROMs, one after another, and THE VOICE a file with the tables that turn frames into sound
   (tms_voice_check says how it is made). The caller lends them to each call. External speech wants an image too; a host without a ROM
   lends one byte, of any value.

   A TYPICAL HOST, without error handling:

       tms_chip chip;
       tms_power_up(&chip, TMS_5220, TMS_LEAST_FIRST);
       for (int i = 0; i < 5; i++)                                         five nibbles of the address, the lowest first
           tms_write(&chip, rom, rom_size, TMS_LOAD_ADDRESS | (address >> 4 * i & 15));
       tms_write(&chip, rom, rom_size, TMS_SPEAK);
       while (tms_sounding(&chip)) {
           tms_run(&chip, rom, rom_size, voice, voice_size, samples, 200);  25 milliseconds
           play(samples, 200);
       }

   The last samples are silence: the phrase itself has as many as tms_walk says.

   EXTERNAL SPEECH. Write TMS_SPEAK_EXTERNAL, and then nine to sixteen bytes: no interrupt asks for these, and the ninth starts the speech;
   a shorter phrase is filled up with any bytes. Every byte behind TMS_SPEAK_EXTERNAL, TMS_RESET too, goes to the FIFO, until a stop is
   taken or the bytes run out; only tms_power_up ends it sooner. A frame takes at most seven bytes. So a host is in time that looks at the
   interrupt in every frame, reads the status when it is set, and writes eight bytes when both TMS_TALK and TMS_BUFFER_LOW are set. Without
   TMS_TALK the speech is over: what stood behind the stop in the FIFO is thrown away, and the next byte is a command.

   FRAMES. An energy index of 4 bits, a repeat bit, a pitch index of 6, and indexes of K1 to K10 of 5, 5, 4, 4, 4, 4, 4, 3, 3 and 3, each
   most significant bit first, as far as the kind has them.

       silence   energy 0                  4 bits     unvoiced   repeat bit 0, pitch 0    29 bits, with K1 to K4
       stop      energy 15                 4          voiced     repeat bit 0, a pitch    50, with K1 to K10
       repeat    repeat bit 1             11, the K of the frame before

   A frame lasts 200 samples. On the TMS5220C, TMS_LOAD_FRAME_RATE sets v and rr, 0 at first. With v = 0 a frame lasts 200, 150, 100 or 50
   samples by rr, 0 to 3; with v = 1 each frame, a stop too, has two rate bits more, before the others, that say it.

   REFUSALS. A call takes any numbers and any bytes, and answers one of enum tms_refusal. A refused call leaves the chip and a run's buffer
   as they were, and gives zeros in all else (with TMS_NO_PHRASE, all but `begun` and `missing`). Where several numbers apply, the first
   in the order 3, 5, 6, 7, 8, 9, 4, 1, 2, 10 is given.

   POINTERS point to objects of their type, aligned as C wants them. A buffer of bytes or samples may be NULL where its length is 0; nothing
   else may be NULL. What a call writes overlaps nothing else that it is given. No pointer is kept after a call.

   NO GLOBAL DATA, allocation, input or output: calls on different chips may run at the same time on different threads, and one may be
   made in an interrupt. Calls were measured to stay within TMS_STACK bytes of stack. Of the C library the archive wants memcpy and memset
   alone. It is for x86-64 Linux, to be linked into programs and shared libraries alike.

   WHAT IS PROVED, for every input: each function ends, does nothing undefined given such pointers, answers what the definitions of the
   chip's documents say, and writes that and no more. A chip that is saved and resumed is the same chip. The walk and the chip find the
   same end of a phrase. */
#ifndef TMS5220_H
#define TMS5220_H

#include <stddef.h>
#include <stdint.h>

#define TMS_VERSION "2.0"

/* The interface that this header declares. tms_abi() is that of the library; a program may compare them when it starts. */
#define TMS_ABI 1

#ifdef __cplusplus
extern "C" {
#endif

enum {
    TMS_CHIP = 69,            /* numbers of a chip */
    TMS_RATE = 8000,          /* samples a second */
    TMS_SAMPLE_MIN = -512,    /* a sample times 64 is one of 16 bits */
    TMS_SAMPLE_MAX = 511,
    TMS_FRAME_SAMPLES = 200,  /* samples of a frame; on the TMS5220C it may be 150, 100 or 50 */
    TMS_IMAGE_LIMIT = 262144, /* the most bytes of a ROM image; the least is 1 */
    TMS_VOICE_LIMIT = 562,    /* the most bytes of a voice file; the least is 499 */
    TMS_FIFO_SIZE = 16,       /* bytes that the FIFO holds */
    TMS_FIFO_LOW = 8,         /* with as many, or fewer, TMS_BUFFER_LOW is set */
    TMS_FIFO_START = 9,       /* bytes with which external speech starts */
    TMS_STACK = 2560          /* bytes of stack that are enough for a call, with what it calls; measured, not proved */
};

enum tms_refusal {
    TMS_TAKEN = 0,
    TMS_WAIT = 1,          /* not now: the FIFO is full, the chip speaks from ROM, where it takes Reset alone, or a branch keeps it busy
                              for two samples. Write the byte again later */
    TMS_BEYOND = 2,        /* what is asked for lies beyond the image's end. An address may: the next Speak or Read Byte there is refused */
    TMS_IMAGE = 3,         /* the image is empty, or longer than TMS_IMAGE_LIMIT */
    TMS_STATE = 4,         /* the numbers are those of no chip; or there is no such device, bit order, v or rr */
    TMS_VOICE_SIZE = 5,    /* the voice file has fewer than 499 or more than 562 bytes */
    TMS_VOICE_LENGTH = 6,  /* its length field is not its size less 2 */
    TMS_VOICE_VERSION = 7, /* its version is not 1 */
    TMS_VOICE_VALUE = 8,   /* a value in its tables is out of range */
    TMS_VOICE_PULSE = 9,   /* its pulse count is 0, above 64, or does not fit its length field */
    TMS_NO_PHRASE = 10     /* walk: the bits end before a stop; frame: they end inside it */
};

/* The TMS5200 is a TMS5220 with another voice. */
enum tms_device { TMS_5220 = 0, TMS_5220C = 1 };

/* In which order the bits of a byte that is written into the FIFO are spoken. The TMS5220's data sheet has least significant first.
   The bits of the image are always most significant first. */
enum tms_bit_order { TMS_LEAST_FIRST = 0, TMS_MOST_FIRST = 1 };

/* Commands: bits 4 to 6 of a byte choose; the top bit, and the low four where nothing is put into them, are free. A taken command drops a
   data byte that waits to be read. */
enum tms_command {
    TMS_LOAD_FRAME_RATE = 0x00,  /* | v << 2 | rr: on the TMS5220C sets how long frames last; on the others nothing. 0x20 is the same */
    TMS_READ_BYTE = 0x10,        /* takes eight bits from the image; the next read gives them */
    TMS_READ_AND_BRANCH = 0x30,  /* jumps to the address in the low 14 bits of the two bytes at the position, the low one first, within its
                                    ROM of 16,384 bytes. Until two samples have passed, every byte, TMS_RESET too, has to wait */
    TMS_LOAD_ADDRESS = 0x40,     /* | nibble: sets four bits of the byte address, the lowest first; five loads set all 18. Read Byte, Read
                                    and Branch, Speak and Reset begin with the lowest again; nothing else does */
    TMS_SPEAK = 0x50,            /* speaks from the address, or, where none is loaded, from the bit behind what was spoken or read last.
                                    Each phrase starts from silence, and cuts off the rest of a stop's frame before it */
    TMS_SPEAK_EXTERNAL = 0x60,   /* from now on bytes go to the FIFO, until a stop or until they run out */
    TMS_RESET = 0x70             /* power-up in the same bit order, also while the chip speaks from ROM */
};

/* Bits of the status byte that a read gives where no data byte waits. Outside external speech the FIFO is empty. */
enum tms_status {
    TMS_TALK = 0x80,        /* the chip speaks */
    TMS_BUFFER_LOW = 0x40,  /* the FIFO holds TMS_FIFO_LOW bytes or fewer */
    TMS_BUFFER_EMPTY = 0x20 /* it holds none */
};

/* What a step reports. */
enum tms_report {
    TMS_NOTHING = 0,
    TMS_FRAME = 1,  /* a frame begins */
    TMS_STOP = 2,   /* the stop of the phrase: its frame begins, the mode is idle, and sound ends with the frame */
    TMS_RAN_OUT = 3 /* the bits ended before a stop: silence at once */
};

enum tms_kind { TMS_NO_FRAME = 0, TMS_SILENCE = 1, TMS_STOP_FRAME = 2, TMS_REPEAT = 3, TMS_UNVOICED = 4, TMS_VOICED = 5 };

enum tms_mode { TMS_IDLE = 0, TMS_FROM_ROM = 1, TMS_EXTERNAL_WAITING = 2, TMS_EXTERNAL = 3 };

/* Places in the numbers of a chip, from 0 on. A program may read them; what it writes there is checked by the next call. */
enum tms_number {
    TMS_N_MODE = 0,          /* enum tms_mode */
    TMS_N_POSITION = 1,      /* the position in the image, in bits */
    TMS_N_NIBBLE = 2,        /* the nibble that the next Load Address sets, 0 to 4 */
    TMS_N_PENDING = 3,       /* 1 while a data byte waits to be read */
    TMS_N_DATA = 4,          /* that byte */
    TMS_N_INTERRUPT = 5,     /* see tms_interrupt */
    TMS_N_LEVEL = 6,         /* bytes in the FIFO */
    TMS_N_USED = 7,          /* bits of the oldest that are spoken */
    TMS_N_FIFO = 8,          /* 16 bytes, the oldest first */
    TMS_N_SOUNDING = 24,     /* see tms_sounding */
    TMS_N_SAMPLE = 25,       /* sample of the interval, 0 to 24 */
    TMS_N_INTERVAL = 26,     /* interval of the frame, 0 to 7 */
    TMS_N_NOISE = 27,        /* noise register */
    TMS_N_PULSE = 28,        /* place in the pitch period */
    TMS_N_CURRENT = 29,      /* energy, pitch, K1 to K10 now */
    TMS_N_TARGET = 41,       /* where they move to */
    TMS_N_FILTER = 53,       /* ten memories of the filter */
    TMS_N_DEVICE = 63,       /* enum tms_device */
    TMS_N_V = 64,            /* the frame rate that is set, 0 on the TMS5220 */
    TMS_N_RR = 65,
    TMS_N_HOLD = 66,         /* 1 while the frame holds its values to the last interval */
    TMS_N_BIT_ORDER = 67,    /* enum tms_bit_order */
    TMS_N_BUSY = 68          /* samples for which a branch still keeps the chip busy, 0 to 2 */
};

typedef struct {
    int32_t n[TMS_CHIP];
} tms_chip;

/* A frame: its kind, and indexes into the voice's tables. An index that the kind does not carry is 0. */
typedef struct {
    uint8_t kind;   /* enum tms_kind */
    uint8_t energy; /* 0 to 15; 15 in a stop */
    uint8_t pitch;  /* 0 to 63 */
    uint8_t k[10];  /* K1 to K10 */
    uint8_t rate;   /* its rate bits on a TMS5220C with v = 1, else 0 */
} tms_frame;

/* What a step tells of bits. */
typedef struct {
    size_t begun;   /* ran out in ROM: the bit of the image at which the cut frame begins */
    size_t used_up; /* ran out in the FIFO: the bits that were left in it, and are used up */
    size_t missing; /* ran out: the bits that the cut frame lacks; 0 where the FIFO ended with a whole frame */
    size_t thrown;  /* a stop from the FIFO: the bits behind it, which it throws away */
} tms_bits;

/* How long a frame in an image is. */
typedef struct {
    size_t bits;    /* its bits, rate bits among them */
    size_t begun;   /* with TMS_NO_PHRASE: the bit at which the cut frame begins, */
    size_t missing; /* and the bits that it lacks */
} tms_extent;

/* A phrase of an image. */
typedef struct {
    size_t bits;      /* through its stop */
    size_t frames;    /* the stop among them */
    size_t intervals; /* of 25 samples */
    size_t samples;
    size_t begun;     /* with TMS_NO_PHRASE: the bit of the image at which the cut frame begins, */
    size_t missing;   /* and the bits that it lacks: how short the dump is */
    size_t offset;    /* the bytes of the image that hold it: the first, */
    size_t length;    /* and how many */
} tms_phrase;

/* TMS_ABI of the library. */
uint32_t tms_abi(void);

/* The chip after power-up, whatever the numbers were; TMS_STATE for another device or order. */
uint8_t tms_power_up(tms_chip *chip, uint8_t device, uint8_t bit_order);

/* TMS_TAKEN where the numbers are those of a chip, so that it may be resumed; else TMS_STATE. */
uint8_t tms_check(const tms_chip *chip);

/* Writes a byte to the chip: a command, or in external speech a byte for the FIFO. */
uint8_t tms_write(tms_chip *chip, const uint8_t *image, size_t image_length, uint8_t byte);

/* Reads a byte from the chip: the data byte of Read Byte where one waits, else the status, which clears the interrupt. */
uint8_t tms_read(tms_chip *chip, uint8_t *byte);

/* The byte that tms_read would give, for a debugger: nothing changes, the interrupt stays. */
uint8_t tms_look(const tms_chip *chip, uint8_t *byte);

/* What tms_read does to the chip, without the byte. */
uint8_t tms_acknowledge(tms_chip *chip);

/* One sample of 1/8000 s: the sample, what it reports (enum tms_report), and the frame that begins, with TMS_STOP the stop, else one of the
   kind TMS_NO_FRAME. */
uint8_t tms_step(tms_chip *chip, const uint8_t *image, size_t image_length, const uint8_t *voice, size_t voice_length,
                 int16_t *sample, uint8_t *report, tms_frame *frame, tms_bits *bits);

/* As many steps as `out` has elements, each sample in its place, without their reports. It checks its arguments once, and so takes less
   than a tenth of the time that as many calls of tms_step take. */
uint8_t tms_run(tms_chip *chip, const uint8_t *image, size_t image_length, const uint8_t *voice, size_t voice_length,
                int16_t *out, size_t out_length);

/* The phrase at a byte address, as a TMS5220 would speak it. */
uint8_t tms_walk(const uint8_t *image, size_t image_length, size_t address, tms_phrase *phrase);

/* As a TMS5220C would whose Load Frame Rate has set v (0 or 1) and rr (0 to 3); an image does not say them. With v = 0 every frame lasts
   200 - 50 * rr samples, with v = 1 two rate bits before each frame say how long it lasts. */
uint8_t tms_walk_5220c(const uint8_t *image, size_t image_length, size_t address, uint8_t v, uint8_t rr, tms_phrase *phrase);

/* The frame at a bit of the image, as a TMS5220 reads it; the next one is extent->bits further on. */
uint8_t tms_frame_at(const uint8_t *image, size_t image_length, size_t bit, tms_frame *frame, tms_extent *extent);

/* As a TMS5220C reads it with v. */
uint8_t tms_frame_at_5220c(const uint8_t *image, size_t image_length, size_t bit, uint8_t v, tms_frame *frame, tms_extent *extent);

/* TMS_TAKEN for a voice file that steps and runs take, else 5 to 9. It has, each number of two bytes with the high one first:
   the length of what follows in two bytes, the version 1 in one, 15 energies of 0 to 1023, the first of them 0, 64 pitches of 1 to 1023
   samples a period, but the first 0, 168 K values of -512 to 511, which mean -1 to just below 1 (32 of K1, 32 of K2, 16 each of K3 to
   K7, 8 each of K8 to K10), the number of pulses, 1 to 64, in one byte, and as many pulse values of -128 to 127 in a byte each: the
   excitation within a pitch period, 0 after the last. */
uint8_t tms_voice_check(const uint8_t *voice, size_t voice_length);

/* Whether the interrupt line is set: since the status was read last, TMS_TALK has fallen, or TMS_BUFFER_LOW or TMS_BUFFER_EMPTY has risen,
   in a step. A write does not set it. */
static inline int tms_interrupt(const tms_chip *chip)
{
    return chip->n[TMS_N_INTERRUPT] == 1;
}

/* Whether the chip sounds: from the start of speech until the first step behind the stop's frame, whose sample is 0. TMS_TALK falls when
   that frame begins; where the bits run out, both fall at once. */
static inline int tms_sounding(const tms_chip *chip)
{
    return chip->n[TMS_N_SOUNDING] == 1;
}

#ifdef __cplusplus
}
#endif

#endif
