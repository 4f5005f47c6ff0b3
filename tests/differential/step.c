#include "step.h"

#include "bytes.h"
#include "layout.h"
#include "request.h"

const char *const entry_name[STEP_KINDS] = {
    "power-on", "take", "serve", "give", "work", "lock", "unlock", "set V", "sample", "repair", "save", "convert",
    "edit image", "edit record", "new image", "new record", "used length", "flip bit"
};

const char *const buffer_name[BUFFERS] = { "record", "private area", "mailbox", "image", "disk", "check area" };

const char *const kind_name[REQUEST_KINDS] = {
    "status read", "key: Long", "key: pattern fill", "key: sector fill", "key: timers", "key: feature",
    "key: table", "key: other", "E1h read", "E1h write", "E1h read, count 2", "E1h write, count 2",
    "24h read", "34h write", "other"
};

/* One letter for each buffer: '.' not a parameter, 'c' only read, 'm' may change. */
static const char buffers_of[ENTRIES][BUFFERS + 1] = {
    [POWER_ON]    = "mm.ccc",
    [TAKE]        = "mmc...",
    [SERVE]       = "mm..mm",
    [GIVE]        = "mcm...",
    [WORK]        = "mc..mm",
    [LOCK]        = "m.....",
    [UNLOCK]      = "m.....",
    [SET_VISIBLE] = "m.....",
    [SAMPLE]      = "m.....",
    [REPAIR]      = "m...mc",
    [SAVE]        = "c..m..",
    [CONVERT]     = "...m..",
};

bool entry_has(enum entry entry, enum buffer buffer)
{
    return buffers_of[entry][buffer] != '.';
}

bool entry_may_change(enum entry entry, enum buffer buffer)
{
    return buffers_of[entry][buffer] == 'm';
}

/* ---- Requests ------------------------------------------------------------ */

static enum request_kind kind_of_key(const uint8_t *key)
{
    switch (get16(key)) {
    case 1:  return K_LONG;
    case 2:  return get16(key + 2) == 2 ? K_FILL_SECTOR : K_FILL_PATTERN;
    case 3:  return K_TIMER;
    case 4:  return K_FEATURE;
    case 5:  return K_TABLE;
    default: return K_OTHER_KEY;
    }
}

/* An E1h of two sectors that is good is a Long transfer. */
static enum request_kind kind_of_data(bool write, unsigned count)
{
    if (count == 2)
        return write ? K_LONG_WRITE : K_LONG_READ;
    return write ? K_DATA_WRITE : K_DATA_READ;
}

static enum request_kind kind_of_log(const uint8_t *mailbox, bool write, unsigned count)
{
    if (mailbox[R_LOW] == 0xE1)
        return kind_of_data(write, count);
    if (mailbox[R_LOW] != 0xE0 || count != 1)
        return K_OTHER;
    return write ? kind_of_key(mailbox + R_SECTOR) : K_STATUS;
}

enum request_kind kind_of_request(const uint8_t *mailbox)
{
    uint8_t feature = mailbox[R_FEATURES];

    switch (mailbox[R_COMMAND]) {
    case 0x24: return K_SECTOR_READ;
    case 0x34: return K_SECTOR_WRITE;
    case 0x2F:
    case 0x3F:
        if (mailbox[R_MID] != 0 || mailbox[R_MID_PREVIOUS] != 0)
            return K_OTHER;
        return kind_of_log(mailbox, mailbox[R_COMMAND] == 0x3F, get16(mailbox + R_COUNT));
    case 0xB0:
        if ((feature != 0xD5 && feature != 0xD6) || mailbox[R_MID] != 0x4F || mailbox[R_HIGH] != 0xC2)
            return K_OTHER;
        return kind_of_log(mailbox, feature == 0xD6, mailbox[R_COUNT]);
    default:
        return K_OTHER;
    }
}

/* ---- Words --------------------------------------------------------------- */

static void print_bytes(FILE *out, const uint8_t *at, unsigned count)
{
    for (unsigned i = 0; i < count; i++)
        fprintf(out, "%s%02X", i == 0 ? "" : " ", at[i]);
}

static void print_request(FILE *out, const uint8_t *mailbox)
{
    enum request_kind kind = kind_of_request(mailbox);
    const uint8_t *key = mailbox + R_SECTOR;

    fprintf(out, ", %s, registers ", kind_name[kind]);
    print_bytes(out, mailbox, 14);
    if (kind == K_FILL_PATTERN || kind == K_FILL_SECTOR)
        fprintf(out, ", function %u start %llu count %llu", get16(key + 2),
                (unsigned long long)get64(key + 4), (unsigned long long)get64(key + 12));
    if (kind == K_LONG)
        fprintf(out, ", function %u LBA %llu", get16(key + 2), (unsigned long long)get64(key + 4));
    if (kind == K_STATUS || kind == K_DATA_READ || kind == K_LONG_READ || kind == K_SECTOR_READ)
        return;
    fprintf(out, ", sector ");
    print_bytes(out, key, 24);
    fprintf(out, " ..");
    if (kind == K_LONG_WRITE)
        fprintf(out, ", check %04Xh", get16(mailbox + R_CHECK));
}

size_t right_length(enum buffer buffer, uint64_t sectors)
{
    switch (buffer) {
    case RECORD:       return SCT_RECORD_BYTES;
    case PRIVATE_AREA: return SCT_PRIVATE_BYTES;
    case MAILBOX:      return SCT_MAILBOX_BYTES;
    case DISK:         return (size_t)sectors * SCT_SECTOR_BYTES;
    case CHECK_AREA:   return (size_t)sectors * SCT_CHECK_BYTES;
    default:           return 0;
    }
}

static void print_lengths(FILE *out, const struct step *step, uint64_t sectors)
{
    for (enum buffer b = 0; b < BUFFERS; b++) {
        if (!entry_has(step->entry, b))
            continue;
        if (b != IMAGE && step->length[b] == right_length(b, sectors))
            continue;
        fprintf(out, ", %s of %zu bytes", buffer_name[b], step->length[b]);
        if (step->length[b] == 0 && step->null_if_empty)
            fprintf(out, " (NULL)");
    }
}

static void print_edit(FILE *out, const struct step *step)
{
    switch (step->entry) {
    case EDIT_IMAGE:
        fprintf(out, ": byte %zu (%zu of its entry) becomes %02Xh",
                step->offset, step->offset % SCT_ENTRY_BYTES, step->value);
        break;
    case EDIT_RECORD:
        fprintf(out, ": byte %zu (%s) becomes %02Xh", step->offset, field_at(step->offset), step->value);
        break;
    case NEW_IMAGE:
        fprintf(out, ": %u entries of form %u, of a disk of %llu sectors", step->chain, step->form,
                (unsigned long long)step->native);
        if (step->foreign != 0)
            fprintf(out, "; entry %u of the other form", step->foreign);
        break;
    case NEW_RECORD:
        fprintf(out, ": %s, of a disk of %llu sectors", step->spoilt ? "one number moved" : "sound",
                (unsigned long long)step->native);
        break;
    case FLIP_BIT:
        fprintf(out, " %u of sector %zu%s", (unsigned)(step->bit % SECTOR_BITS), step->offset,
                step->bit < SECTOR_BITS ? "" : ", in its check bytes");
        break;
    default:
        fprintf(out, " becomes %llu", (unsigned long long)step->used);
        break;
    }
}

void print_step(FILE *out, const struct step *step, uint64_t sectors)
{
    fprintf(out, "%s", entry_name[step->entry]);
    if (step->entry >= ENTRIES) {
        print_edit(out, step);
        return;
    }
    switch (step->entry) {
    case TAKE:
        fprintf(out, " port %u", step->port);
        print_request(out, step->mailbox);
        break;
    case SERVE:
    case GIVE:
        fprintf(out, " port %u", step->port);
        break;
    case WORK:
        fprintf(out, " %u", step->n);
        break;
    case SET_VISIBLE:
        fprintf(out, " %llu", (unsigned long long)step->visible);
        break;
    case SAMPLE:
        fprintf(out, " %02Xh", step->reading);
        break;
    case REPAIR:
        fprintf(out, " sector %llu", (unsigned long long)step->lba);
        break;
    case SAVE:
    case POWER_ON:
        fprintf(out, ", used %llu", (unsigned long long)step->used);
        break;
    case CONVERT:
        fprintf(out, " to form %u, used %llu", step->form, (unsigned long long)step->used);
        break;
    default:
        break;
    }
    print_lengths(out, step, sectors);
}
